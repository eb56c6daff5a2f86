"""The rules on the tree of a whole text: RFC 7946, and docs/rules.md where it leaves a choice.

Each function gives a list of faults, pairs of a place and the number of a rule.
"""

from decimals import exact

SIMPLE = ["Point", "MultiPoint", "LineString", "MultiLineString", "Polygon", "MultiPolygon"]
GEOMETRIES = SIMPLE + ["GeometryCollection"]
# What a value stands as, and the types that an object may then have (section 7).
ALLOWED = {"text": GEOMETRIES + ["Feature", "FeatureCollection"], "geometry": GEOMETRIES, "feature": ["Feature"]}
KNOWN = ["type", "coordinates", "geometries", "geometry", "properties", "features", "bbox", "id"]


def forbidden_names(kind):
    """Section 7.1."""
    if kind == "Feature":
        return ["coordinates", "geometries", "features"]
    if kind == "FeatureCollection":
        return ["coordinates", "geometries", "geometry", "properties"]
    return ["geometry", "properties", "features"]


def first_member(value, name):
    """The first member of this name, or None: of repeated members the first counts."""
    for member in value.members:
        if member.name == name:
            return member
    return None


def first_value(value, name):
    member = first_member(value, name)
    return member.value if member else None


def type_of(value, role):
    """The type of an object, or None where it is missing or not allowed here."""
    named = first_value(value, "type")
    if named is not None and named.kind == "string" and named.text in ALLOWED[role]:
        return named.text
    return None


def faults(value, role):
    """The faults of a value that is due to be an object."""
    if value.kind != "object":
        return [(value.place, 1)]
    found = [(member.place, 10) for member in value.members if member.name in KNOWN and member is not first_member(value, member.name)]
    if (box := first_value(value, "bbox")) is not None:
        found += bbox_faults(box)
    kind = type_of(value, role)
    if kind is None:
        named = first_value(value, "type")
        return found + [(value.place, 2) if named is None else (named.place, 3)]
    for name in forbidden_names(kind):
        if (member := first_member(value, name)) is not None:
            found.append((member.place, 9))
    if kind in SIMPLE:
        return found + member_faults(value, "coordinates", 4, lambda it: coordinates_faults(it, kind))
    if kind == "GeometryCollection":
        return found + member_faults(value, "geometries", 5, lambda it: list_faults(it, "geometry"))
    if kind == "FeatureCollection":
        return found + member_faults(value, "features", 8, lambda it: list_faults(it, "feature"))
    found += member_faults(value, "geometry", 6, lambda it: [] if it.kind == "null" else faults(it, "geometry"))
    found += member_faults(value, "properties", 7, lambda it: [] if it.kind in ("object", "null") else [(it.place, 18)])
    name = first_value(value, "id")
    if name is not None and name.kind not in ("string", "number"):
        found.append((name.place, 19))
    return found


def member_faults(value, name, missing, of_value):
    """The faults of a member that is due: the rule `missing` where it is not there."""
    member = first_member(value, name)
    return of_value(member.value) if member else [(value.place, missing)]


def list_faults(value, role):
    """Sections 3.1.8 and 3.3."""
    if value.kind != "array":
        return [(value.place, 17)]
    return [fault for element in value.elements for fault in faults(element, role)]


def bbox_faults(value):
    """Section 5."""
    if value.kind != "array":
        return [(value.place, 20)]
    found = [(element.place, 20) for element in value.elements if element.kind != "number"]
    if len(value.elements) % 2 == 1 or len(value.elements) < 4:
        found.append((value.place, 21))
    return found


def coordinates_faults(value, kind):
    """Sections 3.1.1 to 3.1.7. An empty array is right for each type."""
    if value.kind == "array" and not value.elements:
        return []
    return {
        "Point": position_faults,
        "MultiPoint": each(position_faults),
        "LineString": line_faults,
        "MultiLineString": each(line_faults),
        "Polygon": each(ring_faults),
        "MultiPolygon": each(each(ring_faults)),
    }[kind](value)


def each(of_element):
    """The faults of an array by those of its elements."""

    def of_array(value):
        if value.kind != "array":
            return [(value.place, 11)]
        return [fault for element in value.elements for fault in of_element(element)]

    return of_array


def position_faults(value):
    """Section 3.1.1."""
    if value.kind != "array":
        return [(value.place, 11)]
    found = [(element.place, 11) for element in value.elements if element.kind != "number"]
    if len(value.elements) < 2:
        found.append((value.place, 12))
    for element in value.elements[:3]:
        if element.kind == "number" and exact(element.text) is None:
            found.append((element.place, 16))
    return found


def line_faults(value):
    """Section 3.1.4."""
    found = each(position_faults)(value)
    if value.kind == "array" and len(value.elements) < 2:
        found.append((value.place, 13))
    return found


def ring_faults(value):
    """Section 3.1.6. A ring is closed by its exact values up to the third; checked where each position is right."""
    found = each(position_faults)(value)
    if value.kind != "array":
        return found
    if value.elements and not found and exact_position(value.elements[0]) != exact_position(value.elements[-1]):
        found.append((value.place, 15))
    if len(value.elements) < 4:
        found.append((value.place, 14))
    return found


def exact_position(value):
    return [exact(element.text) for element in value.elements[:3]]
