"""The warnings W1 to W9 of a valid text: what RFC 7946 advises against, and docs/rules.md where it leaves a choice.

Each function gives a list of warnings, pairs of a place and the number of a kind.
"""

from decimals import exact
from rules import SIMPLE, first_value

LONGITUDE = 180 * 10**7
LATITUDE = 90 * 10**7


def text_warnings(has_mark, value):
    """All warnings of a valid text."""
    return ([(0, 1)] if has_mark else []) + object_warnings(value)


def object_warnings(value):
    """Of an object that keeps the rules."""
    found = [(member.place, 9) for member in value.members if member.name == "crs"]
    if (box := first_value(value, "bbox")) is not None:
        found += bbox_warnings(box)
    kind = first_value(value, "type").text
    if kind in SIMPLE:
        found += coordinates_warnings(first_value(value, "coordinates"), kind)
    elif kind == "FeatureCollection":
        found += [it for element in first_value(value, "features").elements for it in object_warnings(element)]
    elif kind == "Feature":
        geometry = first_value(value, "geometry")
        found += [] if geometry.kind == "null" else object_warnings(geometry)
    else:
        for element in first_value(value, "geometries").elements:
            if first_value(element, "type").text == "GeometryCollection":
                found.append((element.place, 7))
            found += object_warnings(element)
    return found


def bbox_warnings(value):
    """Section 5: the south of the box is above its north."""
    size = len(value.elements)
    if size not in (4, 6):
        return []
    south, north = cut(value.elements[1]), cut(value.elements[1 + size // 2])
    return [(value.place, 8)] if south is not None and north is not None and south > north else []


def cut(value):
    """A number cut after seven decimal places, in units of the seventh; None where it has no value or is too great."""
    number = exact(value.text)
    return None if number is None else number.cut()


def coordinates_warnings(value, kind):
    if not value.elements:
        return [(value.place, 6)]
    if kind == "Point":
        return position_warnings(value)
    if kind in ("MultiPoint", "LineString"):
        return positions_warnings(value)
    if kind == "MultiLineString":
        return [it for line in value.elements for it in positions_warnings(line)]
    polygons = [value] if kind == "Polygon" else value.elements
    return [it for polygon in polygons for it in polygon_warnings(polygon)]


def positions_warnings(value):
    return [it for position in value.elements for it in position_warnings(position)]


def position_warnings(value):
    """Sections 3.1.1, 4 and 11.2."""
    found = [(value.place, 3)] if len(value.elements) > 3 else []
    found += [(element.place, 4) for element in value.elements[:3] if exact(element.text).places() > 7]
    if not in_range(value):
        found.append((value.place, 5))
    return found


def in_range(value):
    x, y = cut(value.elements[0]), cut(value.elements[1])
    return x is not None and y is not None and abs(x) <= LONGITUDE and abs(y) <= LATITUDE


def polygon_warnings(value):
    """Section 3.1.6: the exterior ring runs counterclockwise, the holes clockwise."""
    found = []
    for index, ring in enumerate(value.elements):
        found += positions_warnings(ring)
        area = signed_area(ring)
        if (area < 0 if index == 0 else area > 0):
            found.append((ring.place, 2))
    return found


def signed_area(ring):
    """Twice the area in the plane, above 0 where the ring runs counterclockwise; 0 where a position is out of range."""
    if not all(in_range(position) for position in ring.elements):
        return 0
    corners = [(cut(position.elements[0]), cut(position.elements[1])) for position in ring.elements]
    return sum(x * next_y - next_x * y for (x, y), (next_x, next_y) in zip(corners, corners[1:]))
