"""Random inputs by a seed: right texts of every shape, texts with mistakes in their tree, and bytes with mistakes in them.

A tree is bytes (a scalar as it is spelled), a list (an array), or an Object.
"""

import random
import re

SIMPLE = ["Point", "MultiPoint", "LineString", "MultiLineString", "Polygon", "MultiPolygon"]
TYPES = SIMPLE + ["GeometryCollection", "Feature", "FeatureCollection"]
NAMES = ["type", "coordinates", "geometries", "geometry", "properties", "features", "bbox", "id"]
ODD_NAMES = ["crs", "Type", "typ", "types", "", "coordinate", "geometrys", "name", "é", "naïve", "\U0001F30D", "a" * 18, "x" * 40]
ODD_STRINGS = [rb'"\ud800"', rb'"\ud83d\ude00"', rb'"\u0000"', rb'"\\\"\/\b\f\n\r\t"', '"\u00df\u4e2d\U0001F600"'.encode(), b'"\x7f"', b'""']
ODD_NUMBERS = [
    b"0", b"-0", b"-0.0", b"0e99999", b"0E-99999", b"1e400", b"1e401", b"10e400", b"1e-400", b"1e-401", b"0.1e-399", b"0.1e-400", b"1e1000",
    b"1e1001", b"1e-1001", b"0.1e1000", b"9" * 30, b"9" * 31, b"1" + b"0" * 30, b"1" + b"0" * 401, b"1.50", b"15e-1", b"0.15E+1", b"180",
    b"180.0000001", b"180.00000009", b"-180.00000019", b"90.0000001", b"-90.00000001", b"1.4210854715202004e-14", b"9999999999.9999999",
    b"9999999999.99999999", b"1e10", b"1e17", b"123456789012345678901234567890", b"1234567890123456789012345678901", b"0." + b"0" * 40,
    b"0." + b"0" * 400 + b"1", b"1e0000002", b"1e+2", b"1e-07", b"0.12345678", b"0.12345670", b"-0.00000019", b"1e" + b"9" * 30,
    b"0.123456789012345678901234567890", b"0.1234567890123456789012345678901", b"179.99999999", b"1800000000e-7", b"18e1",
]
BROKEN_BYTES = [
    b"\xc0\x80", b"\xed\xa0\x80", b"\xf4\x90\x80\x80", b"\xe2\x82", b"\xff", b"\x80", b"\xc3(", b"\xf0\x9f\x98", b"\xf5\x80\x80\x80",
    b"\xe0\x80\x80", b"\xf0\x80\x80\x80", b"\x00", b"\x1f", b"\x1e", b"\n", b"\t", b"\x7f", b"\\", b"\\x", b"\\u12G4", b'"', b"'", b",", b":",
    b"{", b"}", b"[", b"]", b"NaN", b"Infinity", b"-", b"+1", b".5", b"1.", b"01", b"1e", b"tru", b"nul", b"True", b"//", b"/**/", b"\xef\xbb\xbf",
    b"\xef\xbb", b"\xa0", b"\x0b", b"\x0c", b"\xe2\x80\xa8", b"{}", b"[]", b"null", b"0", b"e5", b".0", b'"type":"Point",', b'"crs":0,',
]


class Object:
    """The members of an object, in order: lists of a name as it is spelled and a tree."""

    def __init__(self, members):
        self.members = [list(member) for member in members]


class Maker:
    """Makes one input."""

    def __init__(self, seed):
        self.random = random.Random(seed)
        self.slips = 0

    def chance(self, part):
        return self.random.random() < part

    def some(self, most):
        """A number from 0 to `most`, mostly small."""
        return min(self.random.randint(0, most), self.random.randint(0, most))

    def slip(self):
        """Whether to make a small mistake here, in a text that is to have some."""
        return self.chance(self.slips)

    # Right texts, where nothing slips

    def spelled(self, text):
        """A string with these characters, sometimes with escapes for some of them."""
        parts = []
        share = 0.3 if self.chance(0.05) else 0
        for character in text:
            if ord(character) < 0x10000 and self.chance(share):
                digits = f"{ord(character):04x}"
                parts.append("\\u" + (digits.upper() if self.chance(0.5) else digits))
            else:
                parts.append(character)
        return ('"' + "".join(parts) + '"').encode()

    def number(self, size=170):
        choice = self.random.random()
        if choice < 0.03:
            return self.random.choice(ODD_NUMBERS)
        if choice < 0.4:
            return str(self.random.randint(-size, size)).encode()
        if choice < 0.9:
            return f"{self.random.uniform(-size, size):.{self.random.randint(1, 7)}f}".encode()
        if choice < 0.95:
            return repr(self.random.uniform(-size, size)).encode()
        return f"{self.random.uniform(-size, size):.{self.random.randint(0, 9)}{self.random.choice('eE')}}".encode()

    def position(self):
        if self.slip():
            return [self.any_json(1) for _ in range(self.some(4))]
        numbers = [self.number(), self.number(85)]
        if self.chance(0.1):
            numbers += [self.number(9000) for _ in range(1 + (self.chance(0.1)) + (self.chance(0.05)))]
        return numbers

    def positions(self, least, most=6):
        least, most = (self.random.randint(0, least), 0) if self.slip() else (least, most)
        return [self.position() for _ in range(least + self.some(most))]

    def ring(self, is_hole):
        """A closed ring, mostly the right way around."""
        if self.chance(0.3):
            corners = self.positions(3)
        else:
            x, y = self.random.randint(-170, 160), self.random.randint(-80, 70)
            width, height = self.random.randint(1, 10), self.random.randint(1, 10)
            corners = [[x, y], [x + width, y], [x + width, y + height], [x, y + height]][: self.random.choice([3, 4, 4])]
            if is_hole != self.chance(0.2):
                corners.reverse()
            corners = [[str(x).encode(), str(y).encode()] for x, y in corners]
        if self.slip():
            return corners if self.chance(0.5) else [*corners, self.position()]
        return corners + ([self.respelled(corners[0])] if corners else [])

    def respelled(self, position):
        """The same position, sometimes with its numbers in another spelling."""
        return [self.other_spelling(number) if self.chance(0.05) else number for number in position]

    def other_spelling(self, number):
        if not isinstance(number, bytes) or not re.fullmatch(rb"-?[0-9.]+", number):
            return number
        choice = self.random.randint(0, 3)
        if choice == 0:
            return number + (b"0" if b"." in number else b".0")
        if choice == 1:
            return number + b"e0"
        if choice == 2 and b"." not in number and number.lstrip(b"-") != b"0":
            return number + b"0e-1"
        return number + b"E+00"

    def polygon(self):
        return [self.ring(index > 0) for index in range(1 + self.some(2))]

    def coordinates(self, kind):
        if self.chance(0.03):
            return []
        if kind == "Point":
            return self.position()
        if kind == "MultiPoint":
            return self.positions(0 if self.chance(0.1) else 1)
        if kind == "LineString":
            return self.positions(2)
        if kind == "MultiLineString":
            return [self.positions(2, 3) for _ in range(1 + self.some(3))]
        if kind == "Polygon":
            return self.polygon()
        return [[] if self.chance(0.05) else self.polygon() for _ in range(1 + self.some(2))]

    def bbox(self):
        if self.slip():
            return [self.number() for _ in range(self.some(7))]
        half = self.random.choice([2, 2, 2, 3, 3, 4])
        if self.chance(0.8):
            low = [self.random.randint(-90, 0) for _ in range(half)]
            return [str(it).encode() for it in low + [it + self.random.randint(0, 90) for it in low]]
        return [self.number() for _ in range(2 * half)]

    def any_json(self, levels=3):
        """Any JSON value: of properties and foreign members."""
        choice = self.random.randint(0, 9 if levels else 5)
        if choice < 2:
            return self.random.choice([b"true", b"false", b"null"])
        if choice < 4:
            return self.number()
        if choice == 4:
            return self.random.choice(ODD_STRINGS)
        if choice == 5:
            return self.spelled(self.random.choice(NAMES + TYPES + ODD_NAMES))
        if choice < 8:
            return [self.any_json(levels - 1) for _ in range(self.some(4))]
        return self.any_object(levels)

    def any_object(self, levels=3):
        return Object([self.spelled(self.random.choice(NAMES + ODD_NAMES)), self.any_json(levels - 1)] for _ in range(self.some(4)))

    def object(self, kind, members):
        """An object of this type, with members that may be there, in any order."""
        members = [[self.spelled("type"), self.spelled(kind)], *members]
        if self.chance(0.15):
            members.append([self.spelled("bbox"), self.bbox()])
        if self.chance(0.1):
            members.append([self.spelled(self.random.choice(ODD_NAMES)), self.any_json()])
        if self.chance(0.02):
            members.append([self.spelled("crs"), self.any_json()])
        if kind != "Feature" and self.chance(0.03):
            members.append([self.spelled("id"), self.any_json()])
        if self.slip():
            del members[self.random.randrange(len(members))]
        if self.slip():
            members.append([self.spelled(self.random.choice(NAMES)), self.any_json(2)])
        if self.chance(0.4):
            self.random.shuffle(members)
        return Object(members)

    def geometry(self, levels=2):
        if levels and self.chance(0.12):
            return self.object("GeometryCollection", [[self.spelled("geometries"), [self.geometry(levels - 1) for _ in range(self.some(3))]]])
        kind = self.random.choice(SIMPLE)
        return self.object(kind, [[self.spelled("coordinates"), self.coordinates(kind)]])

    def feature(self):
        geometry = b"null" if self.chance(0.1) else self.geometry()
        properties = b"null" if self.chance(0.2) else self.any_object()
        members = [[self.spelled("geometry"), geometry], [self.spelled("properties"), properties]]
        if self.chance(0.2):
            members.append([self.spelled("id"), self.number() if self.chance(0.5) else self.spelled("a1")])
        if self.slip():
            members.append([self.spelled("id"), self.any_json(2)])
        return self.object("Feature", members)

    def text_tree(self):
        choice = self.random.random()
        if choice < 0.4:
            return self.geometry()
        if choice < 0.65:
            return self.feature()
        return self.object("FeatureCollection", [[self.spelled("features"), [self.feature() for _ in range(self.some(4))]]])

    # Mistakes in the tree

    def nodes(self, tree, found):
        """All arrays and objects below a tree that have something in them."""
        if isinstance(tree, list):
            parts = tree
        elif isinstance(tree, Object):
            parts = [member[1] for member in tree.members]
        else:
            return found
        if parts:
            found.append(tree)
        for part in parts:
            self.nodes(part, found)
        return found

    def other_value(self, value):
        """A value to stand where this one stood."""
        choice = self.random.randint(0, 9)
        if choice == 0:
            return [value]
        if choice == 1 and isinstance(value, list) and value:
            return self.random.choice(value)
        if choice == 2:
            return self.spelled(self.random.choice(TYPES))
        if choice == 3:
            return self.random.choice(ODD_NUMBERS)
        if choice == 4:
            return self.geometry(1)
        if choice == 5:
            return self.coordinates(self.random.choice(SIMPLE))
        if choice == 6:
            return self.feature()
        return self.any_json(2)

    def mistake(self, tree):
        """Makes one mistake in the tree, and gives the tree."""
        found = self.nodes(tree, [])
        if not found or self.chance(0.03):
            return self.other_value(tree)
        node = self.random.choice([it for it in found if isinstance(it, Object)] or found) if self.chance(0.5) else self.random.choice(found)
        parts = node if isinstance(node, list) else node.members
        at = self.random.randrange(len(parts))
        choice = self.random.randint(0, 7)
        if choice == 0:
            del parts[at]
        elif choice == 1:
            parts.insert(self.random.randint(0, len(parts)), parts[at] if isinstance(node, list) else list(parts[at]))
        elif choice == 2:
            self.random.shuffle(parts)
        elif isinstance(node, list):
            if choice == 3:
                parts.reverse()
            elif choice == 4:
                del parts[self.random.randrange(len(parts)) :]
            else:
                parts[at] = self.other_value(parts[at])
        elif choice < 5:
            parts[at][1] = self.other_value(parts[at][1])
        elif choice == 5:
            parts[at][0] = self.spelled(self.random.choice(NAMES + ODD_NAMES))
        elif choice == 6:
            parts.insert(self.random.randint(0, len(parts)), [self.spelled(self.random.choice(NAMES)), self.any_json(2)])
        else:
            parts.insert(self.random.randint(0, len(parts)), [self.spelled("bbox"), self.other_value(self.bbox())])
        return tree

    # Bytes

    def space(self, share):
        if not self.chance(share):
            return b""
        return bytes(self.random.choice(b"  \n\r\t") for _ in range(1 + self.some(4)))

    def written(self, tree, share):
        """The bytes of a tree, with white space at a share of the places where it may stand."""
        if isinstance(tree, bytes):
            return tree
        if isinstance(tree, list):
            parts, marks = [self.written(part, share) for part in tree], b"[]"
        else:
            parts, marks = [], b"{}"
            for name, value in tree.members:
                parts.append(name + self.space(share) + b":" + self.space(share) + self.written(value, share))
        parts = [self.space(share) + part + self.space(share) for part in parts]
        return marks[:1] + (b",".join(parts) or self.space(share)) + marks[1:]

    def spoiled(self, data):
        """The bytes with one mistake in them."""
        at = self.random.randint(0, len(data))
        end = min(len(data), at + 1 + self.some(12))
        choice = self.random.randint(0, 8)
        if choice == 0:
            return data[:at]
        if choice == 1:
            return data[:at] + data[end:]
        if choice == 2:
            return data[:at] + data[at:end] + data[at:end] + data[end:]
        if choice == 3:
            return data[:at] + bytes([self.random.randint(0, 255)]) + data[at + 1 :]
        if choice == 4:
            return data[:at] + bytes([self.random.choice(b'{}[]":,0123456789-+.eE\\tfn u')]) + data[at + 1 :]
        if choice == 5:
            return data + self.random.choice(BROKEN_BYTES)
        return data[:at] + self.random.choice(BROKEN_BYTES) + data[at:]

    def soup(self):
        """Pieces of texts in no order."""
        pieces = BROKEN_BYTES + ODD_STRINGS + ODD_NUMBERS[:20] + [self.spelled(name) for name in NAMES + TYPES] + [b"[", b"]", b"{", b"}", b",", b":"] * 6
        return b"".join(self.random.choice(pieces) for _ in range(1 + self.some(20)))

    def deep(self):
        """Levels around the greatest depth."""
        levels = self.random.choice([1, 2, 63, 64, 65, 128, 254, 255, 256, 257, 258, 300])
        choice = self.random.randint(0, 4)
        if choice == 0:
            front, middle, back = b"[" * levels, b"", b"]" * levels
        elif choice == 1:
            front, middle, back = b'{"a":' * levels, b"0", b"}" * levels
        elif choice == 2:
            front, middle, back = b'{"type":"GeometryCollection","geometries":[' * (levels // 2), b"", b"]}" * (levels // 2)
        elif choice == 3:
            front, middle, back = b'{"type":"Feature","geometry":null,"properties":' + b'[{"a":' * (levels // 2), b"[]", b"}]" * (levels // 2) + b"}"
        else:
            front, middle, back = b'{"geometry":' * levels, b'{"type":"Point","coordinates":[1]}', b',"type":"Feature","properties":null}' * levels
        if self.chance(0.3):
            middle = self.random.choice(BROKEN_BYTES)
        data = front + middle + back
        return data[: self.random.randint(0, len(data))] if self.chance(0.3) else data

    def text(self):
        """One input that may be a text."""
        choice = self.random.random()
        if choice < 0.02:
            return self.deep()
        if choice < 0.06:
            return self.soup()
        self.slips = 0.05 if 0.3 < choice < 0.5 else 0
        tree = self.text_tree()
        if choice > 0.5:
            for _ in range(1 + self.some(2)):
                tree = self.mistake(tree)
        share = self.random.choice([0, 0, 0.05, 0.5])
        data = self.space(share) + self.written(tree, share) + self.space(share)
        if self.chance(0.03):
            data = b"\xef\xbb\xbf" + data
        if choice > 0.7:
            for _ in range(1 + self.some(1)):
                data = self.spoiled(data)
        return data

    def sequence(self):
        """One input that may be a text sequence: mostly records that are right."""
        parts = []
        for _ in range(self.some(5)):
            record = self.text() if self.chance(0.3) else self.written(self.text_tree(), 0)
            parts.append(b"\x1e" * (1 if self.chance(0.9) else 2) + record + (b"\n" if self.chance(0.95) else b""))
        data = b"".join(parts)
        return self.spoiled(data) if self.chance(0.2) else data


def text(seed):
    return Maker(f"text {seed}").text()


def sequence(seed):
    return Maker(f"sequence {seed}").sequence()
