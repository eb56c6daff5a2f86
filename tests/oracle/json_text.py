"""JSON texts (RFC 8259) in UTF-8 (RFC 3629), read as a whole: the tree of a text, or the first byte with which no text goes on.

A place is a byte offset from 0. The reading is slow and plain: one function for each rule of the grammar, in its order.
"""

import dataclasses

MARK = b"\xef\xbb\xbf"
WHITE_SPACE = b" \t\n\r"
DIGITS = b"0123456789"
HEX_DIGITS = b"0123456789abcdefABCDEF"
ESCAPES = {ord('"'): '"', ord("\\"): "\\", ord("/"): "/", ord("b"): "\b", ord("f"): "\f", ord("n"): "\n", ord("r"): "\r", ord("t"): "\t"}
DEPTH = 256
LENGTH = 2**60

# RFC 3629, section 4: the ranges of the bytes of a character beyond ASCII.
TAIL = (0x80, 0xBF)
CHARACTERS = [
    [(0xC2, 0xDF), TAIL],
    [(0xE0, 0xE0), (0xA0, 0xBF), TAIL],
    [(0xE1, 0xEC), TAIL, TAIL],
    [(0xED, 0xED), (0x80, 0x9F), TAIL],
    [(0xEE, 0xEF), TAIL, TAIL],
    [(0xF0, 0xF0), (0x90, 0xBF), TAIL, TAIL],
    [(0xF1, 0xF3), TAIL, TAIL, TAIL],
    [(0xF4, 0xF4), (0x80, 0x8F), TAIL, TAIL],
]


class Refused(Exception):
    """The input is no JSON text: J1 syntax, J2 truncated, J3 too deep, J4 too long."""

    def __init__(self, place, cause):
        super().__init__(f"{cause} at {place}")
        self.place, self.cause = place, cause


@dataclasses.dataclass
class Member:
    place: int
    name: str
    value: "Value"


@dataclasses.dataclass
class Value:
    """A value: its kind is object, array, string, number, true, false or null."""

    kind: str
    place: int
    members: list = dataclasses.field(default_factory=list)
    elements: list = dataclasses.field(default_factory=list)
    text: str = ""


class Text:
    """The bytes of an input, with the place up to which they were read."""

    def __init__(self, data, depth):
        self.data, self.depth, self.at, self.open = data, depth, 0, 0

    def byte(self):
        """The byte at the place; the input may not end here."""
        if self.at == len(self.data):
            raise Refused(self.at, "J2")
        return self.data[self.at]

    def take(self, allowed):
        """Takes a byte that is one of these."""
        byte = self.byte()
        if byte not in allowed:
            raise Refused(self.at, "J1")
        self.at += 1
        return byte

    def comes(self, allowed):
        """Whether one of these bytes comes next; no byte is right too."""
        return self.at < len(self.data) and self.data[self.at] in allowed

    def white_space(self):
        while self.comes(WHITE_SPACE):
            self.at += 1

    def whole(self):
        """A mark that is passed over, white space, one value, white space, and the end."""
        has_mark = self.comes(MARK[:1])
        if has_mark:
            self.word(MARK)
        self.white_space()
        value = self.value()
        self.white_space()
        if self.at < len(self.data):
            raise Refused(self.at, "J1")
        return has_mark, value

    def word(self, word):
        for byte in word:
            self.take(bytes([byte]))

    def value(self):
        place, byte = self.at, self.byte()
        if byte == ord("{"):
            return self.nested(place, self.object)
        if byte == ord("["):
            return self.nested(place, self.array)
        if byte == ord('"'):
            return Value("string", place, text=self.string())
        if byte in b"-" + DIGITS:
            return Value("number", place, text=self.number())
        for word in (b"true", b"false", b"null"):
            if byte == word[0]:
                self.word(word)
                return Value(word.decode(), place)
        raise Refused(place, "J1")

    def nested(self, place, read):
        if self.open == self.depth:
            raise Refused(place, "J3")
        self.open += 1
        self.at += 1
        value = read(place)
        self.open -= 1
        return value

    def object(self, place):
        value = Value("object", place)
        self.white_space()
        if self.byte() == ord("}"):
            self.at += 1
            return value
        while True:
            self.white_space()
            name_place = self.at
            name = self.string()
            self.white_space()
            self.take(b":")
            self.white_space()
            value.members.append(Member(name_place, name, self.value()))
            self.white_space()
            if self.take(b",}") == ord("}"):
                return value

    def array(self, place):
        value = Value("array", place)
        self.white_space()
        if self.byte() == ord("]"):
            self.at += 1
            return value
        while True:
            self.white_space()
            value.elements.append(self.value())
            self.white_space()
            if self.take(b",]") == ord("]"):
                return value

    def number(self):
        begin = self.at
        if self.comes(b"-"):
            self.at += 1
        if self.take(DIGITS) != ord("0"):
            self.digits()
        if self.comes(b"."):
            self.at += 1
            self.take(DIGITS)
            self.digits()
        if self.comes(b"eE"):
            self.at += 1
            if self.take(b"+-" + DIGITS) in b"+-":
                self.take(DIGITS)
            self.digits()
        return self.data[begin : self.at].decode()

    def digits(self):
        while self.comes(DIGITS):
            self.at += 1

    def string(self):
        """The characters of a string with its escapes undone. Escaped surrogates are not joined."""
        self.take(b'"')
        parts = []
        while (byte := self.byte()) != ord('"'):
            if byte == ord("\\"):
                self.at += 1
                parts.append(self.escape())
            elif byte < 0x20:
                raise Refused(self.at, "J1")
            else:
                parts.append(self.character(byte))
        self.at += 1
        return "".join(parts)

    def escape(self):
        byte = self.take(bytes(ESCAPES) + b"u")
        if byte != ord("u"):
            return ESCAPES[byte]
        return chr(int(bytes(self.take(HEX_DIGITS) for _ in range(4)), 16))

    def character(self, first):
        begin = self.at
        self.at += 1
        if first < 0x80:
            return chr(first)
        for ranges in CHARACTERS:
            if ranges[0][0] <= first <= ranges[0][1]:
                for low, high in ranges[1:]:
                    self.take(range(low, high + 1))
                return self.data[begin : self.at].decode()
        raise Refused(begin, "J1")


def read(data, depth=DEPTH, length=LENGTH):
    """Whether the text has a mark, and its tree. Raises Refused where the bytes are no text within the limits."""
    try:
        return_value = Text(data, depth).whole()
    except Refused as refused:
        if refused.place < length or len(data) <= length:
            raise
        raise Refused(length, "J4") from None
    if len(data) > length:
        raise Refused(length, "J4")
    return return_value
