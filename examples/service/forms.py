"""The file in a body, piece by piece: of multipart/form-data the first file, of a form in its default encoding the field `text`, of any
other type the body.

What a form has before its file is searched through, and not kept. Debian's libraries do not serve here: python3-multipart goes byte by byte
through line ends and fields, and werkzeug ends a file with a CR of the form where a piece ends between that and its LF."""

from email import message_from_bytes
from email.message import Message
from typing import AsyncIterator
from urllib.parse import unquote_to_bytes

# The most characters of a type, and the most bytes of the header of a part. Python's time to read them grows with their squares.
MOST_TYPE, MOST_HEAD = 1000, 2048
# A brace, a bracket, white space, a quotation mark, a byte order mark: in a form each of them would be an escape.
BEGINS_JSON = (b"{", b"[", b" ", b"\t", b"\n", b"\r", b'"', b"\xef")


class FormError(Exception):
    """A form without a file, or one that cannot be read."""


async def file_of(content_type: str, pieces: AsyncIterator[bytes]) -> AsyncIterator[bytes]:
    """The pieces of the file in a body of this type. What follows it is read to the end, and dropped."""
    if len(content_type) > MOST_TYPE:
        raise FormError(f"the Content-Type has more than {MOST_TYPE} characters")
    header = Message()
    header["Content-Type"] = content_type or "application/octet-stream"
    found = pieces
    try:
        if header.get_content_type() == "multipart/form-data":
            found = _first_file(header.get_boundary(""), pieces)
        elif header.get_content_type() == "application/x-www-form-urlencoded":
            found = _text(pieces)
        async for piece in found:
            yield piece
    except (ValueError, LookupError) as error:
        raise FormError(f"the form cannot be read: {error}") from None
    async for _ in pieces:
        pass


async def _first_file(boundary: str, pieces: AsyncIterator[bytes]) -> AsyncIterator[bytes]:
    """The first file of multipart/form-data (RFC 7578)."""
    if not boundary:
        raise FormError("the form has no boundary")
    mark, held, is_head, is_wanted = b"\r\n--" + boundary.encode("latin-1", "replace"), b"\r\n", False, False
    async for piece in pieces:
        held, found = held + piece, b"more"
        while found:
            before, found, rest = held.partition(b"\r\n\r\n" if is_head else mark)
            if is_head and before.startswith(b"--"):
                raise FormError("the form has no file")
            if is_head and len(before) > MOST_HEAD:
                raise FormError("the header of a part is too long")
            if is_wanted:
                yield before if found else held[: 1 - len(mark)]
                if found:
                    return
            if found:
                is_wanted = is_head and bool(message_from_bytes(before.lstrip()).get_filename())
                is_head, held = not is_head, rest
            elif not is_head:
                held = held[1 - len(mark) :]
    raise FormError("the form is cut off")


async def _text(pieces: AsyncIterator[bytes]) -> AsyncIterator[bytes]:
    """The field `text` of application/x-www-form-urlencoded, as a form without a file sends it. A body that begins as no such form does,
    but as JSON, is taken as it is: curl gives this type to what it sends with --data-binary."""
    held, is_found = b"&", False
    async for piece in pieces:
        if held == b"&" and piece.startswith(BEGINS_JSON):
            yield piece
            async for piece in pieces:
                yield piece
            return
        held += piece
        if not is_found:
            _, found, rest = held.partition(b"&text=")
            is_found, held = bool(found), rest if found else held[-5:]
        if is_found:
            value, end, _ = held.partition(b"&")
            # What an escape begins with is held back until it is whole.
            begun = value.rfind(b"%", -2)
            cut = len(value) if end or begun < 0 else begun
            yield unquote_to_bytes(value[:cut].replace(b"+", b" "))
            held = value[cut:]
            if end:
                return
    if not is_found:
        raise FormError("the form has no file")
    yield held
