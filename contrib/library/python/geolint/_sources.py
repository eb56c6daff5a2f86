"""Where the bytes of a text come from: the pieces of what a call is given."""

from __future__ import annotations

import inspect
import io
import os
from collections.abc import AsyncIterable, Iterable, Mapping
from typing import TYPE_CHECKING, Any, AsyncIterator, Awaitable, Callable, Iterator, NoReturn, Optional, Union

from ._native import PIECE

if TYPE_CHECKING:
    from _typeshed import ReadableBuffer, SupportsRead
    from typing import Protocol

    class SupportsAsyncRead(Protocol):
        def read(self, size: int, /) -> Awaitable[bytes]: ...

    Source = Union[
        ReadableBuffer, str, "os.PathLike[str]", "os.PathLike[bytes]", "SupportsRead[bytes]", Iterable[ReadableBuffer]
    ]
    AsyncSource = Union[ReadableBuffer, str, AsyncIterable[ReadableBuffer], SupportsAsyncRead]


def buffer_of(data: Any) -> Optional[memoryview]:
    """The bytes of an object that has a buffer; None of one that has none."""
    try:
        view = memoryview(data)
    except TypeError:
        return None
    try:
        return view.cast("B")
    except TypeError:
        # It has gaps, no bytes, or elements of a kind that cannot be cast.
        return memoryview(view.tobytes())


def runs(data: Any) -> Iterator[bytes]:
    """The bytes of an object in runs that a call can be passed: bytes as they are, others as copies of some of them in turn."""
    if isinstance(data, bytes):
        yield data
        return
    view = buffer_of(data)
    if view is None:
        refuse_piece(data)
    for at in range(0, len(view) or 1, PIECE):
        yield bytes(view[at : at + PIECE])


def size_of(data: Any) -> int:
    """How many bytes a piece has."""
    return len(data) if isinstance(data, bytes) else memoryview(data).nbytes


def refuse_piece(piece: Any) -> NoReturn:
    """Says what to do with a piece that is no bytes."""
    if isinstance(piece, str):
        raise TypeError("pieces are bytes, not str: open a file as \"rb\", and give of a piece of text its bytes, piece.encode()")
    raise TypeError(f"pieces are bytes, not {type(piece).__name__}")


def _refuse(source: Any) -> NoReturn:
    """Says what to do with what is no source."""
    if isinstance(source, Mapping):
        raise TypeError("a mapping is no text: give the text that it came from, or json.dumps(..) of it")
    if isinstance(source, AsyncIterable):
        raise TypeError("what is iterated by `async for` goes to acheck, afeatures or arecords")
    raise TypeError(f"a text is bytes, str, a path, a file, or pieces of bytes, not {type(source).__name__}")


def _encoded(text: str) -> Iterator[bytes]:
    """The bytes of a text in UTF-8."""
    if len(text) <= 4096 and not text.lstrip("\ufeff\x1e \t\r\n").startswith("{") and os.path.isfile(text):
        raise ValueError('the str names a file, and a str is the text itself: give pathlib.Path(..) of the name, or the file opened as "rb"')
    for at in range(0, len(text), PIECE):
        try:
            yield text[at : at + PIECE].encode("utf-8")
        except UnicodeEncodeError as error:
            raise ValueError(
                f"the character {at + error.start} of the text is a lone surrogate, for which UTF-8 has no bytes"
            ) from None


def _read(file: Any) -> Iterator[Any]:
    """What a file gives, from where it stands."""
    if isinstance(file, io.TextIOBase):
        raise TypeError('the file is open as text: open it as "rb", or give its .buffer')
    while piece := file.read(PIECE):
        yield piece
    if piece is None:
        raise BlockingIOError("the source has no bytes yet, and does not wait for them")


def _read_path(path: Any) -> Iterator[bytes]:
    with open(path, "rb") as file:
        yield from _read(file)


def pieces_of(source: Any) -> Iterator[Any]:
    """The pieces of bytes of a source: of a buffer its bytes, wherever a mapped file stands; of a file what it reads."""
    if isinstance(source, str):
        return _encoded(source)
    if buffer_of(source) is not None:
        return iter((source,))
    if isinstance(source, os.PathLike):
        return _read_path(source)
    if hasattr(source, "read"):
        return _read(source)
    if isinstance(source, Mapping) or not isinstance(source, Iterable):
        _refuse(source)
    return iter(source)


def _state_of(source: Any) -> Any:
    """What changes where a file is written to; None where that is not known."""
    try:
        found = os.stat(source) if isinstance(source, os.PathLike) else os.fstat(source.fileno())
    except (AttributeError, OSError, ValueError):
        return None
    return found.st_dev, found.st_ino, found.st_size, found.st_mtime_ns


class Again:
    """A source that may be read twice, and whether both readings are of the same bytes."""

    def __init__(self, source: Any) -> None:
        self._source = source
        self._start: Optional[int] = None
        self.can = isinstance(source, (str, os.PathLike)) or buffer_of(source) is not None
        if not self.can:
            try:
                self._start = source.tell() if source.seekable() else None
            except (AttributeError, OSError):
                pass
            self.can = self._start is not None
        self._state = _state_of(source)

    def pieces(self) -> Iterator[Any]:
        """The pieces from the start of the source once more."""
        if self._start is not None:
            self._source.seek(self._start)
        return pieces_of(self._source)

    def is_same(self) -> bool:
        """Whether the source is as it was, as far as its length and its time say."""
        return bool(_state_of(self._source) == self._state)


async def _read_async(read: Callable[[int], Awaitable[bytes]]) -> AsyncIterator[Any]:
    """What a file gives whose `read` is awaited."""
    while True:
        coming = read(PIECE)
        if not hasattr(coming, "__await__"):
            raise TypeError("the file's read is not awaited: give it to check, features or records, on another thread if it waits")
        piece = await coming
        if not piece:
            return
        yield piece


async def _alone(pieces: Iterator[Any]) -> AsyncIterator[Any]:
    for piece in pieces:
        yield piece


def async_pieces_of(source: Any) -> AsyncIterator[Any]:
    """The pieces of bytes of a source that is awaited, or of one in memory."""
    if isinstance(source, str) or buffer_of(source) is not None:
        return _alone(pieces_of(source))
    # Where a file is also iterated, that is by lines, which may be of any length.
    read = getattr(source, "read", None)
    if read and (inspect.iscoroutinefunction(read) or not isinstance(source, AsyncIterable)):
        return _read_async(read)
    if isinstance(source, AsyncIterable):
        return source.__aiter__()
    raise TypeError(
        f"what is awaited is an async iterable of bytes or a file whose read is awaited, not {type(source).__name__}: "
        "give it to check, features or records, on another thread if it waits, as by asyncio.to_thread"
    )
