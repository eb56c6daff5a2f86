"""The verdict of a text, whole or in pieces."""

from __future__ import annotations

import os
import stat
from typing import TYPE_CHECKING, Any, AsyncIterable, AsyncIterator, Iterable, Iterator, NoReturn, Optional, TypeVar

from ._native import ENDED, REFUSED, address, library, room
from ._parts import check_in_parts
from ._sources import async_pieces_of, pieces_of, runs, size_of
from ._verdict import Ended, Verdict, limits_of, verdict_of

if TYPE_CHECKING:
    from types import TracebackType

    from _typeshed import ReadableBuffer

    from ._sources import AsyncSource, Source

Piece = TypeVar("Piece", bound="ReadableBuffer")


class Linter:
    """Checks a text that comes in pieces. Give it to one thread at a time.

    As a context manager it is finished at the end of the block:

        with geolint.Linter() as linter:
            for chunk in linter.watch(upload.chunks()):
                store.write(chunk)
        if not linter.verdict:
            ...

    `write` serves what writes to a file, as shutil.copyfileobj(upload, linter).
    """

    def __init__(self, max_depth: Optional[int] = None, max_bytes: Optional[int] = None) -> None:
        self.verdict: Optional[Verdict] = None
        limits = limits_of(max_depth, max_bytes)
        self._memory, self._at = room(library.geolint_size())
        library.geolint_begin(self._at, *limits)

    def begin(self, max_depth: Optional[int] = None, max_bytes: Optional[int] = None) -> None:
        """Begins again, in the same memory: that costs less than another linter."""
        limits = limits_of(max_depth, max_bytes)
        self.verdict = None
        library.geolint_begin_again(self._at, *limits)

    def feed(self, data: ReadableBuffer) -> bool:
        """Takes the next bytes. False says that the text is refused: the host may stop reading."""
        for run in runs(data):
            status = library.geolint_feed(self._at, address(run), len(run))
            if status == ENDED:
                raise Ended("the linter has ended")
            if status == REFUSED:
                return False
        return True

    def write(self, data: ReadableBuffer) -> int:
        """Feeds bytes as they are written to a file, and takes all of them, also where the text is refused."""
        self.feed(data)
        return size_of(data)

    def watch(self, pieces: Iterable[Piece]) -> Iterator[Piece]:
        """Hands pieces of bytes on, and feeds each before. It reads all of them, also where the text is refused."""
        for piece in pieces:
            self.feed(piece)
            yield piece

    async def awatch(self, pieces: AsyncIterable[Piece]) -> AsyncIterator[Piece]:
        """As `watch`, of pieces that are awaited."""
        async for piece in pieces:
            self.feed(piece)
            yield piece

    @property
    def doomed(self) -> bool:
        """No text that begins with the bytes fed is valid, as far as that is seen early."""
        return bool(library.geolint_doomed(self._at))

    @property
    def offset(self) -> int:
        """How many bytes were taken: the place of the refusal, once there was one."""
        return int(library.geolint_offset(self._at))

    @property
    def levels(self) -> int:
        """How many arrays and objects are open after the bytes taken: what `hint_around` asks for, before the end."""
        return int(library.geolint_levels(self._at))

    def finish(self) -> Verdict:
        """The verdict of all that was fed, and the end of the linter. A second call gives the same."""
        if self.verdict is None:
            self.verdict = verdict_of(library.geolint_finish(self._at))
        return self.verdict

    def __reduce_ex__(self, protocol: Any) -> NoReturn:
        raise TypeError("a linter cannot be copied: it stays where it lies")

    def __enter__(self) -> Linter:
        return self

    def __exit__(
        self, kind: Optional[type[BaseException]], error: Optional[BaseException], trace: Optional[TracebackType]
    ) -> None:
        if kind is None:
            self.finish()


def check(
    source: Source, max_depth: Optional[int] = None, max_bytes: Optional[int] = None, *, jobs: Optional[int] = None
) -> Verdict:
    """The verdict of a text: of bytes and other buffers (bytearray, memoryview, mmap), of a `str`, which stands for its bytes in
    UTF-8, of the file that an os.PathLike names, of a file (one opened as "rb", an upload, a response), or of pieces of bytes.

    A file is read from where it stands, a mapped file is checked whole. A text that is refused is read no further. TypeError
    and ValueError say what a source or a limit should be; OSError comes from reading.

    With `jobs` a file that an os.PathLike names is checked by so many threads at once, which pays where it is a FeatureCollection of
    tens of megabytes. The verdict is the same. OSError says also that the file changed meanwhile.
    """
    limits = limits_of(max_depth, max_bytes)
    if jobs is not None:
        return _check_in_parts(source, jobs, max_depth, max_bytes)
    if isinstance(source, bytes):
        return verdict_of(library.geolint_check(address(source), len(source), *limits))
    return check_open(source, max_depth, max_bytes)[0]


def _check_in_parts(source: Source, jobs: int, max_depth: Optional[int], max_bytes: Optional[int]) -> Verdict:
    if not isinstance(source, os.PathLike):
        raise TypeError(f"jobs is for a file that a path names, not for {type(source).__name__}")
    if jobs < 1:
        raise ValueError("jobs is 1 or more")
    with open(source, "rb", buffering=0) as file:
        if stat.S_ISREG(os.fstat(file.fileno()).st_mode):
            return check_in_parts(file, jobs, max_depth, max_bytes)
        return check_open(file, max_depth, max_bytes)[0]


def check_open(source: Source, max_depth: Optional[int] = None, max_bytes: Optional[int] = None) -> tuple[Verdict, int]:
    """The verdict of a text, and how many arrays and objects are open where it ends or is refused."""
    pieces = pieces_of(source)
    linter = Linter(max_depth, max_bytes)
    for piece in pieces:
        if not linter.feed(piece):
            break
    levels = linter.levels
    return linter.finish(), levels


async def acheck(source: AsyncSource, max_depth: Optional[int] = None, max_bytes: Optional[int] = None) -> Verdict:
    """The verdict of a text whose bytes are awaited: of an async iterable of bytes, as the stream of a request, or of a file whose
    `read` is awaited. It also takes bytes, other buffers and a `str`. A piece is checked on the event loop's thread."""
    pieces = async_pieces_of(source)
    linter = Linter(max_depth, max_bytes)
    async for piece in pieces:
        if not linter.feed(piece):
            break
    return linter.finish()
