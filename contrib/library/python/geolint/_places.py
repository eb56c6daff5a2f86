"""Lines, columns and paths of places in a text."""

from __future__ import annotations

from dataclasses import dataclass
from typing import TYPE_CHECKING, Any, Iterable, Iterator, Optional

from ._hints import Watched, place_of
from ._linter import check_open
from ._native import address, library, room, steps
from ._sources import Again, pieces_of, runs
from ._verdict import Verdict, limits_of

if TYPE_CHECKING:
    from ._sources import Source


@dataclass(frozen=True)
class Place:
    """Where a byte stands: its offset, its line and its column, both from 1, and the path of the value there, as $.features[3].

    A line ends with LF alone. A column counts characters.
    """

    offset: int
    line: int
    column: int
    path: str


@dataclass(frozen=True)
class Report:
    """A verdict, and where its place stands: the line and the column, from 1, and the path of the value, as $.features[3].

    They are None of a valid text, of what can be read only once, and of a file that has changed between its two readings; the path
    also of what is no JSON text. `hint` says what the text looks like that is not valid, with a command that makes it right; None
    where nothing shows it, and of what can be read only once. A report is true where the text is valid.
    """

    verdict: Verdict
    line: Optional[int] = None
    column: Optional[int] = None
    path: Optional[str] = None
    hint: Optional[str] = None

    def __bool__(self) -> bool:
        return self.verdict.valid

    def __str__(self) -> str:
        """As geolint-files has it in its lines."""
        if self.line is None:
            return str(self.verdict)
        rule = f" G{self.verdict.rule}" if self.verdict.rule else ""
        path = f" ({self.path})" if self.path else ""
        return f"{self.line}:{self.column}: {self.verdict.name}{rule}: {self.verdict.text}{path}"


class Seeker:
    """The lines, the columns and the paths of places, as the bytes up to them come. Places are asked for in their order."""

    def __init__(self, limits: tuple[int, int], start: int = 0) -> None:
        self._limits = limits
        self.offset = start
        self._lines = library.geolint_lines_begin()
        self._memory, self._at = room(library.geolint_locator_size())
        self.begin_text()

    def begin_text(self) -> None:
        """Another text begins here: paths are those in it."""
        library.geolint_locator_begin(self._at, *self._limits)
        # How many bytes of what comes next the locator has had already.
        self._ahead = 0

    def skip(self, start: int, count: int) -> None:
        """Takes this many bytes, which lie at an address."""
        self._lines = library.geolint_lines_feed(self._lines, start, count)
        ahead = min(self._ahead, count)
        library.geolint_locator_feed(self._at, start + ahead, count - ahead)
        self._ahead -= ahead
        self.offset += count

    def place(self, start: int, count: int) -> Place:
        """The place of the next byte, which is the first of those at the address, or the end of the text where there is none."""
        here = min(1, count)
        if not self._ahead:
            library.geolint_locator_feed(self._at, start, here)
            self._ahead = here
        return Place(self.offset, self._lines.line, self._lines.column, "".join(["$", *steps(self._at)]))


def _locate(pieces: Iterable[Any], places: list[int], limits: tuple[int, int]) -> Iterator[Place]:
    """The places, which are in their order, as far as the pieces reach."""
    seeker, wanted = Seeker(limits), iter(places)
    offset = next(wanted, None)
    for piece in pieces:
        for run in runs(piece):
            at, start = 0, address(run)
            while offset is not None and offset - seeker.offset < len(run) - at:
                step = offset - seeker.offset
                seeker.skip(start + at, step)
                at += step
                yield seeker.place(start + at, len(run) - at)
                offset = next(wanted, None)
            if offset is None:
                return
            seeker.skip(start + at, len(run) - at)
    nothing = b""
    while offset == seeker.offset:
        yield seeker.place(address(nothing), 0)
        offset = next(wanted, None)


def locate(
    source: Source, places: Iterable[int], max_depth: Optional[int] = None, max_bytes: Optional[int] = None
) -> list[Place]:
    """The lines, the columns and the paths of some places (byte offsets) in a text, in their order, in one reading. The source is
    what `check` takes. The text's end is a place too; places beyond it are left out."""
    wanted = sorted(set(places))
    if wanted and wanted[0] < 0:
        raise ValueError("a place is an offset from the start of the text")
    return list(_locate(pieces_of(source), wanted, limits_of(max_depth, max_bytes)))


def report(source: Source, max_depth: Optional[int] = None, max_bytes: Optional[int] = None) -> Report:
    """A verdict with the line, the column and the path of its place, and a hint. The source is what `check` takes.

    Bytes, texts, paths and files that can be read again are, up to the place; of others the byte offset alone is known.
    """
    again = Again(source)
    verdict, levels = check_open(source, max_depth, max_bytes)
    shown = place_of(verdict)
    if shown is None or not again.can:
        return Report(verdict)
    watched = Watched(shown)
    pieces = watched.watch(again.pieces())
    places = [] if verdict.place is None else [verdict.place]
    found = list(_locate(pieces, places, limits_of(max_depth, max_bytes)))
    while not watched.is_whole and next(pieces, None) is not None:
        pass
    if len(found) < len(places) or not again.is_same():
        return Report(verdict)
    hint = watched.hint(verdict, levels)
    if not found:
        return Report(verdict, hint=hint)
    return Report(verdict, found[0].line, found[0].column, found[0].path if verdict.rule else None, hint)
