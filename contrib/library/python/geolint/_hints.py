"""What an input looks like that is not valid."""

from __future__ import annotations

import ctypes
from typing import TYPE_CHECKING, Any, Iterable, Iterator, Optional

from ._native import Report, Text, address, library
from ._sources import buffer_of, refuse_piece, runs
from ._verdict import Verdict

if TYPE_CHECKING:
    from _typeshed import ReadableBuffer

# How many of the first bytes count, and how many before a place and from it on.
HEAD, AROUND = 512, 256
# The number of the kind W5, a position out of range.
_OUT_OF_RANGE = 5


def _report_of(verdict: Verdict) -> Report:
    """The verdict as the library's report has it."""
    report = Report(0, {"valid": 1, "broken": 2}.get(verdict.name, 3), verdict.rule or 0, verdict.cause or 0, verdict.place or 0)
    for w in verdict.warnings:
        report.warned = 1
        report.warnings[w.kind - 1] = (w.count, w.first)
    return report


def place_of(verdict: Verdict) -> Optional[int]:
    """The place by which a hint goes; None where there is no hint."""
    if verdict.valid:
        return next((w.first for w in verdict.warnings if w.kind == _OUT_OF_RANGE), None)
    return verdict.place


def _hint(call: Any, verdict: Verdict, *words: Any) -> Optional[str]:
    text = Text(b"", 1)
    call(ctypes.byref(_report_of(verdict)), *words, ctypes.byref(text))
    return text.bytes.decode("ascii") or None


def _bytes_of(data: Any) -> bytes:
    view = buffer_of(data)
    return bytes(refuse_piece(data) if view is None else view)


def hint(verdict: Verdict, data: ReadableBuffer) -> Optional[str]:
    """What a text in memory looks like, by its verdict, and a command that makes it right: the hint of geolint-files. None where
    nothing shows it. It is a guess, and no verdict depends on it. `data` are the bytes of which this is the verdict."""
    held = data if isinstance(data, bytes) else _bytes_of(data)
    return _hint(library.geolint_hint_text, verdict, address(held), len(held))


def hint_around(
    verdict: Verdict, levels: int, head: ReadableBuffer, before: ReadableBuffer, after: ReadableBuffer
) -> Optional[str]:
    """The hint for an input that came in pieces: by its first 512 bytes, the last 256 before the place and 256 from it on, or as many
    as there are; more are passed over. The place is the verdict's, and of a valid text that of the first W5. `levels` is
    `Linter.levels` before the end; of a record pass 1."""
    parts = [_bytes_of(part) for part in (head, before, after)]
    return _hint(library.geolint_hint_around, verdict, levels, *(word for part in parts for word in (address(part), len(part))))


class Watched:
    """The bytes that a hint goes by, kept as the pieces of an input pass."""

    def __init__(self, place: int) -> None:
        self.head = self.before = self.after = b""
        self._place, self._offset = place, 0

    def watch(self, pieces: Iterable[Any]) -> Iterator[bytes]:
        """Hands the bytes on, in runs."""
        for piece in pieces:
            for run in runs(piece):
                self._keep(run)
                yield run

    def _keep(self, run: bytes) -> None:
        at = self._place - self._offset
        self.head += run[: HEAD - len(self.head)]
        if at > 0:
            self.before += run[max(0, at - AROUND) : at]
        if at < len(run):
            self.after += run[max(0, at) :][: AROUND - len(self.after)]
        self._offset += len(run)

    @property
    def is_whole(self) -> bool:
        """Whether no further byte counts."""
        return len(self.after) == AROUND

    def hint(self, verdict: Verdict, levels: int) -> Optional[str]:
        return hint_around(verdict, levels, self.head, self.before, self.after)
