"""One text in a file, in parts that threads check at once. What a part says is true of its bytes alone, and the join passes over a part
only where a feature has just ended: so the verdict is that of one reading, wherever the parts begin."""

from __future__ import annotations

import ctypes
import os
import threading
from concurrent.futures import ThreadPoolExecutor
from typing import Any, Callable, Iterator, Optional

from ._native import DONE, Sum, address, library, room
from ._verdict import Verdict, limits_of, verdict_of

# So many bytes are read at once. A part that has fewer is not worth a thread.
PIECE = 1 << 20
LEAST = 4 * PIECE
# A place is tried by so many bytes; so many are looked at together with those before; and so many are read for all trials at the most.
TRIAL, SEAM, ALL_TRIALS = 65536, 256, 1 << 24

Read = Callable[[int, int], bytes]


def _reader(file: Any) -> Read:
    """What reads a file at a place, on any thread."""
    if hasattr(os, "pread"):
        return lambda place, size: os.pread(file.fileno(), size, place)
    lock = threading.Lock()

    def read(place: int, size: int) -> bytes:
        with lock:
            file.seek(place)
            piece: bytes = file.read(size)
            return piece

    return read


class _Text:
    """A text in a file, and the limits that it is checked under. `stopped` ends each thread with its piece."""

    def __init__(self, read: Read, size: int, limits: tuple[int, int]) -> None:
        self.read, self.size, self.limits, self.stopped = read, size, limits, False

    def pieces(self, place: int, until: int, size: int = 0) -> Iterator[bytes]:
        """The bytes between two places, or up to the end of the file, so many at once."""
        while place < until and not self.stopped and (piece := self.read(place, min(size or PIECE, until - place))):
            yield piece
            place += len(piece)

    def run(self, begin: int, pieces: Iterator[bytes], enough: bool = False) -> Optional[Any]:
        """The sum of the run that begins at a place; with `enough` once it has a feature, and None where what follows is refused."""
        _memory, run = room(library.geolint_run_size())
        if library.geolint_run_begin(run, self.limits[0], begin) != DONE:
            return None
        found = Sum()
        for piece in pieces:
            status = library.geolint_run_feed(run, address(piece), len(piece))
            found = library.geolint_run_sum(run)
            if enough and status != DONE:
                return None
            if status != DONE or found.ended or (enough and found.features):
                break
        return found if found.features else None

    def likely(self, place: int, until: int) -> Optional[int]:
        """The first place in a range where a feature seems to have ended, and another to follow."""
        last = place + ALL_TRIALS
        while place < min(until, last):
            piece = self.read(place, TRIAL)
            count = library.geolint_run_likely(address(piece), len(piece))
            if count:
                place += count
                if place < until and self.run(place, self.pieces(place, place + PIECE, TRIAL), enough=True):
                    return place
            elif len(piece) > SEAM:
                place += len(piece) - SEAM
            else:
                break
        return None

    def joined(self, sums: list[Any]) -> Verdict:
        """The verdict, by a reading of all but the runs of these sums."""
        _memory, join = room(library.geolint_join_size())
        library.geolint_join_begin(join, *self.limits)
        place, is_open = 0, True
        for begin, found in [*((found.begin, found) for found in sums), (self.size, None)]:
            for piece in self.pieces(place, begin) if is_open else ():
                is_open = library.geolint_join_feed(join, address(piece), len(piece)) == DONE
                place += len(piece)
                if not is_open:
                    break
            if is_open and found and library.geolint_join_pass_over(join, ctypes.byref(found)):
                place = found.end
        return verdict_of(library.geolint_join_finish(join))


def _state(file: Any) -> tuple[int, int]:
    found = os.fstat(file.fileno())
    return found.st_size, found.st_mtime_ns


def check_in_parts(file: Any, jobs: int, max_depth: Optional[int] = None, max_bytes: Optional[int] = None) -> Verdict:
    """The verdict of a regular file from its first byte on, by so many threads. OSError says also that it has changed meanwhile."""
    state = _state(file)
    text = _Text(_reader(file), state[0], limits_of(max_depth, max_bytes))
    size = min(text.size, max_bytes or text.size)
    count = max(1, min(jobs, size // LEAST))
    cuts = [size * part // count for part in range(count + 1)]
    with ThreadPoolExecutor(count) as pool:
        try:
            begins = [at for at in pool.map(text.likely, cuts, cuts[1:]) if at is not None] if count > 1 else []
            sums = pool.map(lambda begin, end: text.run(begin, text.pieces(begin, end)), begins, [*begins[1:], size])
            verdict = text.joined([found for found in sums if found])
        except BaseException:
            text.stopped = True
            raise
    if _state(file) != state:
        raise OSError("the file changed while it was read")
    return verdict
