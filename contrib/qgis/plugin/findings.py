"""What is found in a file, and its valid features. Nothing here is QGIS'."""

import json
import os
from dataclasses import dataclass
from itertools import islice
from pathlib import Path
from typing import Optional

from .geolint import features, locate, records, report
from .geolint._findings import framing_of
from .geolint._known import Known, known_of

PIECE = 1 << 20
# So many findings are in memory at a time. The file is read once for all of them, and once more for the places of each so many.
AT_ONCE = 65536
_NOTHING = Known(None, None, None)


@dataclass
class Row:
    """One thing that is found. `number` counts features from 0 and texts from 1; None is the whole file."""

    number: Optional[int]
    known: Known
    code: str
    offset: int
    # Where the text begins that has the place, where a file has many.
    start: int = 0
    line: Optional[int] = None
    column: Optional[int] = None
    path: Optional[str] = None


def has_many_texts(path):
    """Whether a file of this name is of many texts."""
    return framing_of(os.fsencode(path)) is not None


class Reading:
    """Reads a file as `rows` is iterated, and counts. `goes_on` is told how far it is, from 0 to 1, and says whether it goes on."""

    def __init__(self, path, lists_warnings=False, keep=None, goes_on=lambda share: True):
        self.path, self.lists_warnings, self.goes_on = Path(path), lists_warnings, goes_on
        # Takes the bytes of each feature without a fault.
        self.keep = keep
        self.framing = framing_of(os.fsencode(path))
        self.count = self.broken = 0
        self.verdict = None

    def _pieces(self):
        size = max(1, os.path.getsize(self.path))
        with open(self.path, "rb") as file:
            while (piece := file.read(PIECE)) and self.goes_on(file.tell() / size):
                yield piece

    def _rows(self, file):
        found = records(self._pieces(), self.framing) if self.framing else features(self._pieces())
        places = set()
        for it in found:
            self.count += 1
            verdict = it.verdict
            if it:
                if self.keep:
                    file.seek(it.place)
                    self.keep(file.read(it.end - it.place))
                if not (self.lists_warnings and verdict.warnings):
                    continue
                told = [(f"W{w.kind}", w.first) for w in verdict.warnings]
            else:
                self.broken += 1
                told = [(verdict.code, verdict.place)]
                places.add(verdict.place)
            known = known_of(file, it)
            for code, offset in told:
                yield Row(it.number, known, code, offset, it.place if self.framing else 0)
        self.verdict = found.verdict
        if self.verdict and self.keep and not self.framing and self.count == 0:
            file.seek(0)
            text = file.read()
            # A geometry or a feature alone is one; a collection of none is not.
            if json.loads(text)["type"] != "FeatureCollection":
                self.keep(text)
        # What is wrong outside of the features.
        if self.verdict.code and self.verdict.place not in places:
            yield Row(None, _NOTHING, self.verdict.code, self.verdict.place)

    def _find(self, file, rows):
        """Gives rows their places."""
        spots = {it.offset: it for it in locate(self._pieces(), [row.offset for row in rows])}
        for row in rows:
            spot = spots.get(row.offset)
            if spot is None:
                continue
            row.line, row.column = spot.line, spot.column
            if row.start:
                # A path is one in its own text.
                file.seek(row.start)
                (spot,) = locate(file.read(row.offset - row.start + 1), [row.offset - row.start])
            # What is no JSON has no paths.
            row.path = spot.path if row.code[0] != "J" else None

    def rows(self):
        """The rows, in the order of the file."""
        with open(self.path, "rb") as file:
            rows = self._rows(file)
            while some := list(islice(rows, AT_ONCE)):
                self._find(file, some)
                yield from some

    def first(self, most):
        """The first rows alone. All are counted."""
        with open(self.path, "rb") as file:
            rows = self._rows(file)
            some = list(islice(rows, most))
            for _ in rows:
                pass
            self._find(file, some)
        return some

    def report(self):
        """The report on the whole, of a file with one text."""
        return report(self.path)
