"""What people know a feature by: its id, its name and its first position. They are guesses from its first bytes, for lists and maps."""

from __future__ import annotations

import math
import re
from typing import BinaryIO, NamedTuple, Optional

from ._verdict import Finding

# A name and a position are looked for in so many bytes of a feature, and an id in so many from its place on.
_HEAD, _MOST_ID = 65536, 120
_NUMBER = rb"(-?\d+(?:\.\d+)?(?:[eE][-+]?\d+)?)"
_POSITION = re.compile(rb'"coordinates"\s*:[\s\[]*' + _NUMBER + rb"\s*,\s*" + _NUMBER)
_STRING = rb'"((?:[^"\\]|\\.)*)"'
_NAME = re.compile(rb'"(?:[nN]ame|NAME|[tT]itle|label|ref)"\s*:\s*' + _STRING)
_ID = re.compile(_STRING + rb"|[^\s,}\]]+")


class Known(NamedTuple):
    """Each is None where it is not found. Texts are as they are written, without their quotes."""

    id: Optional[str]
    name: Optional[str]
    position: Optional[tuple[float, float]]


def _text(found: Optional[re.Match[bytes]]) -> Optional[str]:
    if found is None:
        return None
    written = found[0] if found[1] is None else found[1]
    return written.decode("utf-8", "replace")


def known_of(file: BinaryIO, found: Finding) -> Known:
    """What the feature or the record of a finding is known by, from the file that it was found in."""
    file.seek(found.place)
    head = file.read(min(_HEAD, (found.end or found.place) - found.place))
    numbers = _POSITION.search(head)
    position = (float(numbers[1]), float(numbers[2])) if numbers else None
    id = None
    if found.id is not None:
        file.seek(found.id)
        id = _ID.match(file.read(_MOST_ID))
    return Known(_text(id), _text(_NAME.search(head)), position if position and all(map(math.isfinite, position)) else None)
