"""What a text is: the values that the calls of this package return."""

from __future__ import annotations

import operator
from dataclasses import dataclass
from typing import Any, Optional

from ._native import DONE, ENDED, library, text_of

_NAMES = {1: "valid", 2: "broken", 3: "not JSON"}
_ALLOWED = "a depth is from 1 to 256, and a number of bytes from 1 to 2**60"


class Ended(ValueError):
    """A linter was used after its end."""


@dataclass(frozen=True)
class Warning:
    """The warnings of one kind: the number in its name, how many, the byte offset of the first, and what it says."""

    kind: int
    count: int
    first: int
    text: str


@dataclass(frozen=True)
class Verdict:
    """What a text is. `name` is "valid", "broken" or "not JSON"; places are byte offsets.

    `rule` is the number of the broken rule, `cause` that of why it is no JSON text, `place` and `text` belong to either;
    None where there is none. `warnings` are those of a valid text. A verdict is true where the text is valid.
    """

    name: str
    rule: Optional[int] = None
    cause: Optional[int] = None
    place: Optional[int] = None
    text: Optional[str] = None
    warnings: tuple[Warning, ...] = ()

    @property
    def valid(self) -> bool:
        return self.name == "valid"

    @property
    def code(self) -> Optional[str]:
        """The name of the rule or of the cause, as "G15" or "J1"; None of a valid text."""
        if self.rule is not None:
            return f"G{self.rule}"
        return None if self.cause is None else f"J{self.cause}"

    def __bool__(self) -> bool:
        return self.valid

    def __str__(self) -> str:
        """The lines of the program's report."""
        if self.valid:
            lines = [f"warning W{w.kind} count {w.count} first {w.first}: {w.text}" for w in self.warnings]
            return "\n".join(["valid", *lines])
        rule = f" G{self.rule}" if self.rule else ""
        return f"{self.name}{rule} at {self.place}: {self.text}"


@dataclass(frozen=True)
class Finding:
    """What is found in a feature or in a record.

    `number` says how many features stand before it; a record is counted from 1, and has 0 where it is what stands before the
    first RS. `place` is that of its first byte, `end` that after its last, which is None of a feature that is no object and no
    array. `id` is the place of the value of the feature's first member `id`; None where it has none. The verdict's places are
    from the start of the input. A finding is true where its verdict is.
    """

    number: int
    place: int
    end: Optional[int]
    id: Optional[int]
    verdict: Verdict

    def __bool__(self) -> bool:
        return self.verdict.valid


def verdict_of(report: Any) -> Verdict:
    """The verdict in a report of the library."""
    if report.status == ENDED:
        raise Ended("the linter has ended")
    if report.status != DONE:
        raise ValueError(_ALLOWED)
    name = _NAMES[report.verdict]
    if name == "valid":
        if not report.warned:
            return Verdict(name)
        noted = [(kind, w.count, w.first) for kind, w in enumerate(report.warnings, 1) if w.count]
        return Verdict(name, warnings=tuple(Warning(*n, text_of(library.geolint_warning_text, n[0])) for n in noted))
    if name == "broken":
        return Verdict(name, rule=report.rule, place=report.place, text=text_of(library.geolint_rule_text, report.rule))
    return Verdict(name, cause=report.cause, place=report.place, text=text_of(library.geolint_cause_text, report.cause))


def finding_of(found: Any) -> Finding:
    """The finding in one of the library."""
    return Finding(found.number, found.place, found.end or None, found.id or None, verdict_of(found.report))


def _limit(name: str, value: Optional[int], most: int) -> int:
    """A limit as the library takes it: 0 stands for the widest."""
    if value is None:
        return 0
    if isinstance(value, bool) or not hasattr(value, "__index__"):
        raise TypeError(f"{name} is a whole number, not {type(value).__name__}")
    if not 1 <= operator.index(value) <= most:
        raise ValueError(_ALLOWED)
    return operator.index(value)


def limits_of(max_depth: Optional[int], max_bytes: Optional[int]) -> tuple[int, int]:
    """Both limits as the library takes them."""
    return _limit("max_depth", max_depth, 256), _limit("max_bytes", max_bytes, 2**60)


def version() -> str:
    """The version of the library."""
    return text_of(library.geolint_version_text)
