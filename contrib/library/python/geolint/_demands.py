"""What the validators of frameworks ask of a text. Nothing here is for hosts."""

from __future__ import annotations

from typing import Iterable, Iterator, Optional

from ._verdict import Verdict, Warning


class Demands:
    """A text is valid, and has no warnings of the kinds in `deny`, such as (5,). With `strict`, it has no others either, but for the kinds
    in `allow`, such as (4, 9)."""

    def __init__(
        self,
        strict: bool = False,
        allow: Iterable[int] = (),
        max_depth: Optional[int] = None,
        max_bytes: Optional[int] = None,
        deny: Iterable[int] = (),
    ) -> None:
        self.strict, self.allow, self.deny = strict, tuple(allow), tuple(deny)
        self.max_depth, self.max_bytes = max_depth, max_bytes

    def failing(self, verdict: Verdict) -> Iterator[Warning]:
        """The warnings that do not pass."""
        return (w for w in verdict.warnings if w.kind in self.deny or self.strict and w.kind not in self.allow)
