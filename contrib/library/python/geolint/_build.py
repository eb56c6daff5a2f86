"""What this package was built from. `make dist` writes it; of a checkout, `git rev-parse HEAD` and `rt version` say it."""

from __future__ import annotations

from typing import NamedTuple, Optional

from ._verdict import version

# `make dist` writes both.
_COMMIT = ""
_KIT = ""


class Build(NamedTuple):
    """The version of the library, and the commit and the proof kit that this package was built from: None where it is not one of
    those that `make dist` makes."""

    version: str
    commit: Optional[str]
    kit: Optional[str]

    def __str__(self) -> str:
        lines = [f"geolint {self.version}"]
        if self.commit and self.kit:
            lines += [f"commit: {self.commit}", f"proved and compiled by: {self.kit}"]
        return "\n".join(lines)


def build() -> Build:
    """What this package was built from."""
    return Build(version(), _COMMIT or None, _KIT or None)
