"""The exact value of a JSON number (RFC 8259, section 6), within the profile of docs/DECISIONS.md."""

import dataclasses
import re

NUMBER = re.compile(r"(-?)(\d+)(?:\.(\d+))?(?:[eE]([+-]?\d+))?")


@dataclasses.dataclass(frozen=True)
class Decimal:
    """`whole` times ten to the `power`, where `whole` has no zero at its end; zero is 0 times ten to the 0."""

    whole: int
    power: int

    def places(self):
        """How many decimal places it has; zeros at the end do not count."""
        return max(0, -self.power)

    def cut(self):
        """The value in units of the seventh decimal place, cut toward zero; None from 10^17 of them on."""
        shift = self.power + 7
        if shift > 17:
            return None if self.whole else 0
        size = abs(self.whole)
        size = size * 10**shift if shift >= 0 else size // 10**-shift
        if size >= 10**17:
            return None
        return -size if self.whole < 0 else size


def exact(spelling):
    """The value of a number, or None where it is beyond the profile: 30 digits, powers to 400, exponents to 1000 either way."""
    sign, front, fraction, exponent = NUMBER.fullmatch(spelling).groups()
    digits = (front + (fraction or "")).lstrip("0")
    if not digits:
        return Decimal(0, 0)
    significant = digits.rstrip("0")
    written = (exponent or "0").lstrip("+-").lstrip("0") or "0"
    if len(significant) > 30 or len(written) > 4 or int(written) > 1000:
        return None
    shift = -int(written) if (exponent or "").startswith("-") else int(written)
    power = shift - len(fraction or "") + len(digits) - len(significant)
    if abs(power) > 400:
        return None
    return Decimal(int(sign + significant), power)
