"""What a type checker finds in a program that uses the package: nothing, but the lines that say so are mistakes."""

from __future__ import annotations

import io
import mmap
import pathlib
from typing import AsyncIterator, Iterator, List, Optional

import geolint


def sources(mapped: mmap.mmap, pieces: Iterator[bytes]) -> List[geolint.Verdict]:
    with open("map.geojson", "rb") as file:
        found = [geolint.check(it) for it in (b"{}", bytearray(b"{}"), memoryview(b"{}"))]
        return found + [geolint.check(mapped), geolint.check("{}"), geolint.check(pathlib.Path("map.geojson")), geolint.check(file), geolint.check(pieces)]


async def awaited(stream: AsyncIterator[bytes]) -> Optional[geolint.Verdict]:
    found: geolint.AsyncFeatures = geolint.afeatures(stream)
    numbers: List[int] = [it.number async for it in found]
    verdict: geolint.Verdict = await geolint.acheck(b"".join(str(number).encode() for number in numbers))
    return verdict or found.verdict


def told() -> str:
    report: geolint.Report = geolint.report(io.BytesIO(b"{}"), max_bytes=100)
    broken = [finding.number for finding in geolint.features("{}") if not finding]
    places: List[geolint.Place] = geolint.locate("{}", broken)
    kinds: List[int] = [warning.kind for warning in report.verdict.warnings]
    hint: Optional[str] = report.hint or geolint.hint(report.verdict, b"{}") or geolint.hint_around(report.verdict, 1, b"{}", b"", bytearray(b"{}"))
    first: Optional[geolint.Warning] = report.verdict.warnings[0] if kinds else None
    built: geolint.Build = geolint.build()
    commit: Optional[str] = built.commit
    return f"{report.line}:{report.column}: {places}, {first}, {geolint.__version__}, {commit}, {hint}"


geolint.check(7)  # type: ignore[arg-type]
geolint.check("{}", max_depth="7")  # type: ignore[arg-type]
geolint.report("{}").line + 1  # type: ignore[operator]
geolint.hint(geolint.check("{}"), "{}")  # type: ignore[arg-type]
geolint.records("{}")  # type: ignore[call-arg]
