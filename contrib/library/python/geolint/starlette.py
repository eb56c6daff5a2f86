"""geolint for Starlette and FastAPI: a request's body is checked as it streams.

    @app.post("/surveys")                                       # FastAPI
    async def add(body: GeoJSON = Depends(GeoJSONBody(max_bytes=10_000_000))):
        store(body.file)                                        # a file, at its start

    async def add(request):                                     # Starlette
        async with GeoJSONBody().of(request) as body:
            store(body.file)

    app.add_exception_handler(NotGeoJSON, answer)

A body that is no GeoJSON gets the status 422, and one of more than `max_bytes` 413. With the handler the answer is JSON that says what
is wrong and where; without it, it is one line.
"""

import tempfile
from contextlib import asynccontextmanager
from dataclasses import dataclass
from typing import IO, Any, AsyncIterator, Dict, Iterable, Optional

from starlette.exceptions import HTTPException
from starlette.requests import Request
from starlette.responses import JSONResponse

from . import Linter, Report, Verdict, locate
from ._demands import Demands

# How much of a body is held in memory; the rest of it is in a file.
_HELD = 1 << 20
_TOO_LONG = 4


@dataclass
class GeoJSON:
    """A body that was checked: its verdict, and its bytes, in a file that goes with the request."""

    verdict: Verdict
    file: IO[bytes]


class NotGeoJSON(HTTPException):
    """A body that does not pass. `report` has the verdict, the line, the column and the path."""

    def __init__(self, found: Report) -> None:
        self.report = found
        super().__init__(413 if found.verdict.cause == _TOO_LONG else 422, str(found))


class GeoJSONBody(Demands):
    """A dependency that checks the body of a request while it comes, and stores it meanwhile: at most `max_bytes` of it, which are
    100 MB unless it is given, and without a limit if it is None.

    With `strict`, a text with warnings does not pass, but for the kinds in `allow`, such as (4, 9), and never with one in `deny`.
    """

    def __init__(
        self,
        strict: bool = False,
        allow: Iterable[int] = (),
        max_depth: Optional[int] = None,
        max_bytes: Optional[int] = 100_000_000,
        deny: Iterable[int] = (),
    ) -> None:
        super().__init__(strict, allow, max_depth, max_bytes, deny)

    async def __call__(self, request: Request) -> AsyncIterator[GeoJSON]:
        async with self.of(request) as body:
            yield body

    @asynccontextmanager
    async def of(self, request: Request) -> AsyncIterator[GeoJSON]:
        """The body of a request, for the length of a block."""
        linter = Linter(self.max_depth, self.max_bytes)
        file: Any
        with tempfile.SpooledTemporaryFile(_HELD) as file:
            async for piece in request.stream():
                if not linter.feed(piece):
                    break
                file.write(piece)
            verdict = linter.finish()
            file.seek(0)
            if not self.passes(verdict):
                raise NotGeoJSON(_placed(verdict, file))
            yield GeoJSON(verdict, file)

    def passes(self, verdict: Verdict) -> bool:
        return verdict.valid and not any(self.failing(verdict))


def _placed(verdict: Verdict, file: Any) -> Report:
    """The report of a text that is in a file, at its start: with the line, the column and the path of a broken rule."""
    for place in locate(file, [verdict.place]) if verdict.rule and verdict.place is not None else ():
        return Report(verdict, place.line, place.column, place.path)
    return Report(verdict)


def detail_of(found: Report) -> Dict[str, Any]:
    """What is wrong, as JSON has it."""
    verdict = found.verdict
    return {
        "verdict": verdict.name,
        "code": verdict.code,
        "text": verdict.text,
        "offset": verdict.place,
        "line": found.line,
        "column": found.column,
        "path": found.path,
        "warnings": [{"code": f"W{w.kind}", "count": w.count, "first": w.first, "text": w.text} for w in verdict.warnings],
    }


async def answer(request: Request, error: NotGeoJSON) -> JSONResponse:
    """The answer to a body that does not pass, as JSON: for `add_exception_handler`."""
    return JSONResponse({"detail": detail_of(error.report)}, error.status_code)


__all__ = ["GeoJSON", "GeoJSONBody", "NotGeoJSON", "answer", "detail_of"]
