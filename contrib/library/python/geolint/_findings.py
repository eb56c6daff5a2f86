"""What is found in each feature of a text, and in each record of an input."""

from __future__ import annotations

from typing import TYPE_CHECKING, Any, AsyncGenerator, AsyncIterator, Callable, Generator, Iterator, NoReturn, Optional

from ._native import DONE, ENDED, REFUSED, address, library, room
from ._sources import async_pieces_of, pieces_of, runs
from ._verdict import Ended, Finding, Verdict, finding_of, limits_of, verdict_of

if TYPE_CHECKING:
    from ._sources import AsyncSource, Source

_FRAMINGS = {"sequence": 0, "newlines": 1}


class _Puller:
    """A handle that reports findings as pieces come. Once it is finished, `verdict` is that of the whole."""

    _kind = ""

    def __init__(self, *begin: int) -> None:
        self.verdict: Optional[Verdict] = None
        self._memory, self._at = room(self._call("size")())
        self._call("begin")(self._at, *begin)

    def _call(self, name: str) -> Callable[..., Any]:
        call: Callable[..., Any] = getattr(library, f"geolint_{self._kind}_{name}")
        return call

    def _ready(self) -> Iterator[Finding]:
        while (found := self._call("next")(self._at)).report.status == DONE:
            yield finding_of(found)

    def _feed(self, piece: Any) -> Iterator[Finding]:
        """The findings that a piece completes. `is_refused` is true once no further piece matters."""
        for run in runs(piece):
            start, at = address(run), 0
            while at < len(run):
                progress = self._call("feed")(self._at, start + at, len(run) - at)
                at += progress.taken
                if progress.ready:
                    yield from self._ready()
                if progress.status == REFUSED:
                    self.is_refused = True
                    return
                if progress.status == ENDED:
                    raise Ended("the findings have ended")

    is_refused = False

    def _end(self) -> None:
        raise NotImplementedError

    def __reduce_ex__(self, protocol: Any) -> NoReturn:
        raise TypeError("findings cannot be copied: they stay where they lie")


class _Features(_Puller):
    _kind = "features"

    def _end(self) -> None:
        self.verdict = verdict_of(library.geolint_features_finish(self._at))


class _Records(_Puller):
    _kind = "records"
    count: Optional[int] = None

    def _end(self) -> None:
        whole = library.geolint_records_finish(self._at)
        self.verdict, self.count = verdict_of(whole.report), whole.number


class _Findings(_Puller):
    """An iterator over findings, which reads its source as it goes."""

    def __init__(self, source: Source, *begin: int) -> None:
        pieces = pieces_of(source)
        super().__init__(*begin)
        self._found = self._findings(pieces)

    def _findings(self, pieces: Iterator[Any]) -> Generator[Finding, None, None]:
        for piece in pieces:
            yield from self._feed(piece)
            if self.is_refused:
                break
        self._end()
        yield from self._ready()

    def close(self) -> None:
        """Ends the iterator early: a file that it has opened is closed."""
        self._found.close()

    def __iter__(self) -> Any:
        return self

    def __next__(self) -> Finding:
        return next(self._found)


class _AsyncFindings(_Puller):
    """An async iterator over findings, which awaits its source as it goes."""

    def __init__(self, source: AsyncSource, *begin: int) -> None:
        pieces = async_pieces_of(source)
        super().__init__(*begin)
        self._found = self._findings(pieces)

    async def _findings(self, pieces: AsyncIterator[Any]) -> AsyncGenerator[Finding, None]:
        async for piece in pieces:
            for found in self._feed(piece):
                yield found
            if self.is_refused:
                break
        self._end()
        for found in self._ready():
            yield found

    async def aclose(self) -> None:
        """Ends the iterator early."""
        await self._found.aclose()

    def __aiter__(self) -> Any:
        return self

    async def __anext__(self) -> Finding:
        return await self._found.__anext__()


class Features(_Findings, _Features):
    """The findings of the features of a text, in order. Once it has ended, `verdict` is that of the whole text."""


class Records(_Findings, _Records):
    """The findings of the records of an input, in order. Once it has ended, `verdict` is that of the whole input, and `count` says
    how many records there are, or which is the first that is not valid."""


class AsyncFeatures(_AsyncFindings, _Features):
    """As `Features`, by `async for`."""


class AsyncRecords(_AsyncFindings, _Records):
    """As `Records`, by `async for`."""


def _framing(framing: str) -> int:
    if framing not in _FRAMINGS:
        raise ValueError('a framing is "sequence" or "newlines"')
    return _FRAMINGS[framing]


def framing_of(name: bytes) -> Optional[str]:
    """The framing of a file of this name, if its ending says one."""
    name = name.lower()
    if name.endswith((b".geojsons", b".geojsonseq")):
        return "sequence"
    return "newlines" if name.endswith((b".ndjson", b".ndgeojson", b".geojsonl", b".jsonl")) else None


def features(source: Source, max_depth: Optional[int] = None, max_bytes: Optional[int] = None) -> Features:
    """What is found in each feature of a text, as soon as the feature has ended: an iterator of `Finding`.

    A feature is an element of the array that the first member `features` of the text's object holds. The source is what `check`
    takes; it is read as the findings are asked for, and no further once the text is refused.
    """
    return Features(source, *limits_of(max_depth, max_bytes))


def records(source: Source, framing: str, max_depth: Optional[int] = None, max_bytes: Optional[int] = None) -> Records:
    """What is found in each record of an input: an iterator of `Finding`. The framing is "sequence" for a text sequence (RFC 8142),
    or "newlines" for newline-delimited texts."""
    return Records(source, _framing(framing), *limits_of(max_depth, max_bytes))


def afeatures(source: AsyncSource, max_depth: Optional[int] = None, max_bytes: Optional[int] = None) -> AsyncFeatures:
    """As `features`, of a source that `acheck` takes: an async iterator of `Finding`."""
    return AsyncFeatures(source, *limits_of(max_depth, max_bytes))


def arecords(
    source: AsyncSource, framing: str, max_depth: Optional[int] = None, max_bytes: Optional[int] = None
) -> AsyncRecords:
    """As `records`, of a source that `acheck` takes: an async iterator of `Finding`."""
    return AsyncRecords(source, _framing(framing), *limits_of(max_depth, max_bytes))
