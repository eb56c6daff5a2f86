"""A web service that stores uploads and checks them while they come: an ASGI application.

    python3 examples/service/app.py 8000                           # by uvicorn, with the uploads in a folder of its own
    UPLOADS=/srv/uploads uvicorn --app-dir examples/service app:app
    UPLOADS=/srv/uploads gunicorn --chdir examples/service -k uvicorn.workers.UvicornWorker -w 4 app:app

README.md says what it takes and what it answers.
"""

import asyncio
import logging
import os
import re
import resource
import sys
import tempfile
import time
from concurrent.futures import ThreadPoolExecutor
from dataclasses import dataclass, field
from typing import Any, AsyncIterator, Callable, Dict, FrozenSet, List, Optional

import geolint
from answers import accepts_html, as_html, as_json, form_page
from forms import FormError, file_of

MOST_BYTES = 100_000_000
# How many uploads are taken at once. Each holds the memory of its findings, 246 KB, and what of it has come and is not checked yet,
# which the server bounds: whatever its size, less than a megabyte, and half a megabyte more for the broken features that are listed.
MOST_AT_ONCE = 2000
# How many broken features are listed; the others are counted.
MOST_TOLD = 1000
# How many characters are read of what a client accepts.
MOST_ACCEPT = 1000
# How long a client may send nothing, how long an upload may take, and how long what a client still sends after the answer is dropped; in
# seconds.
WAIT = 30
TOTAL = 600
LINGER = 5
# How many bytes of an upload are read, checked and stored before it is another's turn.
TURN = 2048
# How many broken texts are read a second time at once: more threads would leave the event loop less of the interpreter.
READERS = ThreadPoolExecutor(2)
VALUE = re.compile(rb'"(?:[^"\\]|\\.)*"?|[^\s,}\]]+')
KINDS = frozenset(range(1, 10))
FOLDER = os.environ.get("UPLOADS")


class Refused(Exception):
    """A request that is not served: its status, why, and more fields of the answer's header."""

    def __init__(self, status: int, reason: str, **headers: str) -> None:
        super().__init__(reason)
        self.status, self.reason, self.headers = status, reason, headers


@dataclass
class Outcome:
    """What an upload is: the verdict, which warnings refuse it, the broken features that are listed, how many there are, a hint, and where
    it is stored if it passes."""

    verdict: geolint.Verdict
    denied: FrozenSet[int]
    broken: List[geolint.Finding] = field(default_factory=list)
    broken_count: int = 0
    places: Dict[int, geolint.Place] = field(default_factory=dict)
    ids: Dict[int, Any] = field(default_factory=dict)
    hint: Optional[str] = None
    stored: Optional[str] = None

    def __bool__(self) -> bool:
        """Whether it passes."""
        return bool(self.verdict) and not any(warning.kind in self.denied for warning in self.verdict.warnings)


class Body:
    """The pieces of a request's body: no byte more than allowed, and none of a client that is too slow."""

    def __init__(self, headers: Dict[str, str], receive: Callable[[], Any]) -> None:
        self.receive, self.count, self.is_over, self.has_begun = receive, 0, False, False
        self.end = time.monotonic() + TOTAL
        length = headers.get("content-length", "0")
        self.is_awaited = "expect" in headers
        if not length.isdecimal() or int(length) > MOST_BYTES:
            raise Refused(413, f"more than {MOST_BYTES} bytes")

    async def message(self, seconds: float) -> Dict[str, Any]:
        self.has_begun = True
        found: Dict[str, Any] = await asyncio.wait_for(self.receive(), max(seconds, 0.001))
        if found["type"] == "http.disconnect":
            raise ConnectionError
        self.is_over = not found.get("more_body", False)
        return found

    async def __aiter__(self) -> AsyncIterator[bytes]:
        while not self.is_over:
            try:
                found = await self.message(min(WAIT, self.end - time.monotonic()))
            except asyncio.TimeoutError:
                raise Refused(408, "the client is too slow") from None
            self.count += len(found.get("body", b""))
            if self.count > MOST_BYTES:
                raise Refused(413, f"more than {MOST_BYTES} bytes")
            piece = found.get("body", b"")
            for at in range(0, len(piece), TURN):
                yield piece[at : at + TURN]
                await asyncio.sleep(0)

    async def drop(self) -> None:
        """Reads what still comes for some time, and drops it: a client that has not sent all might not read the answer."""
        end = time.monotonic() + LINGER
        # Who waits for the word to go on has sent nothing.
        while not self.is_over and (self.has_begun or not self.is_awaited) and time.monotonic() < end:
            try:
                await self.message(end - time.monotonic())
            except (asyncio.TimeoutError, ConnectionError):
                return


async def written(pieces: AsyncIterator[bytes], file: Any) -> AsyncIterator[bytes]:
    """Hands pieces on, and writes each before."""
    async for piece in pieces:
        file.write(piece)
        yield piece


async def check_and_store(pieces: AsyncIterator[bytes], folder: str, denied: FrozenSet[int]) -> Outcome:
    """What the pieces are. They are stored while they are checked, and stay where they pass."""
    store = tempfile.NamedTemporaryFile(dir=folder, suffix=".part", delete=False)
    outcome: Optional[Outcome] = None
    try:
        with store:
            found = geolint.afeatures(written(pieces, store))
            broken: List[geolint.Finding] = []
            count = 0
            async for finding in found:
                count += not finding
                if not finding and len(broken) < MOST_TOLD:
                    broken.append(finding)
            assert found.verdict is not None
            outcome = Outcome(found.verdict, denied, broken, count)
        if not outcome.verdict or outcome.verdict.warnings:
            # A long text is read again for a while: on another thread, so that the others go on.
            await asyncio.get_running_loop().run_in_executor(READERS, read_again, outcome, store.name)
        if outcome:
            name = os.path.basename(store.name)[: -len(".part")] + ".geojson"
            os.replace(store.name, os.path.join(folder, name))
            outcome.stored = name
        return outcome
    finally:
        # A disk may have no room for the last bytes of a valid text: then it is not stored.
        if outcome is None or not outcome.stored:
            os.unlink(store.name)


def read_again(outcome: Outcome, path: str) -> None:
    """The hint, the lines, the columns and the paths of what is broken, and the `id`s of the features."""
    verdicts = [outcome.verdict, *(finding.verdict for finding in outcome.broken)]
    with open(path, "rb") as file:
        outcome.hint = geolint.report(file).hint
        file.seek(0)
        places = geolint.locate(file, [verdict.place for verdict in verdicts if verdict.place is not None])
        outcome.places = {place.offset: place for place in places}
        for finding in outcome.broken:
            if finding.id is not None:
                file.seek(finding.id)
                outcome.ids[finding.number] = written_value(file.read(160))


def written_value(start: bytes) -> str:
    """A string, a number or a word as it is written, in its first characters."""
    found = VALUE.match(start)
    return found.group().decode("utf-8", "replace")[:40] if found else ""


def denied_by(query: bytes) -> FrozenSet[int]:
    """The kinds of warning that do not pass: all for `strict`, and those that `deny=W4,W5` names."""
    if b"strict" in query.split(b"&"):
        return KINDS
    named = [it[5:] for it in query.split(b"&") if it.startswith(b"deny=")]
    if not all(re.fullmatch(rb"W[1-9](,W[1-9])*", it) for it in named):
        raise Refused(400, "deny has kinds of warning from W1 to W9, as in /?deny=W5")
    return frozenset(int(kind[1:]) for it in named for kind in it.split(b","))


async def upload(headers: Dict[str, str], body: Body, folder: str, denied: FrozenSet[int]) -> Outcome:
    """The file of a form, the field `text` of a form, or the body itself."""
    try:
        return await check_and_store(file_of(headers.get("content-type", ""), body.__aiter__()), folder, denied)
    except FormError as error:
        raise Refused(400, str(error)) from None


class Service:
    """The application. The folder is where uploads are stored."""

    def __init__(self, folder: Optional[str] = None) -> None:
        self.folder = folder or tempfile.mkdtemp(prefix="uploads-")
        self.at_once = 0

    async def __call__(self, scope: Dict[str, Any], receive: Callable[[], Any], send: Callable[[Any], Any]) -> None:
        if scope["type"] != "http":
            return
        headers = {name.decode("latin-1"): value.decode("latin-1") for name, value in scope["headers"]}
        is_html, body, more = accepts_html(headers.get("accept", "")[:MOST_ACCEPT]), None, {}
        try:
            if scope["method"] in ("GET", "HEAD"):
                status, content, is_html = 200, form_page(), True
            elif scope["method"] == "POST":
                body = Body(headers, receive)
                outcome = await self.take(headers, body, denied_by(scope["query_string"]))
                status = 200 if outcome else 422
                content = as_html(outcome) if is_html else as_json(outcome)
            else:
                raise Refused(405, "a text is sent by POST", Allow="GET, HEAD, POST")
        except Refused as refused:
            status, more = refused.status, refused.headers
            content = f"{refused.reason}\n" if is_html else as_json(refused.reason)
        except ConnectionError:
            return
        except OSError as error:
            reason = f"the upload cannot be stored: {error.strerror}"
            logging.error(reason)
            status, content = 507, f"{reason}\n" if is_html else as_json(reason)
        kind = "text/html" if is_html and status in (200, 422) else "text/plain" if is_html else "application/json"
        await answer(send, status, kind, content.encode(), scope["method"] == "HEAD", body, more)

    async def take(self, headers: Dict[str, str], body: Body, denied: FrozenSet[int]) -> Outcome:
        if self.at_once >= MOST_AT_ONCE:
            raise Refused(503, "too many uploads at once", **{"Retry-After": "5"})
        self.at_once += 1
        try:
            return await upload(headers, body, self.folder, denied)
        finally:
            self.at_once -= 1


async def answer(
    send: Callable[[Any], Any], status: int, kind: str, content: bytes, is_head: bool, body: Optional[Body], more: Dict[str, str]
) -> None:
    """Sends the answer, and reads what the client still sends before the connection is closed."""
    fields = {"Content-Type": f"{kind}; charset=utf-8", "Content-Length": str(len(content)), **more}
    is_cut = status not in (200, 405) and (body is None or not body.is_over)
    fields.update({"Connection": "close"} if is_cut else {})
    headers = [(name.lower().encode(), value.encode()) for name, value in fields.items()]
    await send({"type": "http.response.start", "status": status, "headers": headers})
    await send({"type": "http.response.body", "body": b"" if is_head else content, "more_body": is_cut})
    if is_cut:
        if body is not None:
            await body.drop()
        await send({"type": "http.response.body", "body": b"", "more_body": False})


app = Service(FOLDER)


def main() -> None:
    import uvicorn

    # Each upload has a socket and a file.
    most = resource.getrlimit(resource.RLIMIT_NOFILE)[1]
    resource.setrlimit(resource.RLIMIT_NOFILE, (most, most))
    port = int(sys.argv[1]) if len(sys.argv) > 1 else 8000
    uvicorn.run(app, host="127.0.0.1", port=port, log_level="warning", backlog=2048, timeout_keep_alive=WAIT)


if __name__ == "__main__":
    main()
