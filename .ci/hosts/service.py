"""The example of a service, behind a real server, by real requests: curl, a browser, and a thousand clients at once.

    service.py [--browser] [--gunicorn] FILE..
    service.py --at-once N [--features N] [--feature-bytes N] [--broken]
                                  N uploads at once. Each has ten times --features features of --feature-bytes each, which are all broken
                                  under --broken. For ten minutes at most

It is run by the Python that has Debian's package python3-uvicorn, and for a browser python3-websocket and chromium."""

import argparse
import asyncio
import json
import os
import pathlib
import re
import resource
import signal
import socket
import subprocess
import sys
import tempfile
import time

import checks
import geolint
from checks import ended, wants

SERVICE = os.path.join(os.path.dirname(os.path.abspath(__file__)), "../../examples/service")
MOST, WAIT = 300_000, 2
POINT = b'{"type":"Point","coordinates":[1,2]}'


def curl(*words, given=b"", accept="application/json", query=""):
    return checks.curl(url + query, "--max-time", "60", "-H", f"Accept: {accept}", *words, given=given)


def stored():
    """What is stored, which is taken away."""
    texts = []
    for entry in os.scandir(folder):
        texts.append(pathlib.Path(entry.path).read_bytes())
        os.unlink(entry.path)
    return texts


def expected(text):
    """What is answered about a text, as far as it is not the name of what is stored."""
    found = geolint.features(text)
    broken = [it for it in found if not it]
    verdict = found.verdict
    told = {"verdict": verdict.name, "strict": False, "deny": [], "hint": geolint.report(text).hint}
    if verdict:
        return {**told, "warnings": [{"code": f"W{w.kind}", "text": w.text, "count": w.count, "first": w.first} for w in verdict.warnings]}

    def fault(it):
        place = geolint.locate(text, [it.place])[0]
        path = place.path if it.rule else None
        return {"code": it.code, "text": it.text, "offset": it.place, "line": place.line, "column": place.column, "path": path}

    features = [{"feature": it.number, "id": id_of(text, it.id), **fault(it.verdict)} for it in broken]
    return {**told, **fault(verdict), "features": features, "more": 0}


def id_of(text, place):
    found = None if place is None else re.match(rb'"[^"]*"|[^\s,}]+', text[place:])
    return found and found.group().decode()[:40]


def by_curl(paths):
    """Each text as a body, in chunks, by a form's file and by a form's text; the first in each way."""
    for number, name in enumerate(paths):
        text = pathlib.Path(name).read_bytes()
        ways = {
            "as a body": ["--data-binary", f"@{name}", "-H", "Content-Type: application/geo+json"],
            "in chunks": ["--data-binary", f"@{name}", "-H", "Content-Type: application/geo+json", "-H", "Transfer-Encoding: chunked"],
            "by a form": ["-F", "kind=map", "-F", f"file=@{name}", "-F", "more=x"],
            "as curl sends it": ["--data-binary", f"@{name}"],
            "by a text": ["--data-urlencode", "kind=map", "--data-urlencode", f"text@{name}", "--data-urlencode", "more=x"],
        }
        if not text.startswith((b"{", b"[", b'"', b" ", b"\xef")):
            del ways["as curl sends it"]
        for way, words in list(ways.items()) if number < 3 else [list(ways.items())[number % len(ways)]]:
            status, said = curl(*words)
            said = json.loads(said)
            name_of = said.pop("stored", None)
            wants(f"{name} {way}", (status, said), (200 if said["verdict"] == "valid" else 422, expected(text)))
            wants(f"what is stored of {name} {way}", stored(), [text] if said["verdict"] == "valid" else [])
            wants(f"its name, {way}", bool(name_of), said["verdict"] == "valid")


def pages():
    """What a person gets."""
    html = "text/html,application/xhtml+xml,*/*;q=0.8"
    status, text = curl(accept=html)
    wants("the form", (status, 'type="file"' in text, "<textarea" in text, "This is an example" in text), (200, True, True, True))
    status, text = curl("--data-binary", '{"type":"<b>"}', "-H", "Content-Type: text/plain", accept=html)
    wants("a page", (status, "It is not GeoJSON" in text, "line 1, column 9" in text, "<b>" in text), (422, True, True, False))
    wants("a hint", "'hint'>an object is inside a string: leave out" in curl("--data-binary", '"{}"', accept=html)[1], True)
    far = ["--data-binary", '{"type":"Point","coordinates":[52.5,113.4]}']
    status, text = curl(*far, accept=html, query="?strict")
    wants("a page under ?strict", (status, "not stored, for its warnings" in text, "look swapped" in text, stored()), (422, True, True, []))
    told = json.loads(curl(*far, query="?strict")[1])
    wants("under ?strict", (told["verdict"], told["strict"], told["stored"], told["hint"][:22]), ("valid", True, None, "latitude and longitude"))
    for query, refused in (("?deny=W8", False), ("?deny=W5", True), ("?deny=W1,W8&deny=W5", True)):
        told = json.loads(curl(*far, query=query)[1])
        wants(f"under {query}", (told["stored"] is None, stored() == []), (refused, refused))
    wants("what is no kind", (curl(*far, query="?deny=W5,G1")[0], curl(*far, query="?deny=")[0]), (400, 400))
    wants("a text without warnings, under ?strict", (curl("--data-binary", POINT.decode(), query="?strict")[0], stored()), (200, [POINT]))
    wants("JSON is preferred", curl("--data-binary", "[7]", accept="text/html;q=0.5, application/json")[1][0], "{")
    wants("a page is preferred", curl("--data-binary", "[7]", accept="text/html, application/json;q=0.5")[1][0], "<")


def others():
    for method in ("PUT", "DELETE", "PATCH", "OPTIONS"):
        status, text = curl("-i", "-X", method)
        wants(method, (status, "allow: get, head, post" in text.lower()), (405, True))
    wants("HEAD", curl("-I")[0], 200)
    wants("a form without a file", json.loads(curl("-F", "kind=map")[1]), {"error": "the form has no file"})
    wants("a form without its text", curl("--data", "kind=map")[0], 400)
    wants("a form without a boundary", curl("-H", "Content-Type: multipart/form-data", "-d", "x")[0], 400)
    wants("a form that is cut off", curl("-H", "Content-Type: multipart/form-data; boundary=x", "--data-binary", CUT)[0], 400)
    wants("a form that is none", curl("-H", "Content-Type: multipart/form-data; boundary=x", "-d", "nonsense")[0], 400)
    for words in ("multipart/form-data; boundary*=undefined''x", "multipart/form-data; boundary*=idna''%ff", 'multipart/form-data;"' + ";" * 60_000):
        wants(f"a Content-Type {words[:50]}", curl("-H", f"Content-Type: {words}", "-d", "x")[0], 400)
    text = "%7B" * 300 + "&text=%7B%22a+%22:&text=x"
    wants("the first field of the name", json.loads(curl("-d", f"kind=text&{text}")[1])["offset"], 6)
    wants("what is stored of these", stored(), [])


def documented():
    """The commands of README.md, at this port."""
    root = os.path.join(SERVICE, "../..")
    lines = pathlib.Path(SERVICE, "README.md").read_text().splitlines()
    commands = [line.replace("127.0.0.1:8000", f"127.0.0.1:{port}") for line in lines if line.startswith("curl ")]
    for command in commands:
        said = subprocess.run(["bash", "-c", f"{command} -sS"], cwd=root, stdout=subprocess.PIPE, check=False).stdout
        wants(command, json.loads(said)["verdict"], "valid")
    wants("how many commands", (len(commands), len(stored())), (3, 3))


CUT = '--x\r\nContent-Disposition: form-data; name="f"; filename="a"\r\n\r\n{"type":"Point","coordinates":[1,2]}'


def the_limit():
    """At the limit a body is taken; beyond it the answer is 413, and no byte more is stored."""
    full = POINT + b" " * (MOST - len(POINT))
    raw, chunked = ["-H", "Content-Type: text/plain"], ["-H", "Transfer-Encoding: chunked"]
    for words in raw, [*raw, *chunked]:
        wants("the most bytes", curl(*words, "--data-binary", "@-", given=full)[0], 200)
        wants("what is stored of them", stored(), [full])
        wants("a byte more", curl(*words, "--data-binary", "@-", given=full + b" "), (413, f'{{"error": "more than {MOST} bytes"}}\n'))
        wants("many more", curl(*words, "--data-binary", "@-", given=full * 100)[0], 413)
    wants("a form that is too large", curl("-F", "file=@-;filename=a", given=full)[0], 413)
    wants("what is stored beyond the limit", stored(), [])
    # Without an end: how much is stored, at most, while it comes.
    with socket.create_connection(("127.0.0.1", port), timeout=20) as it:
        it.sendall(b"POST / HTTP/1.1\r\nHost: x\r\nContent-Type: text/plain\r\nTransfer-Encoding: chunked\r\n\r\n")
        most = 0
        try:
            for _ in range(200):
                it.sendall(b"2000\r\n" + b" " * 8192 + b"\r\n")
                most = max([most, *(entry.stat().st_size for entry in os.scandir(folder))])
            answer = it.recv(100)
        except ConnectionError:
            answer = b"HTTP/1.1 413"
        wants("an endless body", (answer.split()[1], most <= MOST), (b"413", True))


def full_disk():
    """The last bytes of a valid text find no room: nothing is stored, and nothing is left in the way of the next one."""
    limits = resource.prlimit(server.pid, resource.RLIMIT_FSIZE, (8192, resource.RLIM_INFINITY))
    words = ["-H", "Content-Type: text/plain", "--data-binary", "@-"]
    wants("no room", curl(*words, given=POINT.ljust(8200)), (507, '{"error": "the upload cannot be stored: File too large"}\n'))
    wants("what is left of it", stored(), [])
    resource.prlimit(server.pid, resource.RLIMIT_FSIZE, limits)
    wants("room again", (curl(*words, given=POINT.ljust(8200))[0], stored()), (200, [POINT.ljust(8200)]))


def turns():
    """How long an upload may keep the event loop, whatever its bytes are: the processor's time between two turns of another task."""
    sys.path.insert(0, SERVICE)
    os.environ["UPLOADS"] = folder
    from app import Body, Refused, upload

    form, text = "multipart/form-data; boundary=b", "application/x-www-form-urlencoded"
    head = b'--b\r\nContent-Disposition: form-data; name="file"; filename="x"\r\n\r\n'
    part = b'--b\r\nContent-Disposition: form-data;%s\r\n\r\nx\r\n'
    shapes = {
        "a long type": (form + ';"' + ";" * 60_000, POINT),
        "parts of semicolons": (form, (part % (b'"' + b";" * 8100)) * 60 + head),
        "parts of parameters": (form, (part % (b";a*=b" * 380)) * 90 + head),
        "small parts": (form, part % b"" * 10_000 + head),
        "a file of line ends": (form, head + b"\r\n" * 200_000 + b"\r\n--b--\r\n"),
        "a file of what is nearly its end": (form, head + b"\n--bx" * 60_000 + b"\r\n--b--\r\n"),
        "fields without a value": (text, b"text=%7B%7D" + b"&a" * 200_000),
        "escapes": (text, b"text=" + b"%20" * 130_000),
        "empty features": ("text/plain", b'{"type":"FeatureCollection","features":[' + b"{}," * 130_000 + b"{}]}"),
    }

    async def most_of(kind, body):
        pieces = [body[at : at + 262_144] for at in range(0, len(body), 262_144)]

        async def receive():
            piece = pieces.pop(0)
            return {"type": "http.request", "body": piece, "more_body": bool(pieces)}

        coming = asyncio.ensure_future(upload({"content-type": kind}, Body({}, receive), folder, False))
        most, before = 0, time.thread_time()
        while not coming.done():
            await asyncio.sleep(0)
            now = time.thread_time()
            most, before = max(most, now - before), now
        try:
            coming.result()
        except Refused:
            pass
        return most

    for name, (kind, body) in shapes.items():
        most = asyncio.run(most_of(kind, body))
        wants(f"{name}: a turn", (round(most, 2), most < 0.25), (round(most, 2), True))


def slow():
    """A client that stops, and one that sends a byte now and then: others go on meanwhile."""
    head = b"POST / HTTP/1.1\r\nHost: x\r\nContent-Type: text/plain\r\nContent-Length: 500\r\n\r\n"
    with socket.create_connection(("127.0.0.1", port), timeout=20) as stopped, socket.create_connection(("127.0.0.1", port), timeout=20) as dribbling:
        stopped.sendall(head + POINT)
        dribbling.sendall(head + POINT)
        start = time.monotonic()
        for _ in range(20):
            wants("an upload beside slow ones", curl("--data-binary", POINT.decode(), "-H", "Content-Type: text/plain")[0], 200)
            dribbling.sendall(b" ")
        took = time.monotonic() - start
        wants("a client that stops", stopped.makefile("rb").readline().split()[1], b"408")
        for _ in range(500 - len(POINT) - 20):
            dribbling.sendall(b" ")
        wants("a slow client", dribbling.makefile("rb").readline().split()[1], b"200")
    print(f"20 uploads beside slow clients in {took:.2f} s")
    stored()


def memory():
    """The memory of the server that is in use, and the most so far, in MB."""
    text = pathlib.Path(f"/proc/{server.pid}/status").read_text()
    return tuple(int(re.search(rf"{name}:\s+(\d+)", text).group(1)) // 1024 for name in ("VmRSS", "VmHWM"))


class Upload:
    """An upload that is sent a feature collection piece by piece."""

    feature = b""

    async def begin(self, size):
        self.left = size
        self.reader, self.writer = await asyncio.open_connection("127.0.0.1", port)
        self.writer.write(f"POST / HTTP/1.1\r\nHost: x\r\nContent-Type: application/geo+json\r\nContent-Length: {size}\r\n\r\n".encode())
        await self.send(b'{"type":"FeatureCollection","features":[')

    async def send(self, piece):
        self.left -= len(piece)
        self.writer.write(piece)
        await self.writer.drain()

    async def round(self, count):
        """That many features more, in pieces that the client need not hold all at once."""
        step = max(1, 60_000 // len(self.feature))
        for at in range(0, count, step):
            await self.send(self.feature * min(step, count - at))

    async def end(self):
        await self.send((self.feature[:-1] + b"]}").ljust(self.left))
        status = int((await self.reader.readline()).split()[1])
        self.writer.close()
        return status


async def stored_so_far(least):
    """Waits until that many bytes are stored, but for what the server's files hold back."""
    end = time.monotonic() + 120
    while time.monotonic() < end and sum(entry.stat().st_size for entry in os.scandir(folder)) < least:
        await asyncio.sleep(0.05)


async def one_more():
    """How long another upload takes, in milliseconds."""
    start = time.monotonic()
    words = ["--data-binary", POINT.decode(), "-H", "Content-Type: text/plain"]
    status, _ = await asyncio.get_running_loop().run_in_executor(None, lambda: curl(*words))
    wants("an upload beside all of them", status, 200)
    return round((time.monotonic() - start) * 1000)


async def at_once(count, features, feature_bytes, is_broken, rounds=10):
    """That many uploads, all of them open at once: the memory once each round of their bytes is checked and stored, and how long another
    upload takes while they wait and while they send."""
    empty = b'{"type":"Feature","geometry":{"type":"Point","coordinates":[%s]},"properties":{"x":""}},' % (b"1" if is_broken else b"1,2")
    Upload.feature = empty.replace(b'""', b'"' + b"y" * (feature_bytes - len(empty)) + b'"')
    idle, start, seen = memory()[0], time.monotonic(), []
    size = 100 + len(Upload.feature) * (rounds * features + 2)
    uploads = [Upload() for _ in range(count)]
    for at in range(0, count, 100):
        await asyncio.gather(*(it.begin(size) for it in uploads[at : at + 100]))
    for number in range(rounds):
        await asyncio.gather(*(it.round(features) for it in uploads))
        await stored_so_far(count * (len(Upload.feature) * features * (number + 1) - 8192))
        seen.append(memory()[0])
    beside_open = await one_more()
    wants("all are open", sum(entry.name.endswith(".part") for entry in os.scandir(folder)), count)
    statuses, beside_sending = await asyncio.gather(asyncio.gather(*(it.end() for it in uploads)), one_more())
    wants("all uploads", (statuses.count(422 if is_broken else 200), len(statuses)), (count, count))
    # The buffers of the server grow to their bounds in the first rounds.
    wants("the memory is flat", (seen, max(seen[5:]) <= seen[4] * 1.1 + 10), (seen, True))
    print(
        f"{count} uploads of {size // 1000} KB at once: {idle} MB before; after each tenth of their bytes {seen} MB, {memory()[1]} MB at "
        f"most; another upload beside them took {beside_open} ms, and {beside_sending} ms while all ended; "
        f"{time.monotonic() - start:.0f} s in all"
    )


def by_browser():
    """A form that is filled in and sent in a browser, for a broken text, and then for a valid one."""
    sys.path.insert(0, os.path.join(os.path.dirname(os.path.abspath(__file__)), "../page"))
    from browsers import Chromium

    browser = Chromium()
    try:
        broken = pathlib.Path(folder, "..", "broken.geojson").resolve()
        feature = b'{"type":"Feature","id":"a<b","geometry":{"type":"Point","coordinates":[1]},"properties":{}}'
        broken.write_bytes(b'{"type":"FeatureCollection","features":[' + feature + b"]}")
        browser.navigate(url)
        browser.choose("input[type=file]", [str(broken)])
        browser.value("document.querySelector('form button').click()")
        browser.wait("document.querySelector('h1')?.textContent === 'It is not GeoJSON'")
        row = "[...document.querySelectorAll('table tr:nth-child(2) td')]"
        cells = browser.value(f"{row}.map(it => it.textContent).join('|')")
        wants("the table", cells, '0|"a<b"|G12|position of fewer than two elements|1|111|$.features[0].geometry.coordinates')
        browser.navigate(url)
        browser.value("document.querySelector('textarea').value = '{\"type\":\"Point\",\\r\\n\"coordinates\":[1,2],\"n\":\"100 % & + ä\"}'")
        browser.value("document.querySelector('textarea').closest('form').querySelector('button').click()")
        browser.wait("document.querySelector('h1')?.textContent === 'It is GeoJSON'")
        wants("what is stored of a text", stored(), ['{"type":"Point",\r\n"coordinates":[1,2],"n":"100 % & + ä"}'.encode()])
    finally:
        browser.close()


words = argparse.ArgumentParser()
words.add_argument("--at-once", type=int, default=0)
words.add_argument("--features", type=int, default=40)
words.add_argument("--feature-bytes", type=int, default=489)
words.add_argument("--broken", action="store_true")
words.add_argument("--browser", action="store_true")
words.add_argument("--gunicorn", action="store_true")
words.add_argument("paths", nargs="*")
words = words.parse_args()
with tempfile.TemporaryDirectory() as room:
    folder = os.path.join(room, "uploads")
    os.mkdir(folder)
    with socket.socket() as free:
        free.bind(("127.0.0.1", 0))
        port = free.getsockname()[1]
    url = f"http://127.0.0.1:{port}/"
    most = resource.getrlimit(resource.RLIMIT_NOFILE)[1]
    resource.setrlimit(resource.RLIMIT_NOFILE, (most, most))
    start = "import app; app.MOST_BYTES, app.WAIT, app.LINGER = %d, %d, 1; " % (100_000_000 if words.at_once else MOST, 60 if words.at_once else WAIT)
    command = [sys.executable, "-c", start + "app.main()", str(port)]
    if words.gunicorn:
        command = [sys.executable, "-m", "gunicorn", "--chdir", SERVICE, "-b", f"127.0.0.1:{port}", "-w", "2", "-k", "uvicorn.workers.UvicornWorker", "app:app"]
    path = os.pathsep.join([SERVICE, os.environ.get("PYTHONPATH", "")])
    server = subprocess.Popen(command, env={**os.environ, "UPLOADS": folder, "PYTHONPATH": path}, stderr=subprocess.DEVNULL if words.gunicorn else None)
    try:
        for _ in range(2400):
            try:
                socket.create_connection(("127.0.0.1", port)).close()
                break
            except OSError:
                time.sleep(0.05)
        if words.at_once:
            asyncio.run(asyncio.wait_for(at_once(words.at_once, words.features, words.feature_bytes, words.broken), 600))
        else:
            by_curl(words.paths)
            pages()
            others()
            documented()
            if not words.gunicorn:
                the_limit()
                full_disk()
                turns()
                slow()
        if words.browser:
            by_browser()
    finally:
        server.send_signal(signal.SIGINT)
        try:
            server.wait(10)
        except subprocess.TimeoutExpired:
            server.kill()
sys.exit(ended())
