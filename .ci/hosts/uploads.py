"""Uploads texts to the example's web service by curl: as a body, in chunks and by a form, and compares its answers with the
verdicts of the library in one call, and what it stored with what was sent. Then what it does not take."""

import os
import socket
import sys
import tempfile
import threading

import geolint
import upload
from checks import curl, ended, wants


def sent(request):
    """The first line of the answer to a request that is sent as it is, and then ended."""
    with socket.create_connection(("127.0.0.1", server.server_port), timeout=20) as connection:
        connection.sendall(request)
        connection.shutdown(socket.SHUT_WR)
        return connection.makefile("rb").readline().decode().strip()


def stored():
    """What is stored, which is taken away."""
    texts = []
    for entry in os.scandir(folder):
        with open(entry.path, "rb") as file:
            texts.append(file.read())
        os.unlink(entry.path)
    return texts


def texts_that_are_sent(paths):
    for number, path in enumerate(paths):
        with open(path, "rb") as file:
            text = file.read()
        verdict = geolint.check(text)
        answer = (200 if verdict else 422, f"{verdict}\n")
        ways = {
            "as a body": ["--data-binary", f"@{path}"],
            "in chunks": ["-H", "Transfer-Encoding: chunked", "--data-binary", f"@{path}"],
            "by a form": ["-F", "kind=map", "-F", f"file=@{path}"],
            "by a form in chunks": ["-H", "Transfer-Encoding: chunked", "-F", f"file=@{path}", "-F", "kind=map"],
        }
        # Each text one way, and the first of all in each.
        for way, words in list(ways.items()) if number == 0 else [list(ways.items())[number % 4]]:
            wants(f"{path} {way}", curl(url, *words), answer)
            wants(f"what is stored of {path} {way}", stored(), [text] if verdict else [])


def other_requests():
    status, text = curl(url)
    wants("GET", (status, "<form" in text and 'type="file"' in text), (200, True))
    wants("HEAD", curl(url, "-I")[0], 200)
    for method in ("PUT", "DELETE", "PATCH", "OPTIONS"):
        status, text = curl(url, "-i", "-X", method)
        wants(method, (status, "Allow: GET, HEAD, POST" in text), (405, True))
    wants("a form without a file", curl(url, "-F", "kind=map"), (400, "the form has no file\n"))
    wants("a form without a boundary", curl(url, "-H", "Content-Type: multipart/form-data", "-d", "x")[0], 400)
    post = b"POST / HTTP/1.1\r\nHost: x\r\n"
    for name, request, status in [
        ("no length", post + b"\r\n", 411),
        ("a length that is none", post + b"Content-Length: -5\r\n\r\n{}", 400),
        ("a body that is cut off", post + b"Content-Length: 50\r\n\r\n" + POINT, 400),
        ("chunks that are cut off", post + b"Transfer-Encoding: chunked\r\n\r\n24\r\n" + POINT + b"\r\n", 400),
        ("a chunk without a size", post + b"Transfer-Encoding: chunked\r\n\r\n-1\r\n\r\n", 400),
        ("another coding", post + b"Transfer-Encoding: gzip\r\n\r\n", 501),
        ("chunks with words and trailing fields", post + b"Transfer-Encoding: chunked\r\n\r\n0024;a=b\r\n" + POINT + b"\r\n0\r\nA: b\r\n\r\n", 200),
    ]:
        wants(name, sent(request).split()[1:2], [str(status)])
        wants(f"what is stored of {name}", stored(), [POINT] if status == 200 else [])
    upload.Handler.timeout = 0.5
    with socket.create_connection(("127.0.0.1", server.server_port), timeout=20) as connection:
        connection.sendall(post + b"Content-Length: 50\r\n\r\n" + POINT)
        wants("a client that stops", connection.makefile("rb").readline().split()[1:2], [b"408"])
    upload.Handler.timeout = upload.WAIT
    wants("what is stored of it", stored(), [])


def the_limit():
    """At the limit a body is taken; beyond it the answer is 413, and no byte more is stored."""
    upload.MOST_BYTES = 300_000
    full = POINT + b" " * (300_000 - len(POINT))
    chunked = ["-H", "Transfer-Encoding: chunked"]
    refusal = (413, "more than 300000 bytes\n")
    for words in [], chunked:
        wants("the most bytes", curl(url, *words, "--data-binary", "@-", given=full), (200, "valid\n"))
        wants("what is stored of them", stored(), [full])
        wants("a byte more", curl(url, *words, "--data-binary", "@-", given=full + b" "), refusal)
    wants("a form that is too large", curl(url, "-F", "file=@-", given=full), refusal)
    wants("many more", curl(url, *chunked, "--data-binary", "@-", given=full * 20), refusal)
    wants("what is stored beyond the limit", stored(), [])

    class Endless:
        """A body without an end, which looks at what is stored."""

        taken, most_stored = 0, 0

        def read(self, size):
            self.taken += size
            self.most_stored = max([self.most_stored, *(entry.stat().st_size for entry in os.scandir(folder))])
            return b" " * size

    endless, status = Endless(), []
    environ = {"REQUEST_METHOD": "POST", "wsgi.input": endless, "wsgi.input_terminated": True}
    upload.application(environ, lambda line, headers: status.append(line[:3]), folder)
    wants("an endless body", (status, stored()), (["413"], []))
    wants("how much of it is taken and stored", endless.taken <= 300_000 + upload.PIECE and endless.most_stored <= 300_000, True)


def cut_forms():
    """A form gives the same file wherever its pieces end."""
    text = b"\r\n--\r\n--lin\r\n-" + POINT + b"\r\n"
    form = (
        b'preamble\r\n--line\r\nContent-Disposition: form-data; name="kind"\r\n\r\nmap\r\n--line\r\n\r\nno header\r\n--line \r\n'
        b'content-disposition: form-data; name="f"; filename="a.geojson"\r\nContent-Type: application/geo+json\r\n\r\n' + text + b"\r\n--line--"
    )
    for at in range(1, len(form)):
        wants(f"a form cut at {at}", b"".join(upload.Form(iter([form[:at], form[at:]]), b"line").file()), text)
        try:
            got = b"".join(upload.Form(iter([form[:at]]), b"line").file())
        except upload.Refused:
            got = None
        wants(f"a form that ends at {at}", got, text if at >= len(form) - 2 else None)


POINT = b'{"type":"Point","coordinates":[1,2]}'
with tempfile.TemporaryDirectory() as folder:
    server = upload.serve(0, folder)
    url = f"http://127.0.0.1:{server.server_port}/"
    threading.Thread(target=server.serve_forever, daemon=True).start()
    # A client that sends nothing holds no other up.
    with socket.create_connection(("127.0.0.1", server.server_port)):
        texts_that_are_sent(sys.argv[1:])
    other_requests()
    cut_forms()
    the_limit()
    server.shutdown()
    server.server_close()
sys.exit(ended() or len(sys.argv) < 3)
