"""A web service that stores an upload and checks it on the way: Python with the package geolint, as a WSGI application.

    python3 examples/library/upload.py 8000
    curl --data-binary @examples/cafes.geojson http://127.0.0.1:8000/
    curl -F file=@examples/cafes.geojson http://127.0.0.1:8000/         # as a browser's form sends it

The answer is the report of `geolint stdin`: with status 200 for a valid text, otherwise 422, and then nothing is stored. A body
of more than MOST_BYTES gets 413, and is neither stored nor read further.
"""

import os
import socket
import sys
import tempfile
import time
from email.message import Message
from email.parser import BytesHeaderParser
from socketserver import ThreadingMixIn
from wsgiref.simple_server import WSGIRequestHandler, WSGIServer, make_server

import geolint

PIECE = 65536
MOST_BYTES = 100_000_000
# How long a client may send nothing, and how long what it still sends after the answer is read and dropped; in seconds.
WAIT = 30
LINGER = 5
FORM = b"""<!DOCTYPE html>
<html lang="en"><meta charset="utf-8"><title>Is it GeoJSON?</title>
<form method="post" enctype="multipart/form-data">
<label>A GeoJSON file: <input type="file" name="file" required></label> <button>Check and store it</button>
</form></html>
"""


class Refused(Exception):
    """A request that is not served: its status and why."""


def too_large():
    return Refused("413 Content Too Large", f"more than {MOST_BYTES} bytes")


def read_all(stream, count):
    """The next bytes, as many as `count`, in pieces."""
    while count > 0:
        piece = stream.read(min(count, PIECE))
        if not piece:
            raise Refused("400 Bad Request", "the body is cut off")
        count -= len(piece)
        yield piece


def chunks(stream):
    """The body of a chunked request (RFC 9112, section 7.1)."""
    while True:
        line = stream.readline(1024)
        size = line.split(b";")[0].strip()
        if not line.endswith(b"\n") or not size or size.strip(b"0123456789abcdefABCDEF"):
            raise Refused("400 Bad Request", "no size of a chunk")
        if int(size, 16) == 0:
            break
        yield from read_all(stream, int(size, 16))
        if stream.readline(3).strip(b"\r\n"):
            raise Refused("400 Bad Request", "a chunk does not end")
    # What may follow are trailing fields, up to an empty line.
    for _ in range(100):
        if not stream.readline(8192).strip(b"\r\n"):
            break


def body(environ):
    """The pieces of a request's body, and no byte more than allowed."""
    stream, length = environ["wsgi.input"], environ.get("CONTENT_LENGTH") or ""
    coding = environ.get("HTTP_TRANSFER_ENCODING", "").strip().lower()
    if coding not in ("", "chunked"):
        raise Refused("501 Not Implemented", "no transfer coding but chunked")
    if length and not (length.isascii() and length.isdigit()):
        raise Refused("400 Bad Request", "no length")
    if len(length) > 18 or int(length or 0) > MOST_BYTES:
        raise too_large()
    if environ.get("wsgi.input_terminated"):
        # The server has taken chunks apart, and the stream ends where the body does.
        pieces = iter(lambda: stream.read(PIECE), b"")
    elif coding:
        pieces = chunks(stream)
    elif length:
        pieces = read_all(stream, int(length))
    else:
        raise Refused("411 Length Required", "a body needs its length, or chunks")
    count = 0
    for piece in pieces:
        count += len(piece)
        if count > MOST_BYTES:
            raise too_large()
        yield piece


class Form:
    """A form (RFC 7578) that is read piece by piece: its parts stand between lines that begin with the boundary."""

    def __init__(self, pieces, boundary):
        self.pieces, self.held = pieces, b"\r\n"
        self.line = b"\r\n--" + boundary

    def until(self, mark):
        """What stands before the mark, which is taken away."""
        while mark not in self.held:
            # The mark may begin in the last bytes.
            kept = max(len(self.held) - len(mark) + 1, 0)
            if kept:
                yield self.held[:kept]
            piece = next(self.pieces, b"")
            if not piece:
                raise Refused("400 Bad Request", "the form is cut off")
            self.held = self.held[kept:] + piece
        before, _, self.held = self.held.partition(mark)
        yield before

    def head(self, mark):
        """A line or the header of a part, of some size."""
        text = b""
        for piece in self.until(mark):
            text += piece
            if len(text) > PIECE:
                raise Refused("400 Bad Request", "the header of a part is too long")
        return text

    def file(self):
        """The pieces of the first file."""
        for _ in self.until(self.line):
            pass
        while not self.head(b"\r\n").startswith(b"--"):
            # A header without fields ends with the line that it begins with.
            self.held = b"\r\n" + self.held
            header = BytesHeaderParser().parsebytes(self.head(b"\r\n\r\n").lstrip())
            if header.get_filename():
                yield from self.until(self.line)
                return
            for _ in self.until(self.line):
                pass
        raise Refused("400 Bad Request", "the form has no file")


def uploaded(environ):
    """The pieces of the text that a request sends: its body, or the file in the form that is its body."""
    header = Message()
    header["Content-Type"] = environ.get("CONTENT_TYPE") or "application/octet-stream"
    if header.get_content_type() != "multipart/form-data":
        return body(environ)
    boundary = header.get_boundary()
    if not boundary:
        raise Refused("400 Bad Request", "the form has no boundary")
    return Form(body(environ), boundary.encode("latin-1", "replace")).file()


def judge_and_store(pieces, folder):
    """The verdict of the pieces. They are stored while they are checked, and stay if the verdict is valid."""
    store = tempfile.NamedTemporaryFile(dir=folder, suffix=".geojson", delete=False)
    verdict = None
    try:
        with store, geolint.Linter() as linter:
            for piece in linter.watch(pieces):
                store.write(piece)
        verdict = linter.verdict
    finally:
        if not verdict:
            os.unlink(store.name)
    return verdict


def application(environ, start_response, folder=None):
    method, kind, more = environ["REQUEST_METHOD"], "text/plain", []
    try:
        if method in ("GET", "HEAD"):
            status, kind, text = "200 OK", "text/html", FORM
        elif method == "POST":
            verdict = judge_and_store(uploaded(environ), folder)
            status, text = "200 OK" if verdict else "422 Unprocessable Content", f"{verdict}\n".encode()
        else:
            more = [("Allow", "GET, HEAD, POST")]
            raise Refused("405 Method Not Allowed", "a text is sent by POST")
    except Refused as refused:
        status, text = refused.args[0], f"{refused.args[1]}\n".encode()
    except (socket.timeout, ConnectionError):
        status, text = "408 Request Timeout", b"the client sends no more\n"
    start_response(status, [("Content-Type", f"{kind}; charset=utf-8"), ("Content-Length", str(len(text))), *more])
    return [] if method == "HEAD" else [text]


class Handler(WSGIRequestHandler):
    timeout = WAIT

    def log_message(self, *words):
        pass


class Server(ThreadingMixIn, WSGIServer):
    """Serves each request in a thread of its own, so that no slow client holds the others up."""

    daemon_threads = True

    def shutdown_request(self, request):
        """Drops what the client still sends for some time: if unread bytes are left, it might not get the answer."""
        try:
            request.shutdown(socket.SHUT_WR)
            request.settimeout(1)
            end = time.monotonic() + LINGER
            while time.monotonic() < end and request.recv(PIECE):
                pass
        except OSError:
            pass
        self.close_request(request)


def serve(port, folder=None):
    """A server of the application on this machine; port 0 is any that is free."""

    def stored(environ, start_response):
        return application(environ, start_response, folder)

    return make_server("127.0.0.1", port, stored, server_class=Server, handler_class=Handler)


if __name__ == "__main__":
    serve(int(sys.argv[1])).serve_forever()
