"""Checks the texts of rows.json by the library, in one call, in one piece, byte by byte and cut at each place (longer texts:
at some), and compares with the verdict in the row, and its lines with those of the program that is named. Then what the
module says of itself.

    rows.py PROGRAM [--short]      with --short each text in one call alone, and without the program
"""

import array
import asyncio
import builtins
import copy
import ctypes
import io
import json
import mmap
import os
import pathlib
import pickle
import random
import shutil
import subprocess
import sys
import tempfile

import geolint
from checks import ended, wants
from table import text_of

is_short = "--short" in sys.argv


def plain(verdict):
    if verdict.valid:
        return {"warnings": [[w.kind, w.count, w.first] for w in verdict.warnings]}
    number = {"rule": verdict.rule} if verdict.rule else {"cause": verdict.cause}
    return {**number, "place": verdict.place}


kept = geolint.Linter()


def fed(pieces, **limits):
    linter = geolint.Linter(**limits) if len(pieces) == 2 else kept
    linter.begin(**limits)
    for piece in pieces:
        linter.feed(piece)
    return plain(linter.finish())


def reported(text, limits):
    """The lines of the program and its status."""
    words = [f"--{name.replace('_', '-')}={value}" for name, value in limits.items()]
    done = subprocess.run([sys.argv[1], "stdin", *words], input=text, stdout=subprocess.PIPE, check=False)
    return done.stdout.decode(), done.returncode


said = set()
rows = json.load(open(os.path.join(os.path.dirname(__file__), "rows.json")))
chance = random.Random(22)
for number, row in enumerate(rows, 1):
    text = text_of(row["text"])
    limits = {name: row[name] for name in ("max_depth", "max_bytes") if name in row}
    wanted = {name: row[name] for name in ("rule", "cause", "place", "warnings") if name in row}
    name = f"row {number} of rows.json"
    verdict = geolint.check(text, **limits)
    said |= {verdict.text, *(warning.text for warning in verdict.warnings)}
    wants(name, plain(verdict), wanted)
    if is_short:
        continue
    wants(name + ", by the program", reported(text, limits), (f"{verdict}\n", 0 if verdict else 1))
    wants(name + ", as a file", plain(geolint.check(io.BytesIO(text), **limits)), wanted)
    if len(text) < 4096:
        wants(name + ", byte by byte", fed([text[i : i + 1] for i in range(len(text))], **limits), wanted)
        for at in range(1, len(text)):
            wants(f"{name}, cut at {at}", fed([text[:at], text[at:]], **limits), wanted)
    else:
        for at in (chance.randrange(len(text)) for _ in range(5)):
            wants(f"{name}, cut at {at}", fed([text[:at], b"", text[at:]], **limits), wanted)

# Each text of a rule, a cause and a kind was compared with the program's.
wants("how many texts the rows have", len(said - {None}), 21 + 4 + 9)

ring = b'{"type":"Polygon","coordinates":[[[0,0],[1,0],[1,1],[0,0,0]]]}'
verdict = geolint.check(memoryview(bytearray(ring)))
wants("the lines", str(verdict), "broken G15 at 33: ring not closed")
wants("not valid is not true", bool(verdict), False)
wants("equal verdicts", verdict, geolint.check(io.BytesIO(ring)))
try:
    verdict.place = 1
    wants("a frozen verdict", "changed", "refused")
except AttributeError:
    pass

# A buffer is checked by its bytes: a mapped file whole, wherever it stands, also after a piece, and so is what has gaps.
with tempfile.TemporaryFile() as file:
    file.write(ring + b" " * 200_000)
    file.flush()
    with mmap.mmap(file.fileno(), 0, access=mmap.ACCESS_READ) as mapped:
        mapped.seek(50)
        wants("a mapped file", geolint.check(mapped), verdict)
        wants("where it stands then", mapped.tell(), 50)
        wants("a mapped file that is fed", (linter := geolint.Linter()).feed(mapped), True)
        wants("what was fed", (linter.offset, linter.finish()), (len(mapped), verdict))
        wants("a mapped file and a limit", geolint.check(mapped, max_bytes=70_000).cause, 4)
    file.seek(len(ring))
    wants("a file from where it stands", geolint.check(file).cause, 2)
gaps = bytearray(2 * len(ring))
gaps[::2] = ring
for name, buffer in {
    "bytes": bytearray(ring),
    "every other byte": memoryview(gaps)[::2],
    "numbers": array.array("H", ring),
    "C": (ctypes.c_char * len(ring)).from_buffer_copy(ring),
}.items():
    wants(f"a buffer of {name}", geolint.check(buffer), verdict)
wants("an empty buffer", geolint.check(bytearray()), geolint.check(b""))
refused = geolint.Linter()
wants("an empty buffer after a refusal", (refused.feed(b"]"), refused.feed(bytearray())), (False, False))

pieces = [ring[i : i + 5] for i in range(0, len(ring), 5)]
wants("pieces", geolint.check(pieces), verdict)
wants("pieces of a generator", geolint.check(memoryview(piece) for piece in pieces), verdict)
wants("no pieces", geolint.check([]), geolint.check(b""))
wants("a verdict of its own", pickle.loads(pickle.dumps(verdict)), verdict)
written = geolint.Linter()
shutil.copyfileobj(io.BytesIO(ring), written, 7)
wants("how many bytes are written", written.write(bytearray(b" \n")), 2)
wants("what was written", written.finish(), verdict)

with geolint.Linter() as linter:
    stored = b"".join(linter.watch(ring[i : i + 5] for i in range(0, len(ring), 5)))
    wants("the offset", linter.offset, len(ring))
wants("what a block stored", stored, ring)
wants("what a block checked", linter.verdict, verdict)
wants("a second finish", linter.finish(), verdict)
for name, call in {
    "feed after the end": lambda: linter.feed(b"x"),
    "a depth of 257": lambda: geolint.check(b"", max_depth=257),
    "no bytes allowed": lambda: geolint.Linter(max_bytes=0),
    "a depth below 0": lambda: geolint.Linter(max_depth=-1),
}.items():
    try:
        call()
        wants(name, "nothing", "an error")
    except ValueError:
        pass


class Empty:
    """A stream that has no bytes yet and does not wait."""

    def read(self, size):
        return None




async def awaited(pieces):
    """Pieces that are awaited."""
    for piece in pieces:
        await asyncio.sleep(0)
        yield piece


class File:
    """A file whose read is awaited, and which is iterated by lines."""

    def __init__(self, text):
        self.file = io.BytesIO(text)

    async def read(self, size=-1):
        await asyncio.sleep(0)
        return self.file.read(size)

    async def __aiter__(self):
        raise AssertionError("a line may be of any length")
        yield b""


async def listed(findings):
    return [finding async for finding in findings]


# What a `str` and a path stand for, and the same texts by awaiting them.
with tempfile.TemporaryDirectory() as folder:
    path = pathlib.Path(folder, "ring.geojson")
    path.write_bytes(ring)
    for name, given in {"a text": ring.decode(), "a path": path, "pieces": [ring[:9], ring[9:]], "a file": open(path, "rb")}.items():
        wants(name, geolint.check(given), verdict)
    umlauts = '{"type":"Point","coordinates":[1,2],"name":"' + "\u00e4" * 70_000 + '","x":}'
    wants("a place in a text is a byte offset", geolint.check(umlauts).place, len(umlauts.encode()) - 1)
    wants("the report of a text", geolint.report(umlauts).column, len(umlauts))
    placed = geolint.report(ring)
    wants("where it is", (placed.line, placed.column, placed.path), (1, 34, "$.coordinates[0]"))
    for name, given in {"a text": ring.decode(), "a path": path, "a buffer": bytearray(ring), "a file": open(path, "rb")}.items():
        wants(f"the report of {name}", geolint.report(given), placed)
    wants("the report of pieces", geolint.report(iter([ring])), geolint.Report(verdict))
    wants("places", [it.path for it in geolint.locate(path, [33, 0, 8, 33, len(ring), 999])], ["$", "$.type", "$.coordinates[0]", "$"])
    for name, given in {
        "bytes": ring,
        "a text": ring.decode(),
        "pieces": awaited([ring[:9], b"", bytearray(ring[9:])]),
        "a file": File(ring),
    }.items():
        wants(f"{name}, awaited", asyncio.run(geolint.acheck(given)), verdict)
    for name, given in {"a path": path, "pieces that are not awaited": [ring], "a file that is not awaited": io.BytesIO(ring)}.items():
        try:
            wants(f"{name} where something is awaited", asyncio.run(geolint.acheck(given)), "an error")
        except TypeError:
            pass
collection = b'{"type":"FeatureCollection","features":[{"type":"Feature","geometry":null,"properties":{}},7]}'
both = list(geolint.features(collection))
wants("features", [(it.number, it.verdict.code) for it in both], [(0, None), (1, "G1")])
wants("features, awaited", asyncio.run(listed(geolint.afeatures(awaited([collection[:50], collection[50:]])))), both)
texts = collection + b"\n" + ring + b"\n"
both = list(geolint.records(texts, "newlines"))
wants("records", [(it.number, it.verdict.code) for it in both], [(1, "G1"), (2, "G15")])
wants("records, awaited", asyncio.run(listed(geolint.arecords(awaited([texts[:50], texts[50:]]), "newlines"))), both)


async def watched():
    with geolint.Linter() as linter:
        return [piece async for piece in linter.awatch(awaited([ring[:9], ring[9:]]))], linter.finish()


wants("pieces that are watched, awaited", asyncio.run(watched()), ([ring[:9], ring[9:]], verdict))

for name, error, call in [
    ("a path to no file", FileNotFoundError, lambda: geolint.check(pathlib.Path("no such file"))),
    ("a folder", IsADirectoryError, lambda: geolint.check(pathlib.Path("/"))),
    ("a lone surrogate", ValueError, lambda: geolint.check('"\ud800"')),
    ("a mapping", TypeError, lambda: geolint.check({"type": "Point"})),
    ("a file of characters", TypeError, lambda: geolint.check(io.StringIO("{}"))),
    ("pieces of characters", TypeError, lambda: geolint.check(["{}"])),
    ("a number", TypeError, lambda: geolint.check(7)),
    ("a stream that does not wait", BlockingIOError, lambda: geolint.check(Empty())),
    ("a depth that is a float", TypeError, lambda: geolint.check(ring, max_depth=5.0)),
    ("a depth that is a bool", TypeError, lambda: geolint.check(ring, max_depth=True)),
    ("a number of bytes that is a float", TypeError, lambda: geolint.Linter(max_bytes=1e6)),
    ("a number of bytes that is text", TypeError, lambda: linter.begin(max_bytes="9")),
    ("a copy", TypeError, lambda: copy.copy(geolint.Linter())),
    ("a deep copy", TypeError, lambda: copy.deepcopy(geolint.Linter())),
    ("a pickle", TypeError, lambda: pickle.dumps(geolint.Linter())),
]:
    try:
        call()
        wants(name, "nothing", "an error")
    except error:
        pass
for name, told, call in [
    ("a text that is fed", ".encode()", lambda: geolint.Linter().feed(ring.decode())),
    ("a file that is open as text", 'open it as "rb"', lambda: geolint.check(io.StringIO("{}"))),
    ("a mapping", "json.dumps", lambda: geolint.check({"type": "Point"})),
    ("a file's name", "pathlib.Path", lambda: geolint.check(__file__)),
    ("a lone surrogate", "the character 70000 ", lambda: geolint.check(" " * 70000 + "\ud800")),
    ("what is awaited", "acheck", lambda: geolint.check(awaited([]))),
]:
    try:
        call()
        wants(name, "nothing", "an error")
    except (TypeError, ValueError) as error:
        wants(f"what is said of {name}", told in str(error), True)
wants("names that hide Python's own", set(geolint.__all__) & set(dir(builtins)), set())
try:
    with geolint.Linter() as unfinished:
        unfinished.feed(b"{")
        raise KeyError
except KeyError:
    wants("a block that was left", unfinished.verdict, None)
wants("a version", geolint.version().count("."), 2)
wants("what no package says", geolint.build(), (geolint.__version__, None, None))

# Whether a text that begins so may still be valid, as far as that is seen early.
for text, doomed in {
    b"": False,
    b"[": True,
    b'{"type":"Feature","features":': True,
    b'{"type":"FeatureCollection","features":': False,
    b'{"features":': False,
    b'{"coordinates":[[1,2],[3,4]]': False,
    b'{"geometries":[7]': False,
    b'{"coordinates":7': False,
    b'{"type":"x"': True,
    b'{"id":1,"id"': True,
    b'{"geometry":1,"type":"Point"': True,
}.items():
    linter = geolint.Linter()
    linter.feed(text)
    wants(f"doomed after {text}", linter.doomed, doomed)

# Any number of linters at once.
many = [geolint.Linter() for _ in range(50)]
for i in range(len(ring)):
    for linter in many:
        linter.feed(ring[i : i + 1])
wants("many at once", {linter.finish() for linter in many}, {verdict})
sys.exit(ended())
