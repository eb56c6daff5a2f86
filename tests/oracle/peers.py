#!/usr/bin/env python3
"""Compares geolint-files with other readers: Python's json, RapidJSON and simdjson (JSON or not), shapely (how rings run) and
GDAL (what it opens, closed rings, what it writes), and with the oracle on the test files of other projects. The last line is
`N passed, M failed`.

    tests/oracle/peers.py --readers PROGRAM [--program PROGRAM] [--seed NUMBER] [--count NUMBER] [--fetched FOLDER]

A difference passes where its reason is known, which is seen in the text itself; how many there are of each reason is printed.
All others fail. tests/README.md lists the reasons.
"""

import argparse
import collections
import json
import pathlib
import random
import re
import subprocess
import sys
import tempfile

from osgeo import gdal, ogr
from shapely.geometry import LinearRing

import generate
from advice import cut
from compare import PROGRAM, needs, told
from json_text import MARK, read
from oracle import report
from rules import KNOWN

OWN_LIMITS = ("J3", "J4")
GDAL_LEVELS = 32
GDAL_TYPE = re.compile(rb'"type"\s*:\s*"(?:Multi)?(?:Point|LineString|Polygon|GeometryCollection|Feature|FeatureCollection)"')
JSON_FOLDERS = ("suites", "inputs", "cases", "encodings")


def values_of(value):
    """A value and all below it, and the strings that are names."""
    yield value.kind, value.text
    for member in value.members:
        yield "string", member.name
        yield from values_of(member.value)
    for element in value.elements:
        yield from values_of(element)


def has_lone_surrogate(text):
    """Whether an escaped surrogate has no partner."""
    joined = text.encode("utf-16-le", "surrogatepass")
    try:
        joined.decode("utf-16-le")
    except UnicodeDecodeError:
        return True
    return False


def is_infinite(kind, text):
    return kind == "number" and abs(float(text)) == float("inf")


def is_long_whole(kind, text):
    """Whether it is a whole number that 64 bits do not hold, with or without a sign."""
    return kind == "number" and text.lstrip("-").isdigit() and (len(text) > 20 or not -(2**63) <= int(text) < 2**64)


def exponent(spelling):
    """The written exponent, and 0 where there is none."""
    return int(spelling.lower().partition("e")[2] or "0")


# Why another reader refuses a JSON text: by what is in it. The first word is the reader's.
NARROWER = {
    "python": {"a number of more than 4300 digits": lambda kind, text: kind == "number" and len(text) > 4300},
    "rapidjson": {
        "an escaped surrogate without its partner": lambda kind, text: kind == "string" and has_lone_surrogate(text),
        "a number above the greatest double": lambda kind, text: is_infinite(kind, text) or kind == "number" and exponent(text) > 308,
    },
    "simdjson": {
        "an escaped surrogate without its partner": lambda kind, text: kind == "string" and has_lone_surrogate(text),
        "a number above the greatest double": is_infinite,
        "a whole number beyond 64 bits": is_long_whole,
    },
}


def known(reader, data, line, is_json):
    """The reason for which this reader differs on this text, or None."""
    if is_json:
        if line["rule"] in OWN_LIMITS:
            return "more levels than geolint allows"
        if reader == "python" and data[line["offset"] :].startswith((b"NaN", b"Infinity")):
            return "NaN and Infinity"
        return None
    if data.startswith(MARK):
        return "a byte order mark"
    found = list(values_of(read(data)[1]))
    for reason, holds in NARROWER[reader].items():
        if any(holds(kind, text) for kind, text in found):
            return reason
    return None


def python_reads(data):
    """Whether Python's json takes bytes in UTF-8 for a text."""
    try:
        json.loads(data.decode())
    except (ValueError, RecursionError):
        return False
    return True


class Counts:
    def __init__(self):
        self.passed, self.failed, self.reasons = 0, 0, collections.Counter()

    def row(self, name, data, is_same, reason):
        """One comparison: both say the same, or there is a reason, or it fails."""
        if is_same:
            self.passed += 1
        elif reason:
            self.passed += 1
            self.reasons[f"{name}: {reason}"] += 1
        else:
            self.failed += 1
            print(f"FAILED: {name} differs on {data[:400]!r}")


def written(folder, texts):
    """Writes texts into a folder, and gives them by the names of their files."""
    folder.mkdir()
    for name, data in texts.items():
        (folder / name).write_bytes(data)
    return texts


def compare_readers(counts, program, readers, folder, texts):
    """JSON or not, by each reader."""
    lines = told(program, [], written(folder, texts) and folder)
    names = sorted(texts)
    asked = "".join(f"{folder / name}\n" for name in names).encode()
    answers = subprocess.run([readers], input=asked, stdout=subprocess.PIPE, check=True).stdout.decode().splitlines()
    for name, answer in zip(names, answers, strict=True):
        data, line = texts[name], lines[name]
        by_rapidjson, by_simdjson = (word == "1" for word in answer.split())
        for reader, is_json in ("python", python_reads(data)), ("rapidjson", by_rapidjson), ("simdjson", by_simdjson):
            is_same = is_json == (line["verdict"] != "not JSON")
            counts.row(reader, data, is_same, None if is_same else known(reader, data, line, is_json))
    return lines


def rings_of(value):
    """The rings of a geometry that is a valid Polygon: their corners cut as the program does, in degrees."""
    return [[(cut(p.elements[0]), cut(p.elements[1])) for p in ring.elements] for ring in value.elements]


def compare_winding(counts, data, line):
    """How the rings of a valid Polygon run, where each ring is simple."""
    value = read(data)[1]
    coordinates = next(it.value for it in value.members if it.name == "coordinates")
    rings = [LinearRing(ring) for ring in rings_of(coordinates)]
    if not all(ring.is_simple and ring.is_valid for ring in rings):
        return
    wrong = sum(ring.is_ccw != (index == 0) for index, ring in enumerate(rings))
    said = sum(it["count"] for it in line["warnings"] if it["rule"] == "W2")
    counts.row("shapely, winding", data, wrong == said, None)


def polygon(seed):
    """A Polygon of one or two rings, some of which are not closed, by a little or by nothing that a double has."""
    maker = random.Random(f"ring {seed}")

    def ring():
        size = maker.choice([3, 3, 4, 5, 8])
        places = maker.choice([0, 1, 3, 7])
        corners = [[f"{maker.uniform(-9, 9):.{places}f}", f"{maker.uniform(-9, 9):.{places}f}"] for _ in range(size)]
        last = list(corners[0])
        choice = maker.randint(0, 9)
        if choice == 0:
            last[1] = str(float(last[1]) + 10.0**-places)
        elif choice == 1:
            last[0] += "e0" if places == 0 else "0"
        elif choice == 2:
            last[0] += (".0" if places == 0 else "") + "0" * (20 - places) + "1"
        elif choice == 3:
            last[0] += (".0" if places == 0 else "") + "0" * (8 - places) + "1"
        return "[" + ",".join(f"[{x},{y}]" for x, y in [*corners, last]) + "]"

    return ('{"type":"Polygon","coordinates":[' + ",".join(ring() for _ in range(maker.choice([1, 1, 2]))) + "]}").encode()


def is_closed_by_gdal(data):
    """Whether the first and the last position of each ring are the same to GDAL."""
    shape = ogr.CreateGeometryFromJson(data.decode())
    rings = [shape.GetGeometryRef(index) for index in range(shape.GetGeometryCount())]
    return all(ring.GetPoint(0) == ring.GetPoint(ring.GetPointCount() - 1) for ring in rings)


def compare_rings(counts, program, folder, seed, count):
    """Closed rings by GDAL, and by shapely how the closed ones run."""
    texts = {f"{at}.geojson": polygon(at) for at in range(seed, seed + count)}
    lines = told(program, [], written(folder, texts) and folder)
    for name, data in texts.items():
        line = lines[name]
        if line["verdict"] == "valid":
            compare_winding(counts, data, line)
        is_same = is_closed_by_gdal(data) == (line["verdict"] == "valid")
        reason = "two decimals that are one double" if line["rule"] == "G15" else None
        counts.row("gdal, closed rings", data, is_same, reason)


def opened(name, data):
    """The data set that GDAL makes of a text, or None."""
    gdal.FileFromMemBuffer(name, data)
    try:
        return gdal.OpenEx(name, gdal.OF_VECTOR, allowed_drivers=["GeoJSON"])
    except RuntimeError:
        return None


def names_of(value):
    """The names of all members of a value and of those below it."""
    for part in [*value.elements, *(member.value for member in value.members)]:
        yield from names_of(part)
    yield from (member.name for member in value.members)


def levels_of(value):
    """How many arrays and objects are open at once in a value."""
    parts = value.elements + [member.value for member in value.members]
    return (value.kind in ("array", "object")) + max(map(levels_of, parts), default=0)


def why_not_opened(data):
    """Why GDAL does not open a valid text."""
    value = read(data)[1]
    if any(name.lower() in KNOWN and name not in KNOWN for name in names_of(value)):
        return "it takes a name in other case, as `Type`, for a name of GeoJSON"
    if levels_of(value) > GDAL_LEVELS:
        return "more levels than GDAL allows"
    if not GDAL_TYPE.match(data, data.find(b'"type"')):
        return "it goes by the first `\"type\"` in the text, which is not that of an object of GeoJSON"
    if b"\\u" in data:
        return "it seeks the letters of a name, and they are written as escapes"
    if any(it.name == "coordinates" and not it.value.elements for it in value.members):
        return "the text is one geometry without coordinates"
    return None


def compare_gdal(counts, program, folder, texts, lines):
    """GDAL opens each valid text, and what it writes of it for RFC 7946 is valid."""
    copies = {}
    for name, data in texts.items():
        if lines[name]["verdict"] != "valid":
            continue
        source = opened("/vsimem/source.geojson", data)
        counts.row("gdal, opens", data, source is not None, None if source else why_not_opened(data))
        if source is None:
            continue
        try:
            copy = gdal.VectorTranslate("/vsimem/copy.geojson", source, options=["-f", "GeoJSON", "-lco", "RFC7946=YES"])
        except RuntimeError:
            copy = None
        if copy is not None:
            del copy
            file = gdal.VSIFOpenL("/vsimem/copy.geojson", "rb")
            copies[name] = gdal.VSIFReadL(1, 1 << 24, file)
            gdal.VSIFCloseL(file)
    said = told(program, [], written(folder, copies) and folder)
    for name, data in copies.items():
        reason = None
        if any(is_infinite(*it) for it in values_of(read(texts[name])[1])):
            reason = "it writes a number above the greatest double as no number"
        elif said[name].get("rule") == "G13" and b"[ ]" in data:
            reason = "it writes a line without positions"
        counts.row("gdal, writes", data, said[name]["verdict"] == "valid", reason)


def fetched_texts(folder):
    """The test files of other projects, by a name that has no folder."""
    files = [it for it in sorted(folder.rglob("*")) if it.is_file() and (it.suffix == ".json" or set(it.parts) & set(JSON_FOLDERS))]
    return {f"{str(it.relative_to(folder)).replace('/', '+')}.geojson": it.read_bytes() for it in files if it.stat().st_size < 1 << 20}


def compare_fetched(counts, program, readers, room, fetched):
    """The test files of other projects: as the oracle has them, and by the readers."""
    texts = fetched_texts(fetched)
    if len(texts) < 200:
        counts.row("the fetched files are too few", str(len(texts)).encode(), False, None)
    lines = compare_readers(counts, program, readers, room / "fetched", texts)
    for name, data in texts.items():
        counts.row(f"the oracle, on {name},", data, lines[name] == report(data), None)


def main():
    words = argparse.ArgumentParser()
    words.add_argument("--program", default=PROGRAM)
    words.add_argument("--readers", required=True)
    words.add_argument("--seed", type=int, default=1)
    words.add_argument("--count", type=int, default=4000)
    words.add_argument("--fetched", type=pathlib.Path)
    given = words.parse_args()
    needs(given.program)
    gdal.UseExceptions()
    ogr.UseExceptions()
    gdal.PushErrorHandler("CPLQuietErrorHandler")
    counts = Counts()
    with tempfile.TemporaryDirectory() as name:
        room = pathlib.Path(name)
        texts = {f"{at}.geojson": generate.text(at) for at in range(given.seed, given.seed + given.count)}
        lines = compare_readers(counts, given.program, given.readers, room / "texts", texts)
        compare_gdal(counts, given.program, room / "copies", texts, lines)
        compare_rings(counts, given.program, room / "rings", given.seed, given.count // 2)
        if given.fetched:
            compare_fetched(counts, given.program, given.readers, room, given.fetched)
    for reason, number in sorted(counts.reasons.items()):
        print(f"known difference, {number} times: {reason}")
    print(f"{counts.passed} passed, {counts.failed} failed")
    return counts.failed > 0


if __name__ == "__main__":
    sys.exit(main())
