"""`geolint.check(path, jobs=N)` beside `geolint.check(path)`: random collections, also broken ones and such as end early, and other
texts, in 1 to 9 parts of few bytes; then what is said of other sources, and of a file that changes.

    parts.py SEED COUNT
"""

import json
import os
import pathlib
import random
import sys
import tempfile
import threading

import geolint
from checks import ended, wants
from geolint import _parts

chance = random.Random(int(sys.argv[1]))
LOOKS = '},{"type":"Feature","geometry":null,"properties":null}'


def some_feature(depth=0):
    if chance.random() < 0.02:
        return chance.choice([{}, 7, [], None, LOOKS, {"type": "Feature"}])
    place = [round(chance.uniform(-190, 190), 9), round(chance.uniform(-90, 90), 3)]
    inner = [some_feature(depth + 1) for _ in range(chance.randrange(4))] if depth < 2 else []
    properties = chance.choice([None, {"s": LOOKS}, {"list": inner}, {"type": "FeatureCollection", "features": inner}])
    geometry = chance.choice([None, {"type": "Point", "coordinates": place}, {"type": "LineString", "coordinates": [place] * 9}])
    return {"type": "Feature", "geometry": geometry, "properties": properties, **chance.choice([{}, {}, {"crs": None}])}


def some_text():
    kind = chance.randrange(12)
    if kind == 0:
        return chance.choice([b"", b"{}", b"[]", b'{"type":"Point","coordinates":[1,2]}', b'{"type":"FeatureCollection","features":[]}'])
    features = [some_feature() for _ in range(chance.randrange(60))]
    members = [("type", "FeatureCollection" if kind > 1 else "Other"), ("features", features), ("more", {"features": features[:3]})]
    chance.shuffle(members)
    text = json.dumps(dict(members), indent=chance.choice([None, None, 1]), ensure_ascii=False).encode()
    for _ in range(chance.choice([0, 0, 0, 1, 2])):
        at = chance.randrange(len(text))
        text = text[:at] if kind == 2 else text[:at] + chance.choice([b"{", b"}", b",", b"]", b'"', b"\\", b" ", b"\xff"]) + text[at + 1 :]
    return text


def error_of(call):
    try:
        return call()
    except (OSError, TypeError, ValueError) as error:
        return type(error)


# How many features the joins passed over: else nothing would be tried.
passed = 0
joined = _parts._Text.joined


def counted(text, sums):
    global passed
    passed += sum(found.features for found in sums)
    return joined(text, sums)


_parts._Text.joined = counted
least, piece = _parts.LEAST, _parts.PIECE
with tempfile.TemporaryDirectory() as folder:
    path = pathlib.Path(folder, "some.geojson")
    for number in range(int(sys.argv[2])):
        _parts.LEAST, _parts.PIECE, _parts.TRIAL = chance.choice([1, 40]), chance.choice([37, 700, 9000]), chance.choice([300, 1000, 65536])
        path.write_bytes(some_text())
        limits = chance.choice([{}, {}, {"max_bytes": 1 + chance.randrange(3000)}, {"max_depth": 1 + chance.randrange(9)}])
        wanted = geolint.check(path, **limits)
        for jobs in {1 + chance.randrange(9) for _ in range(3)}:
            wants(f"text {number} in {jobs} parts under {limits}", geolint.check(path, **limits, jobs=jobs), wanted)
    wants("some features are passed over", passed > 0, True)

    # As it is, with large parts.
    _parts.LEAST, _parts.PIECE, _parts.TRIAL, passed = least, piece, 65536, 0
    feature = {"type": "Feature", "geometry": {"type": "Point", "coordinates": [1.5, 2.5]}, "properties": {"name": LOOKS}}
    many = [feature] * 200_000
    for more, name in [(feature, "valid"), ({"type": "Feature"}, "broken")]:
        path.write_text(json.dumps({"type": "FeatureCollection", "features": [*many, more]}))
        verdict = geolint.check(path, jobs=4)
        wants(f"a large text, {name}", (verdict, verdict.name), (geolint.check(path), name))
    wants("each is checked in parts", passed > 2 * 199_000, True)

    # It grows while it is read.
    def growing(text, sums):
        with open(path, "ab") as file:
            file.write(b" ")
        return joined(text, sums)

    _parts._Text.joined = growing
    wants("a file that changes", error_of(lambda: geolint.check(path, jobs=2)), OSError)
    _parts._Text.joined = joined

    # A file that is read once has no parts.
    pipe = os.path.join(folder, "pipe")
    if hasattr(os, "mkfifo"):
        os.mkfifo(pipe)
        threading.Thread(target=lambda: pathlib.Path(pipe).write_bytes(b"[]")).start()
        wants("a pipe", geolint.check(pathlib.Path(pipe), jobs=3).code, "G1")
    for name, error, call in [
        ("no file", FileNotFoundError, lambda: geolint.check(pathlib.Path(folder, "none"), jobs=2)),
        ("a folder", IsADirectoryError, lambda: geolint.check(pathlib.Path(folder), jobs=2)),
        ("bytes", TypeError, lambda: geolint.check(b"", jobs=2)),
        ("no job", ValueError, lambda: geolint.check(path, jobs=0)),
        ("a depth of 257", ValueError, lambda: geolint.check(path, max_depth=257, jobs=2)),
    ]:
        wants(name, error_of(call), error)
sys.exit(ended())
