#!/usr/bin/env python3
"""Writes inputs of many features or texts, and what is to be found in each: found.py FOLDER COUNT.

In FOLDER are then COUNT files of each kind, *.geojson, *.geojsons and *.ndjson, and expected.jsonl with a line for each. What is expected
comes from the definitions of tests/oracle. The seed is fixed."""

import json
import os
import random
import sys
from pathlib import Path

sys.path.insert(0, str(Path(__file__).resolve().parents[2] / "tests/oracle"))
from advice import object_warnings
from json_text import Refused, read
from oracle import judge_record, judge_text, paths_of, records_of
from rules import faults, first_value

FEATURES = [
    '{"type":"Feature","id":"a","geometry":null,"properties":null}',
    '{"type":"Feature","id":"b\\"1 ü, \\u00e9","geometry":{"type":"Point","coordinates":[1]},"properties":{"name":"Pond"}}',
    '{"type":"Feature","geometry":null,"properties":3}',
    '{"type":"Feature","id":-1.50e0,"crs":1,"geometry":{"type":"Point","coordinates":[200,2.123456789]},"properties":{"title":"東"}}',
    '{"type":"Feature","geometry":{"type":"Polygon","coordinates":[[[0,0],[4,0],[4,3],[1,3]]]},"properties":{}}',
    '{"type":"Feature","geometry":{"type":"Polygon","coordinates":[[[0,0],[4,3],[4,0],[0,0]],[[1,1],[2,1],[2,2],[1,1]]]},"properties":{}}',
    '{"type":"Feature","geometry":{"type":"GeometryCollection","geometries":[{"type":"Point","coordinates":[]},{"type":"GeometryCollection","geometries":[]}]},"properties":{}}',
    '{"id":"%s","type":"Feature","geometry":{"type":"LineString","coordinates":[[1,2]]},"properties":{"features":[1,{"a":"}"}]}}' % ("🚲" * 50),
    '{"type":"Feature","features":[],"id":[1],"geometry":null,"properties":{}}',
    '{"type":"Feature","type":"Feature","bbox":[1,2,3],"geometry":null,"properties":{},"id":null}',
    '{"type":"Point","coordinates":[1,2]}',
    '17', '"text"', 'null', '[]', '[{"a":[1,{}]}]', '{}',
]
TEXTS = FEATURES + ['{"type":"FeatureCollection","features":[{"type":"Feature","geometry":{"type":"Point","coordinates":[1]},"properties":{}}]}', '{"type":"Point","coordinates":[1,2', "x", "", "\ufeff{}"]
SPACES = ["", "", " ", "\n", "\r\n", "\n\t"]


def spot(data, place):
    """The line and the column of a place."""
    before = data[:place]
    line = before[before.rfind(b"\n") + 1 :]
    return {"line": before.count(b"\n") + 1, "column": sum(byte & 0xC0 != 0x80 for byte in line) + 1}


def end_of(data, place):
    """The place after a value: as latin letters the bytes are counted as characters."""
    decoder = json.JSONDecoder(parse_int=lambda _: 0, parse_float=lambda _: 0, strict=False)
    return decoder.raw_decode(data.decode("latin-1"), place)[1]


def warnings_of(data, told):
    """Of each kind how many, and the first; `told` are (kind, place, path)."""
    kinds = {}
    for kind, place, path in sorted(told, key=lambda it: (it[0], it[1])):
        kinds.setdefault(kind, [0, place, path])[0] += 1
    return [{"rule": f"W{kind}", "count": count, "offset": place, **spot(data, place), "path": path} for kind, (count, place, path) in kinds.items()]


def features_of(data):
    """What is found in each feature, and the place and the end of those without a fault."""
    try:
        _, value = read(data)
    except Refused:
        return None
    listed = first_value(value, "features") if value.kind == "object" else None
    found, valid = [], []
    for index, it in enumerate(listed.elements if listed and listed.kind == "array" else []):
        paths = paths_of(it, f"$.features[{index}]")
        broken = faults(it, "feature")
        close = end_of(data, it.place) if it.kind in ("object", "array") else None
        told = {"index": index, "place": it.place, "end": close, "rule": None, "offset": None, "line": None, "column": None, "path": None, "warnings": []}
        if broken:
            place, rule = min(broken)
            told |= {"rule": f"G{rule}", "offset": place, **spot(data, place), "path": paths[place]}
        else:
            valid.append(data[it.place : close])
            told["warnings"] = warnings_of(data, [(kind, place, paths[place]) for place, kind in object_warnings(it)])
        if broken or told["warnings"]:
            found.append(told)
    return found, valid


def lines_of(data):
    """The lines that are texts: each with its place and its bytes."""
    at, found = 0, []
    for part in data.split(b"\n"):
        if part.strip(b" \t\r"):
            found.append((at, part))
        at += len(part) + 1
    return found


def judge_line(place, data, depth):
    found = judge_text(data, depth)
    if "offset" in found:
        found["offset"] += place
    found["told"] = [(kind, at + place, path) for kind, at, path in found.get("told", [])]
    return found


def texts_of(data, records, judge):
    found, valid = [], []
    for number, (place, text) in enumerate(records, 1):
        it = judge(place, text, 256)
        told = {"number": number, "place": place, "end": place + len(text), "rule": None, "offset": None, "line": None, "column": None, "path": None, "warnings": []}
        if it["verdict"] == "valid":
            valid.append(text.rstrip(b" \t\r\n"))
            told["warnings"] = warnings_of(data, it["told"])
        else:
            told |= {"rule": it["rule"], "offset": it["offset"], **spot(data, it["offset"]), "path": it.get("json_path")}
        if it["verdict"] != "valid" or told["warnings"]:
            found.append(told)
    return found, valid


def inputs(count):
    rng = random.Random(11)
    for number in range(count):
        features = [rng.choice(FEATURES) for _ in range(rng.choice([0, 1, 2, 5, 12]))]
        kind = rng.choice(['"type":"FeatureCollection",'] * 4 + ['"type":"Feature",', "", '"crs":{},"type":"FeatureCollection",'])
        inner = "".join(("," + rng.choice(SPACES) if i else "") + it for i, it in enumerate(features))
        text = "{" + rng.choice(SPACES) + kind + '"features":[' + rng.choice(SPACES) + inner + "]" + rng.choice(["", ',"features":[1]', ',"bbox":[1]', "", ""]) + "}"
        yield f"{number:05}.geojson", text.encode()
        texts = [rng.choice(TEXTS) for _ in range(rng.choice([1, 2, 5, 12]))]
        yield f"{number:05}.geojsons", "".join("\x1e" + it + rng.choice(["\n", "\n", "\r\n", " \n", "\n", ""]) for it in texts).encode()
        yield f"{number:05}.ndjson", rng.choice(["\n", "\r\n", "\n \n"]).join(texts).encode() + rng.choice([b"", b"\n"])


folder, count = Path(sys.argv[1]), int(sys.argv[2])
os.makedirs(folder, exist_ok=True)
with open(folder / "expected.jsonl", "w") as out:
    for name, data in inputs(count):
        (folder / name).write_bytes(data)
        if name.endswith(".geojson"):
            told = features_of(data)
        elif name.endswith(".geojsons"):
            told = texts_of(data, records_of(data), judge_record)
        else:
            told = texts_of(data, lines_of(data), judge_line)
        found, valid = told or (None, None)
        split = None if valid is None else b"".join(b"\x1e" + it + b"\n" for it in valid).decode("latin-1")
        print(json.dumps({"name": name, "found": found, "split": split}), file=out)
