#!/usr/bin/env python3
"""Writes some thousand texts as files, for a comparison of two programs: corpus.py FOLDER COUNT.

They are the rows that the standards give, the examples, small texts of each shape of bench/generate, and for the rest mutants of
these by one to three edits. The seed is fixed."""

import json
import os
import random
import runpy
import sys
from pathlib import Path

ROOT = Path(__file__).resolve().parents[2]
sys.path.insert(0, str(ROOT / ".ci/hosts"))
from table import text_of  # noqa: E402

PARTS = ("[", "]", "{", "}", ",", ":", '"', "0", "-", "1e999", "\\", "\n", "\0", "\t", "null", "180.5", "0.123456789", "é", "東", "🚲", '"type":',
         '"bbox":[1,2,3]', '"crs":{},', '"Point"', '"Polygon"', '"coordinates":[]', '"features":[', '"\\u0074ype":"Feature"')
TOKENS = [part.encode() for part in PARTS] + [b"\xff", b"\xc3", b"\xef\xbb\xbf"]


def mutant(rng, text):
    text = bytearray(text)
    for _ in range(rng.randint(1, 3)):
        at = rng.randrange(len(text) + 1)
        how = rng.randrange(5)
        if how == 0:
            text[at:at] = rng.choice(TOKENS)
        elif how == 1:
            del text[at:at + rng.randint(1, 4)]
        elif how == 2 and at < len(text):
            text[at] = rng.randrange(256)
        elif how == 3:
            text[at:at + rng.randint(0, 3)] = rng.choice(TOKENS)
        elif how == 4 and rng.random() < 0.3:
            del text[at:]
    return bytes(text)


def texts(count):
    rng = random.Random(7)
    found = [text_of(row["text"]) for row in json.loads((ROOT / ".ci/hosts/rows.json").read_text())]
    found += [path.read_bytes() for path in sorted(ROOT.glob("examples/**/*.geojson"))]
    generate = runpy.run_path(str(ROOT / "bench/generate"))
    for shape in [*generate["SHAPES"], *generate["MORE_SHAPES"], *generate["HOSTILE_SHAPES"]]:
        for size in (1500, 6000, 40_000):
            found.append(b"".join(generate["pieces"](shape, size)))
    small = [it for it in found if 2 < len(it) < 45_000]
    return found[:count] + [mutant(rng, rng.choice(small)) for _ in range(count - len(found))]


folder, count = sys.argv[1], int(sys.argv[2])
os.makedirs(folder, exist_ok=True)
for number, text in enumerate(texts(count)):
    with open(f"{folder}/{number:05}.geojson", "wb") as file:
        file.write(text)
