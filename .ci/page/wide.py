#!/usr/bin/env python3
"""Writes texts whose place comes after characters of all scripts, on which the column of a caret depends: wide.py FOLDER COUNT.

Each has twelve characters that Unicode knows, in every third those that join others. The seed is fixed."""

import os
import random
import sys
import unicodedata

JOINED = ["❤\ufe0f", "⌚\ufe0e", "☝🏽", "👍🏿", "🇩🇪", "“\ufe01", "\u0644\u0627", "\u0644\u064e\u0623", "\u17d2\u1781", "\u2d31\u2d7f\u2d32", "\ua4f8\ua4fc",
          "\u1112\u1161\u11ab", "e\u0301", "\uff76\uff9e", "क्षि", "각", "\u0600", "\u0605", "\u17d8", "1\ufe0f\u20e3"]

folder, count = sys.argv[1], int(sys.argv[2])
os.makedirs(folder, exist_ok=True)
rng = random.Random(7)
known = [chr(code) for code in range(0xA1, 0x110000) if unicodedata.category(chr(code)) not in ("Cn", "Cs", "Co", "Cc")]
# Of the ideographs and syllables there are so many that little else would come up.
few = [it for it in known if not (0x3400 <= ord(it) <= 0x9FFF or 0xAC00 <= ord(it) <= 0xD7A3 or 0x17000 <= ord(it) <= 0x18CFF or ord(it) >= 0x20000)]
for number in range(count):
    characters = rng.choices(JOINED if number % 3 == 0 else few if number % 3 == 1 else known, k=12)
    with open(f"{folder}/{number:04}.geojson", "w", encoding="utf-8") as file:
        file.write(f'{{"type":"Point","name":"{"".join(characters)}",!')
