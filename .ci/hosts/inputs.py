"""Random inputs in random cuts, and what the programs say of them, for hosts in each language.

    inputs.py SEED COUNT PROGRAM FOLDER FILE..     writes FOLDER/inputs and FOLDER/wanted
    inputs.py --host FOLDER/inputs                 says of each input what Python's package finds

PROGRAM is geolint-files, which reads each input as a text, as a text sequence and as newline-delimited texts. FOLDER/inputs has of each
input the number of its bytes, the number of its pieces and the length of each, as 32-bit numbers, and then its bytes. FOLDER/wanted has the
lines that a host has to print: the verdict, the place with its line, column and path, the warnings, the hint, and each feature that has a
fault or a warning. Before the random inputs come those of KINDS, which have each hint."""

import io
import json
import os
import random
import struct
import subprocess
import sys
import tempfile

from findings import mutated, texts_of

BATCH = 2500
POINT = b'{"type":"Point","coordinates":[%b]}'
# What is no GeoJSON, and why: each hint in one form or more, and what has none.
KINDS = [
    b"\x1f\x8b\x08\x00", b"PK\x03\x04rest", b"\0\0\x27\x0a\0\0", b"SQLite format 3\0rest", b"fgb\x03fgb", b"PAR1rest", b"%PDF-1.7\n",
    b"<?xml version='1.0'?>\n<kml xmlns='x'>", b"\xef\xbb\xbf<a xmlns:gml='http://www.opengis.net/gml'>", b"<!doctype html><p>Log in", b"\n<html>",
    b"\xef\xbb\xbf <p>not found</p>", b"<gpx version='1.1'/>\n", b"\xff\xfe{\0", b"\0{\0\"", b'{"a":"Stra\xdfe"}', b'{"a":"\xe2\x82"}', b'{"a":NaN}', b'{"a":nan}',
    b'{"a":-Infinity}', b"[inf]", b"{'a':1}", b'{"a":1} // a note', b'/* a note */ {"a":1}', b"[1] # a note", b'{"a":1,}', b"[1,2,\n]", b"[1,,2]", b"[,2]",
    (POINT + b"\n" + POINT) % (b"0,0", b"0,0"), b"[1][2]", b"[1" + 300 * b" " + b"] [2]", b"[[1] [2]]", b"1{}", b'"a"[]', b"tru{", b"-[", b'"\\{', b"7 8", b" x", b"\xef\xbb{",
    b"\x1e" + POINT % b"0,0" + b"\n", b"\x1e[1] [2]\n", b"[1] [2]\n[3]\n", POINT % b"0,0" + b"\n[1] {\n", b" \x1e[]", b'{"type":"Topology","objects":{}}',
    b'{"geometryType":"esriGeometryPoint"}', b'{"spatialReference":{}}', b'{"x":"' + 490 * b"y" + b'","spatialReference":{}}', b'"{\\"type\\":\\"Point\\"}"',
    POINT % b"52.5,113.4", POINT % b" -52.5 , -113.4 , 7 ", POINT % b"192.5,13.4", POINT % b"5e1,113.4", POINT % b"1,2", POINT % b"0.1234567890123456789012345678901,0",
    POINT % b"1e999,0", POINT % b"-1E-999,0", b'{"type":"Point"}', POINT[:-1] % b"0,0", b'{"file":"C:\\maps"}', b"", b"{", POINT % b"113.4,52.5" + b"\n" + POINT % b"52.5,113.4",
    b"\x89PNG\r\n", b"<gpx><wpt lat='1' lon='2'/>", b"id;name\n1;a\n", b"Sorry, no.\n", b" json_agg \n-----\n {}\n", b'"{""a"":1}"', b"show({});", b"[\n=======\n", b'{"a":\0\0',
    b'{"a":True}', b"{'a': None}", b'{"a":NULL}', b"{a:1}", b'["two\nlines"]', b'{"a":"the "old" pier"}', b"{\xe2\x80\x9ca", b"[.5]", b"[...]", b'{"a":41,5}',
    b'{"a":1 "b":2}', b'{"a":{},{', POINT % b"0,0" + b",\n" + POINT % b"0,0" + b",\n", b'{"type":null}', b'{"type":"Point","coordinates":null}',
    600 * b" " + b"[1,]", b"[" + 600 * b"1," + b"]", b"[1," + 256 * b" " + b"]", b"[1," + 255 * b" " + b"]", b'{"a":"' + 600 * b"b" + b"\xc3", b'["' + 600 * b"b" + b'\xc3"]',
]
HINTS = 53


def cuts_of(dice, size):
    """The lengths of random pieces, some of them empty."""
    found = []
    while size:
        most = min(size, dice.choice([1, 3, 16, 100, size]))
        found.append(dice.randrange(most + 1))
        size -= found[-1]
    return found


def spot(it):
    return f"{it['line']}:{it['column']} {it['json_path'] or '-'}"


def lines_of(word, it):
    """What geolint-files says of a file, as a host says it."""
    number = "" if word == "text" else f" {it['record'] if it['record'] is not None else it['records']}"
    if it["verdict"] == "valid":
        yield f"{word} valid{number}"
        for w in it["warnings"]:
            yield f"{w['rule']} {w['count']} {w['offset']} {spot(w)}"
    else:
        yield f"{word} {it['rule']}{number} {it['offset']} {spot(it)}"
    if it["hint"]:
        yield "hint " + it["hint"].replace(f" {it['path']}", " IN")


def said(program, folder, *words):
    """The lines of geolint-files on a folder, by file: that of the file, and those of its features."""
    ran = subprocess.run([program, "--format", "json", *words, folder], stdout=subprocess.PIPE, check=False)
    found = {}
    for line in ran.stdout.splitlines():
        it = json.loads(line)
        found.setdefault(os.path.basename(it["path"]), []).append(it)
    return found


def batch(dice, made, program, first, inputs, wanted):
    """Writes some inputs, and asks the program."""
    with tempfile.TemporaryDirectory() as folder:
        for number, text in enumerate(made, first):
            cuts = cuts_of(dice, len(text))
            inputs.write(struct.pack(f"<{len(cuts) + 2}I", len(text), len(cuts), *cuts) + text)
            with open(os.path.join(folder, f"{number}.geojson"), "wb") as file:
                file.write(text)
        plain, whole = said(program, folder), said(program, folder, "--every=warnings", "--most", "0")
        sequence, newlines = said(program, folder, "--seq"), said(program, folder, "--ndjson")
    for number in range(first, first + len(made)):
        name = f"{number}.geojson"
        wanted.write(f"{number}\n")
        lines = list(lines_of("text", plain[name][0]))
        lines += [f"feature {it['feature']} {it['rule']} {it['offset']} {spot(it)}" for it in whole[name][1:]]
        lines += [*lines_of("sequence", sequence[name][0]), *lines_of("newlines", newlines[name][0])]
        wanted.writelines(f"{line}\n" for line in lines)


def make(seed, count, program, folder, files):
    dice, texts = random.Random(seed), texts_of(files, 8000)
    with open(os.path.join(folder, "inputs"), "wb") as inputs, open(os.path.join(folder, "wanted"), "w", encoding="utf-8") as wanted:
        batch(dice, KINDS, program, 0, inputs, wanted)
        for first in range(0, count, BATCH):
            made = [mutated(dice, dice.choice(texts)) for _ in range(min(BATCH, count - first))]
            batch(dice, made, program, len(KINDS) + first, inputs, wanted)
    with open(os.path.join(folder, "wanted"), encoding="utf-8") as wanted:
        hints = {line for line in wanted if line.startswith("hint ")}
    if len(hints) != HINTS:
        sys.exit(f"{len(hints)} hints, and not {HINTS}")


# ---- the host in Python

def pieces_of(text, cuts):
    at = 0
    for cut in cuts:
        yield text[at : at + cut]
        at += cut


def code_of(verdict):
    return f"G{verdict.rule}" if verdict.rule else f"J{verdict.cause}"


def placed(text, start, place, is_json=True):
    """Where a place stands; its path is that in the text that begins at `start`."""
    import geolint

    path = geolint.locate(text[start:], [place - start])[0].path if is_json else "-"
    found = geolint.locate(text, [place])[0]
    return f"{found.line}:{found.column} {path}"


def hinted(verdict, levels, text):
    """The hint, by the bytes around the place."""
    import geolint

    place = next((w.first for w in verdict.warnings if w.kind == 5), verdict.place or 0)
    hint = geolint.hint_around(verdict, levels, text[:512], bytearray(text[:place]), memoryview(text)[place:])
    return [] if hint is None else [f"hint {hint}"]


def told(word, verdict, number, text, starts):
    if not verdict:
        return [f"{word} {code_of(verdict)}{number} {verdict.place} {placed(text, starts.get(0, 0), verdict.place, bool(verdict.rule))}"]
    return [f"{word} valid{number}"] + [
        f"W{w.kind} {w.count} {w.first} {placed(text, starts.get(w.kind, 0), w.first)}" for w in verdict.warnings
    ]


def features_told(found, text):
    for it in found:
        if not it:
            yield f"feature {it.number} {code_of(it.verdict)} {it.verdict.place} {placed(text, 0, it.verdict.place)}"
        for w in it.verdict.warnings:
            yield f"feature {it.number} W{w.kind} {w.first} {placed(text, 0, w.first)}"


def records_told(word, text, cuts):
    import geolint

    starts, records = {}, geolint.records(pieces_of(text, cuts), word)
    for it in records:
        for kind in [0] if not it else [w.kind for w in it.verdict.warnings]:
            starts.setdefault(kind, it.place)
    lines = told(word, records.verdict, f" {records.count}", text, starts)
    return lines if records.verdict else lines + hinted(records.verdict, 1, text)


def text_hinted(verdict, text, cuts):
    """The hint of a text, in three ways."""
    import geolint

    linter = geolint.Linter()
    for piece in pieces_of(text, cuts):
        linter.feed(piece)
    lines, hint = hinted(verdict, linter.levels, text), geolint.hint(verdict, text)
    if lines != ([] if hint is None else [f"hint {hint}"]) or geolint.report(io.BytesIO(text)).hint != hint:
        lines.append("another hint")
    return lines


def host(path):
    import geolint

    with open(path, "rb") as file:
        number = 0
        while head := file.read(8):
            size, count = struct.unpack("<II", head)
            cuts = struct.unpack(f"<{count}I", file.read(4 * count))
            text = file.read(size)
            features = geolint.features(pieces_of(text, cuts))
            found = list(features)
            lines = told("text", features.verdict, "", text, {}) + text_hinted(features.verdict, text, cuts)
            if geolint.check(pieces_of(text, cuts)) != features.verdict or geolint.check(text) != features.verdict:
                lines.append("another verdict")
            if features.verdict.cause is None:
                lines += features_told(found, text)
            lines += records_told("sequence", text, cuts) + records_told("newlines", text, cuts)
            print(number, *lines, sep="\n")
            number += 1


if __name__ == "__main__":
    if sys.argv[1] == "--host":
        host(sys.argv[2])
    else:
        make(int(sys.argv[1]), int(sys.argv[2]), sys.argv[3], sys.argv[4], sys.argv[5:])
