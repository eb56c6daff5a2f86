#!/usr/bin/env python3
"""What the library finds in features and records, and where, against other ways to the same, on random inputs in random cuts.

    findings.py SEED COUNT FOLDER FILE..

A feature is checked once more as the only one of a collection, and a record as a text of its own; the elements and their places come
from a reader of JSON in this file. The inputs stay in FOLDER, and `findings.py --places PROGRAM FOLDER` compares the lines, the columns
and the paths of all of them with those of geolint-files."""

import json
import os
import random
import subprocess
import sys

import geolint

BYTES = b'{}[]:,"\\0123456789eE+-. \n\t/truefalsn\xc3\xa9\xef\x1e'
COLLECTION = b'{"type":"FeatureCollection","features":['


class Reader:
    """Where the values of a JSON text stand. The text is known to be one."""

    def __init__(self, text):
        self.text, self.at = text, 3 if text.startswith(b"\xef\xbb\xbf") else 0

    def white(self):
        while self.text[self.at : self.at + 1] in (b" ", b"\t", b"\n", b"\r"):
            self.at += 1

    def string(self):
        start = self.at
        self.at += 1
        while self.text[self.at] != 0x22:
            self.at += 2 if self.text[self.at] == 0x5C else 1
        self.at += 1
        return json.loads(self.text[start : self.at].decode("utf-8", "surrogatepass"))

    def value(self):
        """The members of an object by first name, or the elements of an array, each with its kind, its place and its end."""
        self.white()
        start, first = self.at, self.text[self.at : self.at + 1]
        inner = None
        if first in (b"{", b"["):
            inner, close = ({}, b"}") if first == b"{" else ([], b"]")
            self.at += 1
            self.white()
            while self.text[self.at : self.at + 1] != close:
                if self.text[self.at : self.at + 1] == b",":
                    self.at += 1
                self.white()
                if first == b"{":
                    name = self.string()
                    self.white()
                    self.at += 1
                    inner.setdefault(name, self.value())
                else:
                    inner.append(self.value())
                self.white()
            self.at += 1
        elif first == b'"':
            self.string()
        else:
            while self.at < len(self.text) and self.text[self.at] not in b' \t\n\r,]}':
                self.at += 1
        return first, start, self.at, inner


def shifted(verdict, by):
    """A verdict with its places moved on by this many bytes, as plain values."""
    place = None if verdict.place is None else verdict.place + by
    return verdict.name, verdict.rule, verdict.cause, place, tuple((w.kind, w.count, w.first + by) for w in verdict.warnings)


def expected_features(text):
    kind, _, _, members = Reader(text).value()
    listed = members.get("features") if kind == b"{" else None
    found = []
    for number, (first, start, end, inner) in enumerate(listed[3] if listed and listed[0] == b"[" else []):
        alone = geolint.check(COLLECTION + text[start:end] + b"]}")
        own = inner.get("id") if first == b"{" else None
        closed = end if first in (b"{", b"[") else None
        found.append((number, start, closed, own[1] if own else None, shifted(alone, start - len(COLLECTION))))
    return found


def expected_records(text, framing):
    """The records of an input, and what it is as a whole."""
    found, at, number = [], 0, 0 if framing == "sequence" else 1
    parts = text.split(b"\x1e" if framing == "sequence" else b"\n")
    for index, part in enumerate(parts):
        last = index + 1 == len(parts)
        if framing == "newlines":
            counts = bool(part.strip(b" \t\r"))
        else:
            counts = bool(part) or (last and number > 0)
        if counts:
            verdict = shifted(geolint.check(part), at)
            if number == 0:
                verdict = ("not JSON", None, 1, at, ())
            elif framing == "sequence" and verdict[0] != "not JSON" and not part.endswith(b"\n"):
                verdict = ("not JSON", None, 2, at + len(part), ())
            found.append((number, at, at + len(part), None, verdict))
            number += 1
        else:
            number = max(number, 1)
        at += len(part) + 1
    return found


def whole_of(found):
    warned = {}
    for number, _, _, _, verdict in found:
        if verdict[0] != "valid":
            return verdict, number
        for kind, count, first in verdict[4]:
            total, least = warned.get(kind, (0, first))
            warned[kind] = total + count, min(least, first)
    return ("valid", None, None, None, tuple((k, *warned[k]) for k in sorted(warned))), found[-1][0] if found else 0


def plain(finding):
    return finding.number, finding.place, finding.end, finding.id, shifted(finding.verdict, 0)


def cuts(dice, text):
    at = 0
    while at < len(text):
        size = dice.choice([1, 2, 7, 40, 300, len(text)])
        yield text[at : at + size]
        at += size


def mutated(dice, text):
    text = bytearray(text)
    for _ in range(dice.randrange(3)):
        kind, at = dice.randrange(8), dice.randrange(len(text) + 1)
        span = dice.randrange(40)
        if kind < 4 and at < len(text):
            text[at] = dice.choice(BYTES)
        elif kind == 4:
            del text[at : at + span]
        elif kind == 5:
            text[at:at] = text[at : at + span]
        elif kind == 6:
            text.insert(at, dice.choice(BYTES))
        elif dice.randrange(4) == 0:
            del text[at:]
    return bytes(text)


def compare(dice, text):
    """What differs, and which kinds of things were seen."""
    wrong, verdict = [], geolint.check(text)
    told = geolint.features(cuts(dice, text))
    found = [plain(it) for it in told]
    if told.verdict != verdict:
        wrong.append(f"verdict of the features: {told.verdict} for {verdict}")
    if verdict.name != "not JSON" and found != expected_features(text):
        wrong.append(f"features: {found} for {expected_features(text)}")
    for framing in ("sequence", "newlines"):
        told = geolint.records(cuts(dice, text), framing)
        records = [plain(it) for it in told]
        expected = expected_records(text, framing)
        if records != expected:
            wrong.append(f"{framing}: {records} for {expected}")
        if (shifted(told.verdict, 0), told.count) != whole_of(expected):
            wrong.append(f"{framing}, whole: {told.verdict}, {told.count} for {whole_of(expected)}")
    return wrong, len(found)


def texts_of(files, most):
    """The beginnings of files, and of some of them text sequences and newline-delimited texts."""
    texts = []
    for name in files:
        with open(name, "rb") as file:
            texts.append(file.read(most))
    texts += [b"\x1e" + text.strip() + b"\n\x1e" + text for text in texts[:8]]
    texts += [b" ".join(text.split()) + b"\n \r\n" + b" ".join(texts[0].split()) + b"\n" for text in texts[:8]]
    return texts


def compare_all(seed, count, folder, files):
    dice, texts = random.Random(seed), texts_of(files, 20000)
    features = failed = 0
    for number in range(count):
        text = mutated(dice, dice.choice(texts))
        with open(os.path.join(folder, f"{number}.geojson"), "wb") as file:
            file.write(text)
        wrong, found = compare(dice, text)
        features += found
        for line in wrong[:3]:
            print(f"input {number}: {line}")
        failed += bool(wrong)
    print(f"{count} inputs, {features} features, {failed} wrong")
    return failed or features < count // 4


def compare_places(program, folder):
    ran = subprocess.run([program, "--format", "json", folder], stdout=subprocess.PIPE, check=False)
    seen = failed = 0
    for line in ran.stdout.splitlines():
        told = json.loads(line)
        with open(told["path"], "rb") as file:
            report = geolint.report(file)
        if told.get("line") is None and report.verdict.valid:
            continue
        seen += 1
        if (report.line, report.column, report.path) != (told["line"], told["column"], told.get("json_path")):
            failed += 1
            print(f"{told['path']}: {report.line}:{report.column} {report.path} for {told['line']}:{told['column']} {told.get('json_path')}")
    print(f"{seen} places, {failed} wrong")
    return failed or not seen


if __name__ == "__main__":
    if sys.argv[1] == "--places":
        sys.exit(1 if compare_places(*sys.argv[2:4]) else 0)
    sys.exit(1 if compare_all(int(sys.argv[1]), int(sys.argv[2]), sys.argv[3], sys.argv[4:]) else 0)
