#!/usr/bin/env python3
"""What a file is, by the standards and the profile: the expected line of `geolint-files --format json`.

    tests/oracle/oracle.py [--strict] [--quick] [--seq] [--max-bytes N] FILE..
"""

import argparse
import json
import pathlib
import re
import sys

from advice import text_warnings
from json_text import DEPTH, LENGTH, Refused, read
from rules import KNOWN, faults

# By the headings of the page, as `## G15: ring not closed`.
RULES = pathlib.Path(__file__).resolve().parents[2] / "docs/rules.md"
TEXTS = dict(re.findall(r"^## ([GWJ][0-9]+): (.+)$", RULES.read_text(), re.MULTILINE))
SEPARATOR = 0x1E


def paths_of(value, path="$"):
    """From each place of a value, and of a name, to its path; that of a name is the object's."""
    found = {value.place: path}
    for member in value.members:
        found[member.place] = path
        name = member.name if member.name in KNOWN + ["crs"] else "*"
        found |= paths_of(member.value, f"{path}.{name}")
    for index, element in enumerate(value.elements):
        found |= paths_of(element, f"{path}[{index}]")
    return found


def judge_text(data, depth=DEPTH, length=LENGTH):
    """Of one text: not JSON, then the least fault by place and rule, then the warnings."""
    try:
        has_mark, value = read(data, depth, length)
    except Refused as refused:
        return {"verdict": "not JSON", "rule": refused.cause, "offset": refused.place}
    found = faults(value, "text")
    paths = {0: "$"} | paths_of(value)
    if found:
        place, rule = min(found)
        return {"verdict": "broken", "rule": f"G{rule}", "offset": place, "json_path": paths[place]}
    told = [(kind, place, paths[place]) for place, kind in text_warnings(has_mark, value)]
    return {"verdict": "valid", "told": told}


def records_of(data):
    """The records of a text sequence (RFC 8142): the place of the first byte and the bytes, one for each run of separators."""
    records, begin = [], 0
    for at in range(1, len(data) + 1):
        if at == len(data) or data[at] == SEPARATOR:
            if at > begin + 1 or at == len(data):
                records.append((begin + 1, data[begin + 1 : at]))
            begin = at
    return records


def judge_record(place, data, depth):
    """Of one record: a text that does not end with LF may be cut."""
    found = judge_text(data, depth)
    if found["verdict"] != "not JSON" and not data.endswith(b"\n"):
        found = {"verdict": "not JSON", "rule": "J2", "offset": len(data)}
    if "offset" in found:
        found["offset"] += place
    found["told"] = [(kind, at + place, path) for kind, at, path in found.get("told", [])]
    return found


def judge_sequence(data, depth=DEPTH, length=LENGTH):
    """Of a text sequence: the first record that is not valid, or all warnings. A byte past `length` decides before the end does."""
    if data and data[0] != SEPARATOR:
        return {"verdict": "not JSON", "rule": "J1", "offset": 0, "record": 0}
    is_long = len(data) > length
    records = records_of(data[:length])
    told = []
    for number, (place, record) in enumerate(records, 1):
        found = judge_record(place, record, depth)
        is_open = is_long and number == len(records)
        if found["verdict"] != "valid" and not (is_open and (found["verdict"] == "broken" or found["rule"] == "J2")):
            return found | {"record": number}
        told += found["told"]
    if is_long:
        return {"verdict": "not JSON", "rule": "J4", "offset": length, "record": len(records)}
    return {"verdict": "valid", "told": told, "records": len(records)}


def line_and_column(data, place):
    """Counted from 1: LF alone ends a line, and each byte but 80 to BF begins a character."""
    line = data.rfind(b"\n", 0, place) + 1
    return data.count(b"\n", 0, place) + 1, sum(not 0x80 <= byte <= 0xBF for byte in data[line:place]) + 1


def pointer_of(path):
    """A path as a JSON pointer (RFC 6901), where each name in it is known."""
    return None if path is None or "*" in path else re.sub(r"[.[]", "/", path[1:]).replace("]", "")


def spot(data, rule, place, path):
    line, column = line_and_column(data, place)
    place = {"offset": place, "line": line, "column": column}
    return {"rule": rule, "text": TEXTS[rule]} | place | {"json_path": path, "pointer": pointer_of(path)}


NOTHING = dict.fromkeys(["record", "records", "rule", "text", "offset", "line", "column", "json_path", "pointer"])


def report(data, is_sequence=False, is_quick=False, is_strict=False, length=LENGTH):
    """The members of the line in JSON, without the name of the file."""
    found = judge_sequence(data, length=length) if is_sequence else judge_text(data, length=length)
    if is_quick and not is_sequence and found["verdict"] != "valid":
        return {"verdict": "not valid", "passes": False} | NOTHING | {"warnings": []}
    warnings = []
    for kind in range(1, 10):
        places = [(place, path) for it, place, path in found.get("told", []) if it == kind]
        if places and found["verdict"] == "valid":
            warnings.append({"count": len(places)} | spot(data, f"W{kind}", *min(places)))
    line = {"verdict": found["verdict"], "passes": found["verdict"] == "valid" and not (is_strict and warnings)} | NOTHING
    line |= {"record": found.get("record"), "records": found.get("records")}
    if "rule" in found:
        line |= spot(data, found["rule"], found["offset"], found.get("json_path"))
    return line | {"warnings": warnings}


def main():
    words = argparse.ArgumentParser()
    for word in "--strict", "--quick", "--seq":
        words.add_argument(word, action="store_true")
    words.add_argument("--max-bytes", type=int, default=LENGTH)
    words.add_argument("files", nargs="+")
    given = words.parse_args()
    for name in given.files:
        is_sequence = given.seq or name.endswith(".geojsons")
        line = report(pathlib.Path(name).read_bytes(), is_sequence, given.quick, given.strict, given.max_bytes)
        print(json.dumps({"path": name} | line, separators=(",", ":"), ensure_ascii=False))


if __name__ == "__main__":
    sys.exit(main())
