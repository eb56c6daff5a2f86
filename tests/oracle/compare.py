#!/usr/bin/env python3
"""Compares geolint-files with the oracle, over random inputs. The last line is `N passed, M failed`.

    tests/oracle/compare.py [--program PROGRAM] [--seed NUMBER] [--count NUMBER]

Each difference is shown with its seed and with the smallest input that was found for it.
"""

import argparse
import collections
import itertools
import json
import multiprocessing
import pathlib
import subprocess
import sys
import tempfile

import generate
import shown
from json_text import LENGTH
from oracle import report

ROOT = pathlib.Path(__file__).resolve().parents[2]
PROGRAM = ROOT / "crates/geolint_files/out/geolint_files"
# Of a hundred inputs: how many, their kind, the words for the program, and what they mean.
WAYS = {
    "texts": (60, generate.text, ".geojson", [], {}),
    "strict": (5, generate.text, ".geojson", ["--strict"], {"is_strict": True}),
    "quick": (10, generate.text, ".geojson", ["--quick"], {"is_quick": True}),
    "short": (5, generate.text, ".geojson", ["--max-bytes", "90"], {"length": 90}),
    "sequences": (12, generate.sequence, ".geojsons", [], {"is_sequence": True}),
    "short sequences": (4, generate.sequence, ".geojson", ["--seq", "--max-bytes", "150"], {"is_sequence": True, "length": 150}),
    "texts as sequences": (2, generate.text, ".geojson", ["--seq"], {"is_sequence": True}),
    "sequences as texts": (2, generate.sequence, ".geojson", [], {}),
}


def expected(work):
    """The input of a way and a seed, and what the oracle says of it."""
    way, seed = work
    _, make, _, _, options = WAYS[way]
    data = make(seed)
    return data, report(data, **options)


def told(program, words, folder):
    """What the program says of each file in a folder, by name, but for its advice: the oracle gives none."""
    got = subprocess.run([program, "--format", "json", *words, folder], stdout=subprocess.PIPE, stderr=subprocess.PIPE, check=False)
    lines = [json.loads(line) for line in got.stdout.splitlines()]
    if got.returncode not in (0, 1) or len(lines) != len(list(folder.iterdir())):
        sys.exit(f"the program ended with status {got.returncode} and {len(lines)} lines: {got.stderr[-400:].decode(errors='replace')}")
    for line in lines:
        line.pop("found")
        line.pop("hint")
    return {pathlib.Path(line.pop("path")).name: line for line in lines}


def differs(program, way, data, room):
    """Whether program and oracle differ on this input."""
    _, _, ending, words, options = WAYS[way]
    folder = room / "smaller"
    folder.mkdir(exist_ok=True)
    (folder / f"it{ending}").write_bytes(data)
    return told(program, words, folder)[f"it{ending}"] != report(data, **options)


def smallest(program, way, data, room):
    """Takes away from an input what the difference does not need."""
    size = max(1, len(data) // 2)
    while size:
        at = 0
        while at < len(data):
            shorter = data[:at] + data[at + size :]
            if differs(program, way, shorter, room):
                data = shorter
            else:
                at += size
        size //= 2
    return data


def run_way(program, way, first, count, pool, room):
    """Compares some inputs of one way; gives the counts of what they are, and the seeds that differ."""
    _, _, ending, words, _ = WAYS[way]
    seeds = range(first, first + count)
    folder = room / way
    folder.mkdir()
    wanted = {}
    for seed, (data, line) in zip(seeds, pool.imap(expected, [(way, seed) for seed in seeds], 100)):
        (folder / f"{seed}{ending}").write_bytes(data)
        wanted[seed] = line
    got = told(program, words, folder)
    rules = collections.Counter(it for line in wanted.values() for it in [line["rule"] or line["verdict"], *(w["rule"] for w in line["warnings"])])
    return rules, [(seed, got[f"{seed}{ending}"], line) for seed, line in wanted.items() if got[f"{seed}{ending}"] != line]


def compare(program, seed, count):
    """All ways; gives how many inputs passed and failed."""
    passed, failed, rules = 0, 0, collections.Counter()
    with tempfile.TemporaryDirectory() as name, multiprocessing.Pool(2) as pool:
        room = pathlib.Path(name)
        for way, (share, _, ending, _, _) in WAYS.items():
            part = max(1, count * share // 100)
            found, differences = run_way(program, way, seed, part, pool, room)
            rules += found
            passed, failed = passed + part - len(differences), failed + len(differences)
            for at, got, wanted in differences[:5]:
                data = (room / way / f"{at}{ending}").read_bytes()
                print(f"FAILED: {way}, seed {at}: {smallest(program, way, data, room)!r}")
                print(f"  the program says {got}\n  the oracle says  {wanted}")
    print("what the oracle found:", ", ".join(f"{rule} {number}" for rule, number in sorted(rules.items())))
    return passed, failed


def documents():
    """The oracle on what the documents and tables show; gives how many rows passed and failed."""
    passed = failed = 0
    rows = [(data, as_row(report(data, length=length or LENGTH)), wanted) for data, length, wanted in shown.rows()]
    examples = [(data, shown.lines_of(report(data, **options)), lines) for data, options, lines in shown.examples()]
    for data, got, wanted in itertools.chain(rows, examples):
        if got == wanted:
            passed += 1
        else:
            failed += 1
            print(f"FAILED: the documents show {wanted} for {data[:200]!r}, and the oracle says {got}")
    if not rows or len(examples) < 40:
        failed += 1
        print(f"FAILED: there are {len(rows)} rows and {len(examples)} examples in the documents")
    return passed, failed


def needs(program):
    """Ends the run where the program is not built."""
    if not pathlib.Path(program).is_file():
        sys.exit(f"{program} is missing: make builds it")


def as_row(line):
    return line["rule"], line["offset"], [(it["rule"], it["count"], it["offset"]) for it in line["warnings"]]


def main():
    words = argparse.ArgumentParser()
    words.add_argument("--program", default=PROGRAM)
    words.add_argument("--seed", type=int, default=1)
    words.add_argument("--count", type=int, default=20000)
    given = words.parse_args()
    needs(given.program)
    counts = [documents(), compare(given.program, given.seed, given.count)]
    passed, failed = map(sum, zip(*counts))
    print(f"{passed} passed, {failed} failed")
    return failed > 0


if __name__ == "__main__":
    sys.exit(main())
