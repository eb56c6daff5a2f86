"""Texts with the verdict that is due, as lines for a host that reads no JSON: their number, the bytes in hexadecimal, how many bytes
are allowed, the rule or the cause, its place, and the warnings, with tabs between them and `\\N` for nothing.

    table.py rows                            the rows of rows.json
    table.py random SEED COUNT PROGRAM FILE..    texts made from the files, and what the program says of them

    table.py features SEED COUNT             texts made of the features of features.json, which says what is found in each

A line of these has the number, the bytes, and the findings with `;` between them: index, start, end, place of the id, rule, its place,
and the warnings, with a blank between them and `-` for nothing.
"""

import json
import os
import random
import subprocess
import sys
import tempfile

NOTHING = "\\N"
WIDEST = 2**60


def text_of(parts):
    """The bytes of a row: strings, bytes in hexadecimal, and parts that are repeated."""
    text = b""
    for part in parts:
        if isinstance(part, str):
            text += part.encode()
        elif "hex" in part:
            text += bytes.fromhex(part["hex"])
        else:
            text += text_of(part["of"]) * part["times"]
    return text


def line(number, text, max_bytes, rule, place, warnings):
    noted = ",".join(f"{kind} {count} {first}" for kind, count, first in warnings)
    return "\t".join(str(NOTHING if word is None else word) for word in (number, text.hex(), max_bytes, rule, place, noted))


def rows():
    for number, row in enumerate(json.load(open(os.path.join(os.path.dirname(__file__), "rows.json"))), 1):
        rule = f"G{row['rule']}" if "rule" in row else f"J{row['cause']}" if "cause" in row else None
        warnings = [(f"W{kind}", count, first) for kind, count, first in row.get("warnings", [])]
        yield line(number, text_of(row["text"]), row.get("max_bytes", WIDEST), rule, row.get("place"), warnings)


SPARKS = b"{}[]:,\"\\0123456789eE+-. \n\t/truefalsn\xc3\xa9\xef"


def changed(text, chance):
    """The text with one change: another byte, one more or some fewer, some twice, or only its start."""
    at = chance.randrange(len(text) + 1)
    span = chance.randrange(40)
    spark = SPARKS[(where := chance.randrange(len(SPARKS))) : where + 1]
    kind = chance.randrange(8)
    if kind < 4:
        return text[:at] + spark + text[at + 1 :]
    if kind == 4:
        return text[:at] + text[at + span :]
    if kind == 5:
        return text[: at + span] + text[at:]
    if kind == 6:
        return text[:at] + spark + text[at:]
    return text[:at] if chance.randrange(4) == 0 else text


BATCH = 10_000
SHARED_MEMORY = "/dev/shm"


def reported(program, texts):
    """What the program says of each text, in their order: as files, in memory where there is such a folder."""
    folder = SHARED_MEMORY if os.access(SHARED_MEMORY, os.W_OK) else None
    with tempfile.TemporaryDirectory(dir=folder) as room:
        for number, text in enumerate(texts):
            with open(os.path.join(room, f"{number:06}.geojson"), "wb") as file:
                file.write(text)
        done = subprocess.run([program, "--format", "json", room], stdout=subprocess.PIPE, check=False)
    reports = [json.loads(one) for one in done.stdout.splitlines()]
    if done.returncode > 1 or len(reports) != len(texts):
        sys.exit(f"{program} ended with status {done.returncode} and {len(reports)} reports of {len(texts)} texts")
    return reports


def made(seed, count, program, paths):
    chance = random.Random(int(seed))
    seeds = [open(path, "rb").read() for path in paths]
    texts = []
    for _ in range(int(count)):
        text = chance.choice(seeds)
        for _ in range(chance.randrange(3)):
            text = changed(text, chance)
        texts.append(text)
    reports = [report for at in range(0, len(texts), BATCH) for report in reported(program, texts[at : at + BATCH])]
    for number, (text, report) in enumerate(zip(texts, reports), 1):
        warnings = [(w["rule"], w["count"], w["offset"]) for w in report["warnings"]]
        yield line(number, text, WIDEST, report["rule"], report["offset"], warnings)


HEADS = ['{"type":"FeatureCollection","features":[', ' {"features" : [', '{"name":"features","x":{"features":[{},1]},"features":[', '{"type":"Nope","features":[', '\ufeff{"features":[']
TAILS = ["]}", '],"type":"FeatureCollection"}', '],"features":[7,{}]}', '],"x":[{"features":[1]}]}\n', "]!", "]}}", "]"]


def found(element, index, start):
    """What is found in an element that is the so-manieth of the features and begins there."""
    text = element["text"].encode()

    def place(words):
        return start + text.index(words.encode())

    end = start + len(text) if text[:1] in (b"{", b"[") else "-"
    noted = ",".join(f"{kind} {count} {place(at)}" for kind, count, at in element.get("warnings", [])) or "-"
    known = place(element["id"]) if "id" in element else "-"
    return f"{index} {start} {end} {known} {element.get('rule', '-')} {place(element['at']) if 'at' in element else '-'} {noted}"


def features(seed, count):
    chance = random.Random(int(seed))
    elements = json.load(open(os.path.join(os.path.dirname(__file__), "features.json")))
    for number in range(1, int(count) + 1):
        text, findings = chance.choice(HEADS).encode(), []
        for index in range(chance.randrange(8)):
            element = elements[(number + index) % len(elements)] if chance.randrange(2) else chance.choice(elements)
            text += (b"," if index else b"") + chance.choice([b"", b" ", b"\r\n\t"])
            start, spelled = len(text), element["text"].encode()
            text += spelled
            # A number is complete with the byte after it.
            findings.append((len(text) + spelled[:1].isdigit(), found(element, index, start)))
            text += chance.choice([b"", b"", b"\n"])
        text += chance.choice(TAILS).encode()
        if chance.randrange(3) == 0:
            text = text[: chance.randrange(len(text) + 1)]
        yield f"{number}\t{text.hex()}\t" + ";".join(line for complete, line in findings if complete <= len(text))


if __name__ == "__main__":
    if sys.argv[1:] == ["rows"]:
        lines = rows()
    elif len(sys.argv) == 4 and sys.argv[1] == "features":
        lines = features(*sys.argv[2:])
    elif len(sys.argv) > 5 and sys.argv[1] == "random":
        lines = made(*sys.argv[2:5], sys.argv[5:])
    else:
        sys.exit(__doc__)
    for one in lines:
        print(one)
