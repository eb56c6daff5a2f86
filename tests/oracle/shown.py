"""What the documents and the tables of the repository show: texts, each with its verdict."""

import json
import pathlib
import re
import subprocess
import sys

from json_text import LENGTH

ROOT = pathlib.Path(__file__).resolve().parents[2]
sys.path.insert(0, str(ROOT / ".ci/hosts"))
from table import text_of  # noqa: E402

EXAMPLE = re.compile(r"^ *\$ (printf '[^']*') \| geolint\n((?: *(?:valid|broken|not JSON|warning) ?.*\n)+)", re.MULTILINE)
RUN = re.compile(r"^[01] \| (.*) \| (printf '[^']*') \| geolint(?: stdin)?( --seq)?( --quick)?(?: --max-bytes (\d+))?$", re.MULTILINE)


def rows():
    """The rows of .ci/hosts/rows.json up to 100 kB: bytes, the greatest length or None, and the verdict as a rule, a place and warnings."""
    for row in json.loads((ROOT / ".ci/hosts/rows.json").read_text()):
        data = text_of(row["text"])
        if len(data) > 100_000:
            continue
        rule = f"G{row['rule']}" if "rule" in row else f"J{row['cause']}" if "cause" in row else None
        warnings = [(f"W{kind}", count, first) for kind, count, first in row.get("warnings", [])]
        yield data, row.get("max_bytes"), (rule, row.get("place"), warnings)


def printed(call):
    """What a call of printf prints."""
    return subprocess.run(["bash", "-c", call], stdout=subprocess.PIPE, check=True).stdout


def examples():
    """The calls `printf '..' | geolint` of docs/rules.md and .ci/runs: bytes, the options, and the lines of the report."""
    for call, lines in EXAMPLE.findall((ROOT / "docs/rules.md").read_text()):
        yield printed(call), {}, [line.strip() for line in lines.splitlines()]
    for lines, call, sequence, quick, most in RUN.findall((ROOT / ".ci/runs").read_text()):
        options = {"is_sequence": bool(sequence), "is_quick": bool(quick), "length": int(most or LENGTH)}
        yield printed(call), options, lines.split("\\n")


def lines_of(report):
    """The lines of `geolint` for a report of the oracle."""
    if report["verdict"] == "not valid":
        return ["not valid"]
    if report["verdict"] == "valid":
        records = [] if report["records"] is None else [f"records {report['records']}"]
        warnings = [f"warning {it['rule']} count {it['count']} first {it['offset']}: {it['text']}" for it in report["warnings"]]
        return ["valid", *records, *warnings]
    record = [] if report["record"] is None else [f"record {report['record']}"]
    rule = f" {report['rule']}" if report["verdict"] == "broken" else ""
    return [*record, f"{report['verdict']}{rule} at {report['offset']}: {report['text']}"]
