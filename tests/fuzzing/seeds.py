"""Writes the seeds of the fuzz target into a folder: the examples, the rows of the tables, and generated texts.

    seeds.py FOLDER
"""

import pathlib
import sys

ROOT = pathlib.Path(__file__).resolve().parents[2]
sys.path.insert(0, str(ROOT / "tests/oracle"))

import generate  # noqa: E402
import shown  # noqa: E402


def main():
    folder = pathlib.Path(sys.argv[1])
    texts = [path.read_bytes() for path in sorted((ROOT / "examples").rglob("*.geojson*"))]
    texts += [data for data, _, _ in shown.rows() if len(data) < 4096]
    texts += [data for data, _, _ in shown.examples()]
    texts += [generate.text(seed) for seed in range(500)]
    for number, data in enumerate(texts):
        (folder / f"seed-{number:04}").write_bytes(data)


if __name__ == "__main__":
    main()
