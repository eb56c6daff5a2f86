"""The layers of GEOLINT:FILE in GDAL beside what geolint-files says: gdal_layers.py PROGRAM FILE.."""

import json
import subprocess
import sys
import tempfile

from checks import ended, wants
from osgeo import ogr

ogr.UseExceptions()
PLACE = ("code", "text", "offset", "line", "column", "path")


def told(program, path):
    """What the program says of a file, and of each broken feature, in the names of the layers."""
    done = subprocess.run([program, "--every", "--most", "0", "--format", "json", path], stdout=subprocess.PIPE, check=False)
    for line in done.stdout.splitlines():
        said = json.loads(line)
        yield {**said, "code": said.get("rule"), "path": said.get("json_path")}


def compare(program, path):
    report, *features = told(program, path)
    source = ogr.Open(f"GEOLINT:{path}")
    (got,) = source.GetLayerByName("report")
    names = ("verdict", *PLACE, "hint")
    # The program's hint names the file.
    report["hint"] = report["hint"] and report["hint"].replace(f" {path}", " IN")
    wants(f"the report of {path}", [got.GetField(name) for name in names], [report[name] for name in names])
    layer = source.GetLayerByName("findings")
    # A layer is read as often as one likes.
    for _ in range(2):
        layer.ResetReading()
        got = [[row.GetField(name) for name in ("feature", *PLACE)] for row in layer]
        wants(f"the findings in {path}", got, [[it[name] for name in ("feature", *PLACE)] for it in features])


# Broken features, with the id and the point of each.
MADE = (
    (r'{"type":"Feature","id":"a\"ž","geometry":{"type":"Point","coordinates":[17.5,-48e0]}}', ('a\\"ž', "G7", "POINT (17.5 -48)")),
    ('{"id":12,"geometry":{"coordinates" : [ [\n[1.5, 2.5],7]]}}', ("12", "G2", "POINT (1.5 2.5)")),
    ('{"coordinates":[1e999,2],"id" : null}', ("null", "G2", None)),
    ("7", (None, "G1", None)),
)


def made():
    """Ids and points, and more findings than are in memory at a time."""
    count = 70_000
    with tempfile.NamedTemporaryFile("w", suffix=".geojson", encoding="utf-8") as file:
        valid = '{"type":"Feature","geometry":null,"properties":{}}'
        file.write('{"type":"FeatureCollection","features":[' + ",".join([*(text for text, _ in MADE), valid, *["{}"] * count]) + "]}")
        file.flush()
        # GDAL closes a source that nothing holds, and its layers with it.
        source = ogr.Open(f"GEOLINT:{file.name}")
        layer = source.GetLayerByName("findings")
        for row, (text, due) in zip(layer, MADE):
            point = row.geometry()
            wants(text, (row.GetField("id"), row.GetField("code"), point and point.ExportToWkt()), due)
        layer.ResetReading()
        numbers = [*range(len(MADE)), *range(len(MADE) + 1, len(MADE) + 1 + count)]
        wants("many findings", [row.GetField("feature") for row in layer], numbers)


def missing():
    try:
        got = ogr.Open("GEOLINT:/no/such.geojson")
    except RuntimeError:
        got = None
    wants("no file", got, None)


for path in sys.argv[2:]:
    compare(sys.argv[1], path)
made()
missing()
sys.exit(ended())
