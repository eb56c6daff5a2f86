"""What the algorithm geolint:check makes of files beside what geolint-files says, without a window: qgis_rows.py PLUGINS PROGRAM FILE..

PLUGINS is the folder in which the plugin lies."""

import json
import os
import subprocess
import sys
import tempfile

from checks import ended, wants
from qgis.core import NULL, QgsApplication, QgsProcessingException, QgsProcessingFeedback, QgsVectorLayer
from qgis.PyQt.QtCore import QLocale

plugins, program, *paths = sys.argv[1:]
application = QgsApplication([], False)
application.initQgis()
sys.path[:0] = [plugins, "/usr/share/qgis/python/plugins"]
import processing  # noqa: E402
from geolint_qgis.plugin import Plugin  # noqa: E402
from geolint_qgis.texts import rule  # noqa: E402
from processing.core.Processing import Processing  # noqa: E402

Processing.initialize()
plugin = Plugin(None)
plugin.initProcessing()
room = tempfile.TemporaryDirectory()
PLACE = ("number", "rule", "line", "column", "path")


def check(path, feedback=None, **words):
    got = processing.run("geolint:check", {"INPUT": path, "OUTPUT": "TEMPORARY_OUTPUT", **words}, feedback=feedback)
    rows = [{name: None if row[name] == NULL else row[name] for name in row.fields().names()} for row in got["OUTPUT"].getFeatures()]
    return got, rows


def told(path, every):
    """What the program says: of the file, and of each feature."""
    done = subprocess.run([program, every, "--most", "0", "--format", "json", path], stdout=subprocess.PIPE, check=False)
    return [json.loads(line) for line in done.stdout.splitlines()]


def elements(path):
    """The elements of `features` as Python reads them; None where it reads none."""
    with open(path, encoding="utf-8") as file:
        text = file.read()
    try:
        return json.loads(text)["features"]
    except (ValueError, KeyError, TypeError):
        return None


def compare(path, warnings):
    """The rows, and the features without a fault."""
    valid = f"{room.name}/valid.geojsons"
    got, rows = check(path, WARNINGS=warnings, VALID=valid)
    report, *found = told(path, "--every=warnings" if warnings else "--every")
    due = [(it["feature"], it["rule"], it["line"], it["column"], it["json_path"]) for it in found]
    if report["rule"] and (report["line"], report["column"]) not in {it[2:4] for it in due}:
        due.append((None, report["rule"], report["line"], report["column"], report["json_path"]))
    wants(f"the rows of {path}", [tuple(row[name] for name in PLACE) for row in rows], due)
    wants(f"the texts of {path}", [(row["text"], row["mend"]) for row in rows], [tuple(rule(it[1])) for it in due])
    broken = {it["feature"] for it in found if it["rule"][0] == "G"}
    wants(f"the count of {path}", got["BROKEN"], len(broken))
    if (features := elements(path)) is not None:
        wants(f"the number of features in {path}", got["COUNT"], len(features))
        with open(valid, encoding="utf-8") as file:
            kept = [json.loads(text) for text in file.read().split("\x1e")[1:]]
        wants(f"what is kept of {path}", kept, [it for number, it in enumerate(features) if number not in broken])
    head, *lines = got["REPORT"].splitlines()
    wants(f"the report on {path}", head.startswith({"valid": "Valid", "broken": "Not valid", "not JSON": "Not GeoJSON"}[report["verdict"]]), True)
    if report["line"]:
        wants(f"the place in the report on {path}", f"Line {report['line']}, column {report['column']}" in lines[0], True)


def written(name, text):
    path = f"{room.name}/{name}"
    with open(path, "w", encoding="utf-8", newline="") as file:
        file.write(text)
    return path


def records():
    """Each text of a file of many: its number, and where it is broken, from its own beginning."""
    point, ring = '{"type":"Point","coordinates":[1,2]}', '{"type":"Polygon","coordinates":[[[5,6],[1,0],[1,1],[0,1]]]}'
    for path in (written("some.ndjson", f"{ring}\n{point}\n{ring}\n\n"), written("some.geojsons", f"\x1e{ring}\n\x1e{point}\n\x1e{ring}\n")):
        valid = f"{room.name}/valid.geojsons"
        got, rows = check(path, VALID=valid)
        due = [(number, "G15", line, 2 - (path[-1] == "n") + 33, "$.coordinates[0]") for number, line in ((1, 1), (3, 3))]
        wants(f"the rows of {path}", [tuple(row[name] for name in PLACE) for row in rows], due)
        wants(f"the report on {path}", got["REPORT"].splitlines()[-1], "2 of 3 texts are not valid.")
        with open(valid, encoding="utf-8") as file:
            wants(f"what is kept of {path}", file.read(), f"\x1e{point}\n")


def many():
    """More findings than are in memory at a time, and what features are known by."""
    known = '{"type":"Feature","id":"a\\"ž","geometry":{"type":"Point","coordinates":[17.5,-48e0]}},{"id":12,"properties":{"name":"Yard"},"coordinates":[1e999,2]}'
    count = 70_000
    path = written("many.geojson", '{"type":"FeatureCollection","features":[' + ",".join([known, *["{}"] * count]) + "]}")
    got, rows = check(path)
    wants("many findings", [row["number"] for row in rows], [*range(count + 2)])
    wants("what they are known by", [(row["id"], row["name"]) for row in rows[:3]], [('a\\"ž', None), ("12", "Yard"), (None, None)])
    points = [it.geometry().asWkt() for it in got["OUTPUT"].getFeatures()][:3]
    wants("their points", points, ["Point (17.5 -48)", "", ""])


def refused(name, words, due):
    try:
        got = check(**words)[0]
    except QgsProcessingException as error:
        got = str(error)
    wants(name, due in str(got), True)


class Cancelled(QgsProcessingFeedback):
    def isCanceled(self):
        return True


def others():
    valid = f"{room.name}/lone.geojsons"
    check(written("none.geojson", '{"type":"FeatureCollection","features":[]}'), VALID=valid)
    wants("no feature", os.path.getsize(valid), 0)
    lone = written("lone.geojson", ' {"type":"Point","coordinates":[1,2]}\n')
    got, _ = check(lone, VALID=valid)
    wants("a geometry alone", (got["COUNT"], QgsVectorLayer(valid, "valid", "ogr").featureCount()), (0, 1))
    wants("one that is cancelled", processing.run("geolint:check", {"INPUT": lone, "OUTPUT": "TEMPORARY_OUTPUT"}, feedback=Cancelled()), {})
    refused("no file", {"path": "/no/such.geojson"}, "No such file")
    refused("the file itself", {"path": lone, "VALID": lone}, "cannot replace")
    with open(lone, encoding="utf-8") as file:
        wants("the file is as it was", file.read(), ' {"type":"Point","coordinates":[1,2]}\n')
    packed = written("page.geojson", "<html></html>")
    wants("a hint", check(packed)[0]["REPORT"].splitlines()[2], "It looks as if the file is a web page, perhaps one that says why a download failed or asks to log in. Fetch the file again.")
    QgsApplication.setLocale(QLocale("de_AT"))
    wants("German", check(packed)[0]["REPORT"].splitlines()[0], "Kein GeoJSON, denn es ist nicht einmal JSON. Das Zeichen hier kann dort nicht stehen.")


for path in paths:
    for warnings in (False, True):
        compare(path, warnings)
records()
many()
others()
status = ended()
sys.stdout.flush()
# QGIS does not always get through its end.
os._exit(status)
