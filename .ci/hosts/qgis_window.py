"""The plugin in the window of QGIS, which runs this by --code. The environment says ZIP, the plugin; SHOTS, the folder for pictures; and
TEXTS, what is to be seen, in JSON. Ends with status 0 where it is seen."""

import json
import os
import sys
import tempfile
import traceback

import pyplugin_installer
import qgis.utils
from processing.gui.AlgorithmDialog import AlgorithmDialog
from qgis.core import NULL, Qgis, QgsProject, QgsVectorLayer
from qgis.PyQt.QtCore import QEventLoop, QTimer
from qgis.PyQt.QtWidgets import QApplication, QPushButton
from qgis.utils import iface

TEXTS = json.loads(os.environ["TEXTS"])
SHOTS = os.environ["SHOTS"]
ROOM = tempfile.mkdtemp()
HEAD, VALID = '{"type":"FeatureCollection","features":[\n', '{"type":"Feature","id":"a1","geometry":{"type":"Point","coordinates":[17.1,48.1]},"properties":{"name":"Gate"}}'
BROKEN = '{"type":"Feature","id":"b7","geometry":{"type":"Point","coordinates":[17.2,48.2]},"properties":["Wells"]}'
LINE = '{"type":"Feature","geometry":{"type":"LineString","coordinates":[[17,48],[18,49]]},"properties":null}'


def fail(*error):
    traceback.print_exception(*error)
    sys.stderr.flush()
    os._exit(1)


def wait(milliseconds):
    loop = QEventLoop()
    QTimer.singleShot(milliseconds, loop.quit)
    loop.exec_()


def until(true, what):
    for _ in range(150):
        if found := true():
            return found
        wait(200)
    raise AssertionError(f"not seen: {what}")


def shot(name):
    wait(1000)
    QApplication.primaryScreen().grabWindow(0).save(f"{SHOTS}/{name}.png")


def written(name, text):
    path = f"{ROOM}/{name}"
    with open(path, "w", encoding="utf-8") as file:
        file.write(text)
    return path


def messages():
    return [it for it in iface.messageBar().items() if it.level() == Qgis.Warning]


def layers():
    return {it.name(): it for it in QgsProject.instance().mapLayers().values()}


def run_dialog():
    """Runs what the dialog of the algorithm shows, and closes it."""
    dialog = until(lambda: next((it for it in QApplication.topLevelWidgets() if isinstance(it, AlgorithmDialog) and it.isVisible()), None), "the dialog")
    shot("dialog")
    assert dialog.windowTitle().lower() == TEXTS["command"].lower(), dialog.windowTitle()
    dialog.runButton().click()
    until(lambda: TEXTS["broken"] in layers(), "the layer of broken features")
    wait(500)
    dialog.close()


def main():
    installer = pyplugin_installer.instance()
    installer.installFromZipFile(os.environ["ZIP"])
    assert "geolint_qgis" in qgis.utils.active_plugins, qgis.utils.active_plugins
    plugin = qgis.utils.plugins["geolint_qgis"]
    command, on_opening = plugin._actions
    assert (command.text(), on_opening.isChecked()) == (TEXTS["command"], True)

    iface.addVectorLayer(written("valid.geojson", f"{HEAD}{VALID}]}}"), "valid", "ogr")
    wait(2000)
    assert not messages(), "a message about a valid file"
    iface.addVectorLayer(written("survey.geojson", f"{HEAD}{VALID},\n{BROKEN},\n{VALID}\n]}}"), "survey", "ogr")
    (message,) = until(messages, "a message about a broken file")
    assert message.text() == TEXTS["message"], message.text()
    shot("opened")

    QTimer.singleShot(500, lambda: guarded(run_dialog))
    message.findChild(QPushButton).click()
    table = layers()[TEXTS["broken"]]
    (row,) = table.getFeatures()
    assert row.attributes()[:5] == [1, "b7", NULL, "G18", TEXTS["rule"]] and row.geometry().asWkt(3) == "Point (17.2 48.2)", row.attributes()
    assert layers()[TEXTS["valid"]].featureCount() == 2
    shot("layers")
    iface.showAttributeTable(table)
    shot("table")

    QgsProject.instance().clear()
    iface.messageBar().clearWidgets()
    import processing
    processing.runAndLoadResults("geolint:check", {"INPUT": written("mixed.geojson", f"{HEAD}{VALID},{LINE}]}}"), "OUTPUT": "TEMPORARY_OUTPUT", "VALID": "TEMPORARY_OUTPUT"})
    kinds = sorted(it.featureCount() for name, it in layers().items() if name.startswith(TEXTS["valid"]))
    assert kinds == [1, 1], layers()

    # A layer of a project whose file QGIS cannot read.
    QgsProject.instance().addMapLayer(QgsVectorLayer(written("page.geojson", "<html></html>"), "page", "ogr"))
    (message,) = until(messages, "a message about a file that cannot be read")
    assert message.text().endswith(TEXTS["place"]), message.text()
    iface.messageBar().clearWidgets()

    on_opening.setChecked(False)
    iface.addVectorLayer(f"{ROOM}/survey.geojson", "unchecked", "ogr")
    wait(2000)
    assert not messages(), "a message that nobody wants"
    on_opening.setChecked(True)
    assert qgis.utils.unloadPlugin("geolint_qgis") and command not in iface.vectorMenu().actions()
    iface.addVectorLayer(f"{ROOM}/survey.geojson", "unloaded", "ogr")
    wait(1000)
    assert not messages(), "a message of a plugin that is gone"
    print("seen")
    sys.stdout.flush()
    os._exit(0)


def guarded(what):
    try:
        what()
    except BaseException:
        fail(*sys.exc_info())


# What goes wrong ends this, and opens no window.
qgis.utils.uninstallErrorHook()
sys.excepthook = fail
QTimer.singleShot(3000, lambda: guarded(main))
