"""Says which features are broken of a GeoJSON layer that is opened."""

import os

from qgis.core import Qgis, QgsApplication, QgsProject, QgsProviderRegistry, QgsTask
from qgis.PyQt.QtWidgets import QPushButton

from .findings import Reading, has_many_texts
from .texts import message_on, say

# So many broken features are named.
_NAMED = 5


def file_of(layer):
    """The path of a layer's file; an empty text where it has none."""
    if layer is None or layer.providerType() != "ogr":
        return ""
    path = QgsProviderRegistry.instance().decodeUri("ogr", layer.source()).get("path") or ""
    return path if os.path.isfile(path) else ""


def _is_geojson(layer, path):
    provider = layer.dataProvider()
    return bool(path) and (path.lower().endswith(".geojson") or has_many_texts(path) or (provider is not None and provider.storageType() == "GeoJSON"))


class _Check(QgsTask):
    """Reads a file beside the window, and calls `told` with what is to be said, if anything is."""

    def __init__(self, path, told):
        super().__init__(say("checking", name=os.path.basename(path)), QgsTask.CanCancel)
        self.path, self._told, self._said = path, told, None

    def _goes_on(self, share):
        self.setProgress(100 * share)
        return not self.isCanceled()

    def run(self):
        reading = Reading(self.path, goes_on=self._goes_on)
        try:
            rows = reading.first(_NAMED)
            if rows and not self.isCanceled():
                self._said = message_on(reading, rows)
        except OSError:
            return False
        return True

    def finished(self, is_done):
        if is_done and self._said and not self.isCanceled():
            self._told(self.path, self._said)


class Watch:
    """Checks the files of layers as they are added to the project. `show` is called with the path of one whose message is clicked."""

    def __init__(self, bar, show):
        self._bar, self._show, self._tasks = bar, show, []
        QgsProject.instance().layersAdded.connect(self._added)

    def stop(self):
        QgsProject.instance().layersAdded.disconnect(self._added)
        for task in self._tasks:
            task.cancel()

    def _added(self, layers):
        paths = [path for path, layer in ((file_of(it), it) for it in layers) if _is_geojson(layer, path)]
        for path in dict.fromkeys(paths):
            task = _Check(path, self._tell)
            self._tasks.append(task)
            task.taskCompleted.connect(lambda task=task: self._tasks.remove(task))
            task.taskTerminated.connect(lambda task=task: self._tasks.remove(task))
            QgsApplication.taskManager().addTask(task)

    def _tell(self, path, said):
        message = self._bar.createMessage(os.path.basename(path), said)
        button = QPushButton(say("show"), message)
        button.clicked.connect(lambda: self._show(path))
        message.layout().addWidget(button)
        self._bar.pushWidget(message, Qgis.Warning)
