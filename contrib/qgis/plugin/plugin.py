"""Adds geolint to Processing, to the menu Vector, and to the opening of layers."""

from qgis.core import QgsApplication, QgsSettings
from qgis.PyQt.QtWidgets import QAction

from .opened import Watch, file_of
from .provider import Provider
from .texts import say

_MENU = "geolint"
_ON_OPENING = "geolint/onOpening"


class Plugin:
    def __init__(self, iface):
        self.iface, self._provider, self._actions, self._watch = iface, None, [], None

    def initProcessing(self):
        self._provider = Provider()
        QgsApplication.processingRegistry().addProvider(self._provider)

    def initGui(self):
        self.initProcessing()
        self._add(say("command")).triggered.connect(lambda: self.check(file_of(self.iface.activeLayer())))
        on_opening = self._add(say("onOpening"))
        on_opening.setCheckable(True)
        on_opening.toggled.connect(self.watch)
        on_opening.setChecked(QgsSettings().value(_ON_OPENING, True, type=bool))

    def _add(self, text):
        action = QAction(text, self.iface.mainWindow())
        self.iface.addPluginToVectorMenu(_MENU, action)
        self._actions.append(action)
        return action

    def check(self, path):
        """Opens the dialog of the algorithm for a file."""
        import processing

        processing.execAlgorithmDialog("geolint:check", {"INPUT": path} if path else {})

    def watch(self, is_on):
        """Checks layers as they are opened, or no longer."""
        QgsSettings().setValue(_ON_OPENING, is_on)
        if self._watch:
            self._watch.stop()
        self._watch = Watch(self.iface.messageBar(), self.check) if is_on else None

    def unload(self):
        if self._watch:
            self._watch.stop()
        for action in self._actions:
            self.iface.removePluginVectorMenu(_MENU, action)
        QgsApplication.processingRegistry().removeProvider(self._provider)
