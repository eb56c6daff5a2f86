"""What Processing lists as `geolint`."""

from qgis.core import QgsProcessingProvider

from .algorithm import Check


class Provider(QgsProcessingProvider):
    def id(self):
        return "geolint"

    def name(self):
        return "geolint"

    def loadAlgorithms(self):
        self.addAlgorithm(Check())
