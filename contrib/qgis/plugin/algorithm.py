"""The algorithm of Processing: a row for each broken feature, and the features without a fault."""

import os
from contextlib import nullcontext

from qgis.core import (
    Qgis,
    QgsCoordinateReferenceSystem,
    QgsFeature,
    QgsFeatureSink,
    QgsField,
    QgsFields,
    QgsGeometry,
    QgsPointXY,
    QgsProcessing,
    QgsProcessingAlgorithm,
    QgsProcessingContext,
    QgsProcessingException,
    QgsProcessingOutputNumber,
    QgsProcessingOutputString,
    QgsProcessingParameterBoolean,
    QgsProcessingParameterFeatureSink,
    QgsProcessingParameterFile,
    QgsProcessingParameterFileDestination,
    QgsProviderRegistry,
    QgsWkbTypes,
)
from qgis.PyQt.QtCore import QVariant

from .findings import Reading
from .texts import report_on, rule, say

_TEXTS = ("id", "name", "rule", "text", "mend", "path")
_FIELDS = ("number", "id", "name", "rule", "text", "mend", "line", "column", "path")
_WHITE = b" \t\r\n"
_ENDINGS = "*.geojson *.json *.geojsons *.geojsonseq *.geojsonl *.ndjson *.ndgeojson *.jsonl"


def _fields():
    fields = QgsFields()
    for name in _FIELDS:
        fields.append(QgsField(name, QVariant.String if name in _TEXTS else QVariant.LongLong))
    return fields


def _feature(fields, row):
    feature = QgsFeature(fields)
    feature.setAttributes([row.number, row.known.id, row.known.name, row.code, *rule(row.code), row.line, row.column, row.path])
    if row.known.position:
        feature.setGeometry(QgsGeometry.fromPointXY(QgsPointXY(*row.known.position)))
    return feature


class Check(QgsProcessingAlgorithm):
    def name(self):
        return "check"

    def displayName(self):
        return say("command")

    def shortHelpString(self):
        return say("help")

    def createInstance(self):
        return Check()

    def initAlgorithm(self, configuration=None):
        filters = f"{say('files')} ({_ENDINGS});;{say('allFiles')} (*)"
        self.addParameter(QgsProcessingParameterFile("INPUT", say("INPUT"), fileFilter=filters))
        self.addParameter(QgsProcessingParameterBoolean("WARNINGS", say("WARNINGS"), False))
        self.addParameter(QgsProcessingParameterFeatureSink("OUTPUT", say("OUTPUT"), QgsProcessing.TypeVectorPoint))
        sequence = f"{say('sequence')} (*.geojsons)"
        self.addParameter(QgsProcessingParameterFileDestination("VALID", say("VALID"), sequence, optional=True))
        for name in ("COUNT", "BROKEN"):
            self.addOutput(QgsProcessingOutputNumber(name, say(name)))
        self.addOutput(QgsProcessingOutputString("REPORT", say("REPORT")))

    def processAlgorithm(self, parameters, context, feedback):
        path = self.parameterAsFile(parameters, "INPUT", context)
        wants_warnings = self.parameterAsBoolean(parameters, "WARNINGS", context)
        valid = self.parameterAsFileOutput(parameters, "VALID", context)
        fields = _fields()
        sink, output = self.parameterAsSink(parameters, "OUTPUT", context, fields, QgsWkbTypes.Point, QgsCoordinateReferenceSystem("EPSG:4326"))
        if sink is None:
            raise QgsProcessingException(self.invalidSinkError(parameters, "OUTPUT"))

        def goes_on(share):
            feedback.setProgress(100 * share)
            return not feedback.isCanceled()

        try:
            if valid and os.path.exists(valid) and os.path.samefile(valid, path):
                raise QgsProcessingException(say("itself"))
            with open(valid, "wb") if valid else nullcontext() as out:
                reading = Reading(path, wants_warnings, out and (lambda text: out.write(b"\x1e" + text.rstrip(_WHITE) + b"\n")), goes_on)
                for row in reading.rows():
                    sink.addFeature(_feature(fields, row), QgsFeatureSink.FastInsert)
            if feedback.isCanceled():
                return {}
            said = report_on(reading)
        except OSError as error:
            raise QgsProcessingException(str(error)) from error
        feedback.pushInfo(said)
        if valid:
            self._load(valid, context)
        return {"OUTPUT": output, "VALID": valid, "COUNT": reading.count, "BROKEN": reading.broken, "REPORT": said}

    @staticmethod
    def _load(path, context):
        """Has a layer made for each kind of geometry."""
        layers = QgsProviderRegistry.instance().querySublayers(path, Qgis.SublayerQueryFlag.ResolveGeometryType)
        for it in layers:
            kind = f": {QgsWkbTypes.geometryDisplayString(QgsWkbTypes.geometryType(it.wkbType()))}" if len(layers) > 1 else ""
            details = QgsProcessingContext.LayerDetails(say("VALID") + kind, context.project(), "VALID")
            context.addLayerToLoadOnCompletion(it.uri(), details)
