#!/usr/bin/env python3
# gdal: DRIVER_NAME = "GEOLINT"
# gdal: DRIVER_SUPPORTED_API_VERSION = [1]
# gdal: DRIVER_DCAP_VECTOR = "YES"
# gdal: DRIVER_DMD_LONGNAME = "What is found in a GeoJSON file (geolint)"
# gdal: DRIVER_DMD_CONNECTION_PREFIX = "GEOLINT:"
"""A driver of GDAL: GEOLINT:FILE has the layers `findings`, a row for each broken feature, and `report`, a row for the file. See
README.md."""

import itertools
import os
from pathlib import Path

import geolint
from gdal_python_driver import BaseDataset, BaseDriver, BaseLayer
from geolint._known import known_of

PREFIX = "GEOLINT:"
# So many findings are in memory at a time. The file is read once for all of them, and once more for each so many.
AT_ONCE = 65536

WHY = {"code": "String", "text": "String"}
WHERE = {"offset": "Integer64", "line": "Integer64", "column": "Integer64", "path": "String"}


class Layer(BaseLayer):
    """A layer of rows, each a point as text, or None, and the values of its fields."""

    def __init__(self, path, name, fields, geometry_fields):
        self.path, self.name, self.geometry_fields = Path(path), name, geometry_fields
        self.fields = [{"name": name, "type": kind} for name, kind in fields.items()]

    def rows(self):
        raise NotImplementedError

    def __iter__(self):
        for number, (point, values) in enumerate(self.rows(), 1):
            points = {"": point} if self.geometry_fields else {}
            yield {"type": "OGRFeature", "id": number, "fields": values, "geometry_fields": points, "style": None}


class Findings(Layer):
    def __init__(self, path):
        fields = {"feature": "Integer64", "id": "String", **WHY, **WHERE}
        super().__init__(path, "findings", fields, [{"name": "", "type": "Point", "srs": "EPSG:4326"}])

    def rows(self):
        broken = (it for it in geolint.features(self.path) if not it)
        with open(self.path, "rb") as file:
            while found := list(itertools.islice(broken, AT_ONCE)):
                places = {it.offset: it for it in geolint.locate(self.path, [it.verdict.place for it in found])}
                for it in found:
                    yield self.row(file, it, places[it.verdict.place])

    @staticmethod
    def row(file, found, place):
        known = known_of(file, found)
        values = {
            "feature": found.number,
            "id": known.id,
            "code": found.verdict.code,
            "text": found.verdict.text,
            **vars(place),
        }
        return known.position and "POINT ({} {})".format(*known.position), values


class Report(Layer):
    def __init__(self, path):
        super().__init__(path, "report", {"verdict": "String", **WHY, **WHERE, "hint": "String"}, [])

    def rows(self):
        it = geolint.report(self.path)
        verdict = {"verdict": it.verdict.name, "code": it.verdict.code, "text": it.verdict.text, "offset": it.verdict.place}
        yield None, {**verdict, "line": it.line, "column": it.column, "path": it.path, "hint": it.hint}


class Dataset(BaseDataset):
    def __init__(self, path):
        self.layers = [Findings(path), Report(path)]


class Driver(BaseDriver):
    def identify(self, filename, first_bytes, open_flags, open_options={}):
        return filename.startswith(PREFIX)

    def open(self, filename, first_bytes, open_flags, open_options={}):
        path = filename[len(PREFIX):]
        return Dataset(path) if os.path.isfile(path) else None
