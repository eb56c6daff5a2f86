"""geolint for Django: a validator of fields, and an upload handler that checks files while they come.

    class Survey(models.Model):
        file = models.FileField(validators=[GeoJSONValidator()])
        area = models.TextField(validators=[GeoJSONValidator(strict=True)])

    # settings.py: before the handlers that store
    FILE_UPLOAD_HANDLERS = ["geolint.django.GeoJSONUploadHandler", *global_settings.FILE_UPLOAD_HANDLERS]
"""

from __future__ import annotations

from typing import Any, Dict, Optional

from django.core.exceptions import ValidationError
from django.core.files.uploadhandler import FileUploadHandler, SkipFile
from django.utils.deconstruct import deconstructible

from . import Linter, Verdict, report
from ._demands import Demands


def _source(value: Any) -> Any:
    """The source that a field's value is: a text, bytes, or a file, which is read from its start."""
    if isinstance(value, (str, bytes)) or not hasattr(value, "seek"):
        return value
    value.seek(0)
    return value


@deconstructible
class GeoJSONValidator(Demands):
    """A field holds a GeoJSON text (RFC 7946): of a form or a model, for files, texts and bytes.

    With `strict`, a text with warnings does not pass, but for the kinds in `allow`, such as (4, 9), and never with one in `deny`. The
    error has the code "invalid_geojson", or "geojson_warning", and what is wrong in its params: code, text, place, line, column and path.
    """

    message = "%(where)s: %(code)s: %(text)s%(at)s"

    def __call__(self, value: Any) -> None:
        found = report(_source(value), self.max_depth, self.max_bytes)
        if hasattr(value, "seek"):
            value.seek(0)
        verdict = found.verdict
        if not verdict:
            where = f"line {found.line}, column {found.column}" if found.line else f"byte {verdict.place}"
            placed = {"place": verdict.place, "line": found.line, "column": found.column, "path": found.path}
            raise self.error("invalid_geojson", where, {"code": verdict.code, "text": verdict.text, **placed})
        for w in self.failing(verdict):
            placed = {"place": w.first, "line": None, "column": None, "path": None}
            raise self.error("geojson_warning", f"byte {w.first}", {"code": f"W{w.kind}", "text": w.text, **placed})

    def error(self, code: str, where: str, params: Dict[str, Any]) -> Any:
        at = f" ({params['path']})" if params["path"] else ""
        return ValidationError(self.message, code, {**params, "where": where, "at": at})

    def __eq__(self, other: object) -> bool:
        return isinstance(other, GeoJSONValidator) and self.__dict__ == other.__dict__

    def __hash__(self) -> int:
        return hash((self.strict, self.allow, self.deny, self.max_depth, self.max_bytes))


class GeoJSONUploadHandler(FileUploadHandler):  # type: ignore[misc]
    """Checks each file of a form while it comes, and hands its bytes on to the handlers after it, which store them.

    The verdicts are in `request.geolint`, by the name of the field, once the form has been read: of several files of one field that of
    the first that is not valid, else of the first with warnings. A file that is refused while it comes (a byte that no JSON text has
    there, or more than `max_bytes`) is stored no further, and is not in `request.FILES`. One that is cut off or breaks a rule is there.
    """

    max_depth: Optional[int] = None
    max_bytes: Optional[int] = None

    def __init__(self, request: Any = None) -> None:
        super().__init__(request)
        self.linter = Linter(self.max_depth, self.max_bytes)
        self.verdicts: dict[str, Verdict] = {}

    def handle_raw_input(self, *words: Any, **named: Any) -> None:
        self.request.geolint = self.verdicts

    def new_file(self, *words: Any, **named: Any) -> None:
        super().new_file(*words, **named)
        self.linter.begin(self.max_depth, self.max_bytes)

    def receive_data_chunk(self, raw_data: bytes, start: int) -> bytes:
        if not self.linter.feed(raw_data):
            self.file_complete(start)
            raise SkipFile
        return raw_data

    def file_complete(self, file_size: int) -> None:
        verdict = self.linter.finish()
        before = self.verdicts.get(self.field_name, verdict)
        self.verdicts[self.field_name] = min(before, verdict, key=lambda it: (it.valid, not it.warnings))


__all__ = ["GeoJSONValidator", "GeoJSONUploadHandler"]
