"""What the plugin says, in the language of QGIS: English, or German. texts.json has what geolint says elsewhere too; `make qgis` writes it."""

import json
import os

from qgis.core import QgsApplication

_OWN = {
    "en": {
        "command": "Check a GeoJSON file",
        "help": "Is a file GeoJSON (RFC 7946)? Each feature that breaks a rule is a row, with the rule, line, column and path, and a point at its first "
        "position that can be read. The features without a fault go to a file, and to layers. Of text sequences (.geojsons) and newline-delimited "
        "files (.geojsonl, .ndjson) each text is checked.",
        "INPUT": "File",
        "files": "GeoJSON",
        "allFiles": "All files",
        "WARNINGS": "List warnings too",
        "OUTPUT": "Broken features",
        "VALID": "Features without a fault",
        "sequence": "GeoJSON text sequence",
        "REPORT": "Report",
        "COUNT": "Number of features or texts",
        "BROKEN": "Number of those that are broken",
        "onOpening": "Check GeoJSON layers as they are opened",
        "checking": "Checking {name}",
        "which": "Counted from {first}: {them}",
        "itself": "The features without a fault cannot replace the file itself.",
        "show": "Show",
    },
    "de": {
        "command": "Eine GeoJSON-Datei prüfen",
        "help": "Ist eine Datei GeoJSON (RFC 7946)? Jedes Feature, das eine Regel verletzt, ist eine Zeile mit Regel, Zeile, Spalte und Pfad, und ein Punkt an "
        "seiner ersten lesbaren Position. Die Features ohne Fehler kommen in eine Datei und in Layer. In Textfolgen (.geojsons) und zeilenweisen "
        "Dateien (.geojsonl, .ndjson) wird jeder Text geprüft.",
        "INPUT": "Datei",
        "files": "GeoJSON",
        "allFiles": "Alle Dateien",
        "WARNINGS": "Auch Warnungen auflisten",
        "OUTPUT": "Features mit Fehlern",
        "VALID": "Features ohne Fehler",
        "sequence": "GeoJSON-Textfolge",
        "REPORT": "Bericht",
        "COUNT": "Anzahl der Features oder Texte",
        "BROKEN": "Anzahl derer mit Fehlern",
        "onOpening": "GeoJSON-Layer beim Öffnen prüfen",
        "checking": "{name} wird geprüft",
        "which": "Gezählt von {first} an: {them}",
        "itself": "Die Features ohne Fehler können nicht die Datei selbst ersetzen.",
        "show": "Zeigen",
    },
}
with open(os.path.join(os.path.dirname(__file__), "texts.json"), encoding="utf-8") as file:
    _SHARED = json.load(file)


def _table():
    language = "de" if QgsApplication.instance().locale().startswith("de") else "en"
    return {**_SHARED[language], **_OWN[language]}


def say(name, /, **values):
    """A text by its name, as sentence.valid, with {..} filled in. One of several forms goes by `count`."""
    text = _table()
    for step in name.split("."):
        text = text[step]
    if isinstance(text, dict):
        text = text["one" if values["count"] == 1 else "other"]
    return text.format(**values)


def rule(code):
    """What is wrong by a rule, and how to mend it."""
    return _table()["rules"][code]


def _counted(reading):
    return say("recordsBroken" if reading.framing else "featuresBroken", count=reading.broken, all=reading.count)


def _whole(reading):
    verdict = reading.verdict
    if verdict.code:
        return say("sentence.broken" if verdict.rule else "sentence.notJson", what=rule(verdict.code)[0])
    if reading.framing:
        return say("sentence.validMany", count=reading.count)
    return say("sentence.warned", count=len(verdict.warnings)) if verdict.warnings else say("sentence.valid")


def _spot(line, column, path):
    return say("where", line=line, column=column) + (f", {path}" if path else "")


def report_on(reading):
    """The report on a file that was read, in lines."""
    lines = [_whole(reading)]
    if not reading.framing:
        found, hints = reading.report(), _table()["hints"]
        if found.line:
            lines.append(_spot(found.line, found.column, found.path))
        if found.hint:
            lines.append(f"{say('hint')} {hints.get(found.hint, found.hint)}")
    lines += [f"W{w.kind}: {rule(f'W{w.kind}')[0]} ({w.count})" for w in reading.verdict.warnings]
    return "\n".join([*lines, _counted(reading)])


def message_on(reading, rows):
    """What is said of a file with broken features, of which the first rows are given, or with another fault."""
    first = rows[0]
    if first.number is None:
        return f"{_whole(reading)} {_spot(first.line, first.column, first.path)}"
    called = ((row.number, row.known.name or row.known.id) for row in rows if row.number is not None)
    them = ", ".join(f"{number} ({name})" if name else f"{number}" for number, name in called)
    more = ", …" if reading.broken > len(rows) else ""
    return f"{_counted(reading)} {say('which', first=1 if reading.framing else 0, them=them + more)}"
