"""What the service answers: JSON for a program, a page for a person."""

import json
from html import escape
from typing import TYPE_CHECKING, Any, Dict, List, Union

if TYPE_CHECKING:
    from app import Outcome

_HEAD = """<!DOCTYPE html>
<html lang="en"><head><meta charset="utf-8"><meta name="viewport" content="width=device-width"><title>{title}</title>
<style>body {{ font: 1em/1.5 sans-serif; max-width: 60em; margin: 2em auto; padding: 0 1em }}
table {{ border-collapse: collapse }} td, th {{ border: 1px solid #999; padding: .2em .6em; text-align: left }}
code {{ font-size: .95em }} textarea {{ width: 100% }}</style></head><body>
"""
_BUTTONS = """<button>Check and store it</button> <button formaction="?strict">Check and store it, if it has no warnings</button>"""
_FORM = f"""<h1>Is it GeoJSON?</h1>
<p>This is an example of a service, which comes with geolint.</p>
<form method="post" enctype="multipart/form-data">
<p><label>A GeoJSON file: <input type="file" name="file" required></label> {_BUTTONS}</p></form>
<form method="post"><p><label>Or its text:<br><textarea name="text" rows="12" required></textarea></label><br>
{_BUTTONS}</p></form></body></html>
"""


def accepts_html(accept: str) -> bool:
    """Whether a page is preferred to JSON, by the weights of RFC 9110, section 12.5.1."""
    weights: Dict[str, float] = {}
    for part in accept.lower().split(","):
        kind, *parameters = (word.strip() for word in part.split(";"))
        weight = [word[2:] for word in parameters if word.startswith("q=")]
        try:
            weights[kind] = float(weight[0]) if weight else 1.0
        except ValueError:
            continue
    return weights.get("text/html", 0.0) > weights.get("application/json", 0.0)


def _fault(verdict: Any, outcome: "Outcome") -> Dict[str, Any]:
    place = outcome.places.get(verdict.place) if verdict.place is not None else None
    found = {"code": verdict.code, "text": verdict.text, "offset": verdict.place}
    if place is not None:
        found.update(line=place.line, column=place.column, path=place.path if verdict.rule else None)
    return found


def _told(outcome: "Outcome") -> Dict[str, Any]:
    verdict = outcome.verdict
    denied = [f"W{kind}" for kind in sorted(outcome.denied)]
    told: Dict[str, Any] = {"verdict": verdict.name, "strict": len(denied) == 9, "deny": denied, "stored": outcome.stored, "hint": outcome.hint}
    if verdict:
        told["warnings"] = [{"code": f"W{w.kind}", "text": w.text, "count": w.count, "first": w.first} for w in verdict.warnings]
        return told
    told.update(_fault(verdict, outcome))
    told["features"] = [
        {"feature": it.number, "id": outcome.ids.get(it.number), **_fault(it.verdict, outcome)} for it in outcome.broken
    ]
    told["more"] = outcome.broken_count - len(outcome.broken)
    return told


def as_json(found: "Union[Outcome, str]") -> str:
    """An outcome, or why there is none."""
    told = {"error": found} if isinstance(found, str) else _told(found)
    return json.dumps(told, ensure_ascii=False) + "\n"


def form_page() -> str:
    return _HEAD.format(title="Is it GeoJSON?") + _FORM


def _row(cells: List[Any], tag: str = "td") -> str:
    return f"<tr>{''.join(f'<{tag}>{escape(str(cell))}</{tag}>' for cell in cells)}</tr>\n"


def _where(fault: Dict[str, Any]) -> str:
    path = f", <code>{escape(fault['path'])}</code>" if fault.get("path") else ""
    return f"line {fault['line']}, column {fault['column']}{path}" if "line" in fault else f"byte {fault['offset']}"


def as_html(outcome: "Outcome") -> str:
    """The page that says what an upload is."""
    told = _told(outcome)
    title = "It is GeoJSON" if outcome.verdict else "It is not GeoJSON"
    page = [_HEAD.format(title=title), f"<h1>{title}</h1>\n"]
    if outcome.verdict:
        page.append(f"<p>It is stored as <code>{escape(told['stored'])}</code>.</p>\n" if outcome else "<p>It is not stored, for its warnings.</p>\n")
        page += [f"<p>Warning: {escape(w['text'])} ({w['code']}, {w['count']} times)</p>\n" for w in told["warnings"]]
    else:
        page.append(f"<p id='fault'>{escape(told['verdict'])}: {escape(told['text'])} ({told['code']}), at {_where(told)}.</p>\n")
    if told["hint"]:
        page.append(f"<p id='hint'>{escape(told['hint'])}</p>\n")
    if told.get("features"):
        page.append("<table>" + _row(["feature", "id", "rule", "what is wrong", "line", "column", "path"], "th"))
        for it in told["features"]:
            page.append(_row([it["feature"], it["id"] or "", it["code"], it["text"], it["line"], it["column"], it["path"]]))
        page.append("</table>\n" + (f"<p>and {told['more']} more</p>\n" if told["more"] else ""))
    return "".join([*page, "<p><a href='/'>Another one</a></p></body></html>\n"])
