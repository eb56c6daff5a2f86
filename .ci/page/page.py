#!/usr/bin/python3
"""Uses the page in a browser as its readers do: page.py chromium|firefox PAGE ROOM SHOTS.

PAGE is the page, ROOM a folder with what .ci/web made for it: large.geojson, trap.html, damaged.html, native.jsonl. Each check that
fails is a line; the last line is `N passed, M failed`. Pictures go to SHOTS."""

import json
import os
import re
import sys
import threading
from functools import partial
from http.server import SimpleHTTPRequestHandler, ThreadingHTTPServer
from pathlib import Path

from browsers import Chromium, Firefox

ROOT = Path(__file__).resolve().parents[2]
name, page, room, shots = sys.argv[1:]
page, room, shots = (Path(it).resolve() for it in (page, room, shots))
Kind = {"chromium": Chromium, "firefox": Firefox}[name]
passed = failed = 0

EXAMPLES = [str(it) for folder in ("examples", "examples/faulty") for it in sorted(ROOT.glob(f"{folder}/*.geojson"))]
DONE = "document.querySelectorAll('.card').length === {} && document.getElementById('run').hidden"
READY = "document.body && !document.getElementById('choose').disabled"
# The reading of a file has begun, which waits for a new worker after Stop.
BEGUN = "!document.getElementById('run').hidden && document.getElementById('bar').value > 0.02"
SENTENCE = "document.querySelector('.card:last-child .verdict').textContent"

# The least contrast of a text with what is behind it, and where.
CONTRAST = """(() => {
    const parse = (it) => it.match(/[\\d.]+/g).map(Number);
    const light = ([r, g, b]) => { const f = (c) => (c /= 255) <= 0.04045 ? c / 12.92 : ((c + 0.055) / 1.055) ** 2.4; return 0.2126 * f(r) + 0.7152 * f(g) + 0.0722 * f(b); };
    const behind = (it) => { for (; it; it = it.parentElement) { const [r, g, b, a = 1] = parse(getComputedStyle(it).backgroundColor); if (a === 1) return [r, g, b]; } return [255, 255, 255]; };
    let least = [99, ''];
    for (const it of document.querySelectorAll('body *')) {
        if (!it.checkVisibility() || ![...it.childNodes].some((n) => n.nodeType === 3 && n.textContent.trim()) || it.matches(':disabled, script, option')) continue;
        const [a, b] = [light(parse(getComputedStyle(it).color)), light(behind(it))].sort((x, y) => y - x);
        const ratio = (a + 0.05) / (b + 0.05);
        if (ratio < least[0]) least = [ratio, `${it.tagName} ${it.className} ${it.textContent.slice(0, 30)}`];
    }
    return JSON.stringify(least);
})()"""


ACCESS = (ROOT / ".ci/page/access.js").read_text()
# What can have the focus.
REACHED = "'button:not(:disabled), select, textarea, summary, a[href], [tabindex=\"0\"]'"

# The element that reaches furthest to the right.
WIDEST = """[...document.querySelectorAll('body *')].map((it) => [it.getBoundingClientRect().right, it.outerHTML.slice(0, 90)])
    .sort((a, b) => b[0] - a[0]).slice(0, 3).join(' | ') + ' of ' + innerWidth"""


def wants(what, is_right, got=""):
    global passed, failed
    if is_right:
        passed += 1
    else:
        failed += 1
        print(f"FAILED: {name}: {what}: {str(got)[:600]}")


def opened(browser, path=None):
    browser.navigate(path or f"file://{page}")
    browser.wait(READY)


def sorts(text):
    """The lines of a report as objects, without what the page does not tell: the folder of a file, also in a hint, and what stands at a place."""
    found = [json.loads(line) for line in text.splitlines()]
    for it in found:
        path, it["path"] = it["path"], os.path.basename(it["path"])
        if it.get("hint"):
            it["hint"] = it["hint"].replace(path, it["path"])
        for place in (it, *it.get("warnings", [])):
            place.pop("found", None)
    return found


PHONE = {"width": 360, "height": 740}
# The narrowest page that WCAG asks for (1.4.10).
NARROW = {"width": 320, "height": 640}


def is_open_to_all(browser, what):
    """What access.js finds, the contrast of texts, and that no width needs scrolling to the side, in the scheme of this browser."""
    for look, words in {"desk": {}, "phone": PHONE, "narrow": NARROW}.items():
        browser.look(**words)
        ratio, where = json.loads(browser.value(CONTRAST))
        wants(f"{what}, {look}: the contrast of texts", ratio >= 4.5, f"{ratio:.2f} {where}")
        problems = json.loads(browser.value(ACCESS))
        wants(f"{what}, {look}: nothing stands in the way", not problems, problems[:5])
        wants(f"{what}, {look}: no scrolling to the side", browser.value("document.documentElement.scrollWidth <= innerWidth"), browser.value(WIDEST))
    browser.look()
    if name == "chromium":
        wants(f"{what}: all has a name", not browser.unnamed(), browser.unnamed())


def by_tab(browser):
    """All that can be pressed is reached by the key Tab alone, and nothing holds the focus."""
    wanted = browser.value(f"[...document.querySelectorAll({REACHED})].filter((it) => it.checkVisibility({{ visibilityProperty: true }})).length")
    # From the first on: after the last, the focus may go to the browser itself.
    browser.value("(() => { const it = document.getElementById('language'); it.focus(); it.dataset.reached = 'yes'; })()")
    for _ in range(wanted + 3):
        browser.press("Tab")
        browser.value("document.activeElement.dataset.reached = 'yes'")
    got = browser.value(f"[...document.querySelectorAll({REACHED})].filter((it) => it.checkVisibility({{ visibilityProperty: true }}) && !it.dataset.reached).map((it) => it.outerHTML.slice(0, 80)).join()")
    wants(f"all {wanted} are reached by Tab", wanted > 5 and got == "", got)


def reports(browser):
    """Each example by the button, the report that is saved, and what is seen."""
    opened(browser)
    browser.choose("#files", EXAMPLES)
    browser.wait(DONE.format(len(EXAMPLES)))
    wanted = sorts((room / "native.jsonl").read_text())
    browser.value("document.getElementById('save-lines').click()")
    got = sorts(browser.downloaded("geolint-report.jsonl"))
    of_features = [it for it in got if "feature" in it]
    got = [it for it in got if "feature" not in it]
    wants("the saved lines are the native report", got == wanted, [(a, b) for a, b in zip(got, wanted) if a != b][:1])
    # Each of these files has one fault or one kind of warning, and where it lies in a feature it is reported there too.
    first = [{it["path"]: it for it in wanted}[it["path"]] for it in of_features]
    wants("with those of features", len(first) > 4 and all(a["offset"] == (b["offset"] if b["rule"] else b["warnings"][0]["offset"]) for a, b in zip(of_features, first)), of_features)
    browser.value("document.getElementById('save-sarif').click()")
    log = json.loads(browser.downloaded("geolint-report.sarif"))
    told = [(it["ruleId"], it["locations"][0]["physicalLocation"]["region"]["byteOffset"]) for it in log["runs"][0]["results"] if "properties" not in it]
    mine = [(f["rule"], f["offset"]) for it in wanted for f in ([it] if it["rule"] else it["warnings"])]
    wants("the saved log has each finding", told == mine and len(log["runs"][0]["tool"]["driver"]["rules"]) == 34, told)
    browser.value("document.getElementById('save-page').click()")
    printed = browser.downloaded("geolint-report.html")
    wants("the saved page has each file", all(os.path.basename(it) in printed for it in EXAMPLES) and "<script" not in printed, printed[:300])
    (room / "printed.html").write_text(printed.replace("</main>", "<script>document.title = 'it ran'</script></main>"))
    counts = browser.value("document.getElementById('counts').textContent")
    wants("the counts", counts == f"{len(EXAMPLES)} files: 10 valid, 2 valid with warnings, {len(EXAMPLES) - 12} not valid", counts)
    wants("what is read aloud", browser.value("document.getElementById('status').textContent").startswith("truncated.geojson: Not GeoJSON"))
    wants("each fault has its excerpt open", browser.value("document.querySelectorAll('.card.bad .excerpt').length") == len(EXAMPLES) - 12)
    wants("faulty rings are drawn", browser.value("document.querySelectorAll('svg.drawing .faulty').length") >= 3)
    wants("the rule's chapter is there", "does not write the last position" in browser.value(
        "[...document.querySelectorAll('.card')].find((it) => it.textContent.includes('open-ring')).querySelector('details').textContent"))
    hints = browser.value("JSON.stringify([...document.querySelectorAll('.hint')].map((it) => it.textContent))")
    wants("hints", all(it in hints for it in ("decimal separator", "single quotes", "comma too many")), hints)
    is_open_to_all(browser, "reports")
    browser.value("(() => { const it = document.getElementById('language'); it.value = 'de'; it.dispatchEvent(new Event('change')); })()")
    wants("German", browser.value("document.documentElement.lang") == "de" and "Ein Ring endet nicht dort, wo er beginnt." in browser.value("document.body.textContent"))
    is_open_to_all(browser, "reports in German")


def dropped(browser):
    opened(browser)
    browser.drop([f"{ROOT}/examples/faulty/open-ring.geojson", f"{ROOT}/examples/cafes.geojson"])
    browser.wait(DONE.format(2))
    wants("a dropped file", browser.value("document.querySelector('.card .verdict').textContent") == "Not valid GeoJSON. A ring does not end where it begins.",
          browser.value("document.querySelector('.card').textContent"))
    wants("its line and column", "Line 6, column 7" in browser.value("document.querySelector('.card').textContent"))
    # The place lies after the start of the third piece that is read, and the name before it in two pieces.
    (room / "pieces.geojson").write_text('{"type":"Point",'.ljust((2 << 20) - 8) + '"coordinates":[1]}' + "\n" * 2000)
    browser.choose("#files", [str(room / "pieces.geojson")])
    browser.wait(DONE.format(3))
    excerpt = browser.value("document.querySelector('.card:last-child .excerpt').textContent")
    wants("the text around a place in two pieces", ' "coordinates":[1]}' in excerpt, excerpt)
    for path, wanted in (("docs/page.png", "Not GeoJSON. It looks as if the file is an image."),
                         ("examples/moorings.geojsons", "Valid: each of its 3 texts is GeoJSON.")):
        count = browser.value("document.querySelectorAll('.card').length")
        browser.choose("#files", [f"{ROOT}/{path}"])
        browser.wait(DONE.format(count + 1))
        wants(f"what {path} is", browser.value(SENTENCE) == wanted, browser.value(SENTENCE))
    if name == "chromium":
        opened(browser)
        browser.drop([f"{ROOT}/examples"])
        browser.wait(DONE.format(len(EXAMPLES) + 2))
        wants("a dropped folder", browser.value("[...document.querySelectorAll('h3')].some((it) => it.textContent === 'examples/faulty/open-ring.geojson')"))
        wants("what was skipped is reported", "skipped" in browser.value("document.getElementById('notice').textContent"))
        opened(browser)
        browser.choose("#folder", [f"{ROOT}/examples"])
        browser.wait(DONE.format(len(EXAMPLES) + 2))
        wants("a chosen folder", browser.value("[...document.querySelectorAll('h3')].some((it) => it.textContent === 'examples/faulty/open-ring.geojson')"))


def denied(browser):
    """The kinds of warning that do not pass: by keys, and by the address."""
    opened(browser)
    browser.choose("#files", [f"{ROOT}/examples/{it}.geojson" for it in ("cafes", "wells")])
    browser.wait(DONE.format(2))
    browser.value("document.querySelector('#demands summary').focus()")
    browser.press("Enter")
    wants("the choice opens by a key", browser.value("document.getElementById('demands').open"))
    is_open_to_all(browser, "the choice of warnings")
    browser.shot(shots / f"{name}-denied.png")
    said = f"[document.getElementById('counts').textContent, {SENTENCE}, document.querySelectorAll('#kinds :checked').length]"
    all_pass = ["2 files: 1 valid, 1 valid with warnings", "Valid GeoJSON, with one thing that often causes problems.", 0]
    counts = "2 files: 1 valid, 1 valid but not passing"
    for label, checked in (("W9", 1), ("All", 10)):
        wants("at first all pass", browser.value(said) == all_pass, browser.value(said))
        browser.value(f"[...document.querySelectorAll('#kinds label')].find((it) => it.textContent.includes('{label}')).firstChild.focus()")
        browser.press("Space")
        wants(f"{label} does not pass", browser.value(said) == [counts, "Valid GeoJSON, but it does not pass, because of W9.", checked], browser.value(said))
        wants("that is read aloud", browser.value("document.getElementById('status').textContent") == counts)
        browser.value("document.getElementById('save-lines').click()")
        passes = [it["passes"] for it in sorts(browser.downloaded("geolint-report.jsonl")) if "passes" in it]
        wants("the saved lines say so", passes == [True, False], passes)
        browser.press("Space")
    opened(browser, f"file://{page}?deny=w4,W5&deny=W9")
    named = browser.value("[...document.querySelectorAll('#kinds :checked')].map((it) => it.parentNode.textContent.slice(1, 3)).join()")
    wants("the address chooses", named == "W4,W5,W9", named)


def longer(times):
    """A file with the features of large.geojson so many times."""
    large = (room / "large.geojson").read_bytes().rstrip()
    begun = large.index(b"[") + 1
    with open(room / "longer.geojson", "wb") as file:
        file.write(large[:-2])
        for _ in range(times - 1):
            file.write(b"," + large[begun:-2])
        file.write(large[-2:])
    return room / "longer.geojson"


def note_in_time(browser):
    """What the page says while it reads a file that takes it some seconds. How large that is depends on the machine."""
    for times in (1, 4, 10):
        opened(browser)
        path = longer(times) if times > 1 else room / "large.geojson"
        browser.choose("#files", [str(path), f"{ROOT}/examples/cafes.geojson"])
        note = f"({BEGUN} && document.getElementById('run-note').textContent)"
        browser.wait(f"(window.note = {note}, note && note.includes('left')) || {DONE.format(2)}", 60)
        if browser.value("note && note.includes('left')"):
            break
    return browser.value("note")


def stopped(browser):
    """Progress and Stop on a large file, and that the page goes on after it."""
    note = note_in_time(browser)
    wants("how far the reading is", re.fullmatch(r"[\d.]+ .?B of [\d.,]+ .?B · [\d.]+ .?B per second · [\dmin s]+ left · 1 more file is waiting", note), note)
    browser.shot(shots / f"{name}-progress.png")
    browser.value("document.getElementById('stop').click()")
    browser.wait(DONE.format(2))
    wants("Stop", browser.value("document.querySelector('.card .verdict').textContent") == "Stopped: there is no verdict.")
    wants("the next file after it", browser.value(SENTENCE) == "Valid GeoJSON.", browser.value(SENTENCE))
    # Each feature of it has a warning.
    browser.value("""(() => { window.aloud = []; const it = document.getElementById('status');
        new MutationObserver(() => aloud.push(it.textContent)).observe(it, { childList: true }); })()""")
    browser.choose("#files", [str(room / "large.geojson")])
    browser.wait(DONE.format(3), 400)
    aloud = browser.value("aloud")
    wants("how far it is is read aloud, and what was found", "large.geojson: 50 %" in aloud and aloud[-1].startswith("large.geojson: Valid GeoJSON, with"), aloud)
    told = browser.value("document.querySelector('.card:last-child').textContent")
    wants("the large file to its end", "Valid GeoJSON" in told and "have a warning and no fault." in told, told[:300])
    print(f"{name}: the large file: {told[:80]}")
    # Each stop ends both workers, and the next large file gets new ones.
    for _ in range(10):
        browser.choose("#files", [str(room / "large.geojson")])
        browser.wait(BEGUN, 60)
        browser.value("document.getElementById('stop').click()")
        browser.wait("document.getElementById('run').hidden")
    wants("ten times Stop, one after another", browser.value("document.querySelectorAll('.card').length") == 13, browser.value("document.querySelectorAll('.card').length"))


def known_early(browser):
    """That a large file is not valid is shown while it is read on: by a broken feature, by a name that its object may not have, by one
    text of many. Of a valid file nothing is said."""
    opened(browser)
    large = (room / "large.geojson").read_bytes()[:200_000_000]
    begun, start = large.index(b"["), '{"type":"Feature","geometry":null,"properties":%s}'
    kinds = {
        "feature": b'{"type":"FeatureCollection","features":[' + (start % 3).encode() + b"," + large[begun + 1:],
        "name": b'{"type":"FeatureCollection","coordinates":[],"features":[' + large[begun + 1:],
    }
    for kind, text in kinds.items():
        (room / f"early-{kind}.geojson").write_bytes(text)
    (room / "early-text.ndjson").write_text(f"{start % 3}\n" + f"{start % '{}'}\n" * 3_000_000)
    for path, is_known in (("early-feature.geojson", True), ("early-name.geojson", True), ("early-text.ndjson", True), ("large.geojson", False)):
        browser.value("window.aloud = []; window.seen ??= new MutationObserver(() => aloud.push(document.getElementById('status').textContent)).observe(document.getElementById('status'), { childList: true }) ?? true")
        browser.choose("#files", [str(room / path)])
        browser.wait(BEGUN, 60)
        known, bar = browser.value("[document.getElementById('run-known').textContent, document.getElementById('bar').value]")
        wants(f"what is known of {path} at {bar:.2f}", bar < 1 and known == ("Not valid. Still reading, to list everything." if is_known else ""), known)
        if path == "early-feature.geojson":
            browser.shot(shots / f"{name}-early.png")
        aloud = browser.value("aloud")
        wants(f"{path}: that is read aloud once", sum("Not valid. Still reading" in it for it in aloud) == is_known, aloud)
        browser.value("document.getElementById('stop').click()")
        browser.wait("document.getElementById('run').hidden")


def by_keyboard(browser):
    """Paste, and all that is pressed, by keys alone."""
    opened(browser)
    order = []
    for _ in range(12):
        browser.press("Tab")
        order.append(browser.value("document.activeElement.id || document.activeElement.tagName"))
        if order[-1] == "show-paste":
            break
    wants("the order of the keys", order == ["language", "choose", "choose-folder", "show-paste"], order)
    is_open_to_all(browser, "start")
    # What these checks are worth: a faint edge, a list without a label and a text of little contrast are found.
    for change, wanted in (("--edge", "the contrast of its edge"), ("label", "no label"), ("--soft", "")):
        browser.value("document.querySelector('.language span').textContent = ''" if change == "label" else f"document.documentElement.style.setProperty('{change}', '#c8c8c8')")
        found = browser.value(ACCESS) if wanted else json.loads(browser.value(CONTRAST))[0] < 4.5
        wants(f"the checks find a wrong {change}", found if not wanted else wanted in found, found)
        browser.value(f"document.documentElement.style.removeProperty('{change}')")
    browser.value("document.querySelector('.language span').textContent = 'Language'")
    browser.look(**({"motion": "reduce"} if name == "chromium" else {}))
    wants("nothing moves", browser.value("document.getAnimations().length === 0"))
    browser.look()
    browser.value("document.getElementById('choose').focus()")
    if name == "chromium":
        wants("files are chosen by keys", browser.asked_for_files("Enter"))
    browser.value("document.getElementById('show-paste').focus()")
    browser.press("Enter")
    wants("the box has the focus", browser.value("document.activeElement.id") == "text")
    browser.write('{"type":"Point","coordinates":[35.68,139.69]}')
    browser.press("Tab")
    browser.press("Enter")
    browser.wait(DONE.format(1))
    wants("a pasted text", browser.value(SENTENCE) == "Valid GeoJSON, with one thing that often causes problems.", browser.value(SENTENCE))
    wants("its warning", "A position is out of range." in browser.value("document.querySelector('.findings').textContent"))
    for _ in range(12):
        if browser.value("document.activeElement.className") == "toggle":
            break
        browser.press("Tab")
    browser.press("Space")
    wants("a row closes", browser.value("document.querySelector('.details').hidden"), browser.value("document.activeElement.outerHTML"))
    browser.press("Enter")
    wants("and opens", not browser.value("document.querySelector('.details').hidden"))
    ring = "getComputedStyle(document.activeElement).outlineStyle"
    wants("the focus is seen", browser.value(ring) == "solid", browser.value(ring))
    browser.value("document.getElementById('save-lines').focus()")
    browser.press("Enter")
    wants("a report is saved by keys", json.loads(browser.downloaded("geolint-report.jsonl"))["verdict"] == "valid")
    by_tab(browser)


RING = '{"type":"Feature","id":%d,"geometry":{"type":"Polygon","coordinates":[[[0,0],[4,0],[4,3],[1,%d.5]]]},"properties":{"name":"Meadow %d"}}'
POINT = '{"type":"Feature","geometry":{"type":"Point","coordinates":[%d.5,2]},"properties":{}}'
ROWS = "document.querySelectorAll('.rows .item').length"
CHOSEN = "document.querySelector('.rows .item[aria-selected=true]')?.textContent ?? ''"
DETAIL = "document.querySelector('.chosen').textContent"


def listed(browser):
    """10,000 broken features: the list, the keys, the choice of a rule, and the valid ones saved."""
    features = [POINT % (i % 100) if i % 6 == 5 else RING % (i, i % 3, i) for i in range(12_000)]
    features[7] = '{"type":"Feature","geometry":null,"properties":3}'
    (room / "many.geojson").write_text('{"type":"FeatureCollection","features":[\n' + ",\n".join(features) + "\n]}\n")
    opened(browser)
    browser.choose("#files", [str(room / "many.geojson")])
    browser.wait(DONE.format(1), 120)
    browser.wait(f"{DETAIL}.includes('How to fix it')")
    told = browser.value("document.querySelector('.summary').textContent")
    wants("how many are broken", told == "10,000 of 12,000 features have a fault.", told)
    wants("few rows are made", 0 < browser.value(ROWS) < 40, browser.value(ROWS))
    wants("the first is chosen", browser.value(CHOSEN) == "1Meadow 0G15 A ring does not end where it begins.2:70", browser.value(CHOSEN))
    detail = browser.value(DETAIL)
    wants("its details", all(it in detail for it in ("Feature 1: Meadow 0", "Line 2, column 70.", "$.features[0].geometry.coordinates[0]", "Write the first position of the ring")), detail)
    wants("its drawing", browser.value("document.querySelectorAll('.chosen svg .faulty').length") >= 2)
    wants("its excerpt", browser.value("document.querySelector('.chosen mark').textContent") == "[")
    browser.shot(shots / f"{name}-list.png")
    browser.value("(() => { const it = document.querySelector('.rows'); it.scrollTop = it.scrollHeight; })()")
    browser.wait("[...document.querySelectorAll('.rows .item')].some((it) => it.getAttribute('aria-posinset') === '10000')")
    wants("few rows at the end", browser.value(ROWS) < 40, browser.value(ROWS))
    # The keys.
    browser.value("document.querySelector('.rows').focus()")
    for key, wanted in (("Home", "1Meadow"), ("ArrowDown", "2Meadow 1"), ("ArrowDown", "3Meadow 2"), ("ArrowUp", "2Meadow 1"), ("End", "11999Meadow 11998"), ("ArrowUp", "11998Meadow 11997")):
        browser.press(key)
        browser.wait(f"({CHOSEN}).startsWith('{wanted}')", 10)
        wants(f"the key {key}", browser.value(CHOSEN).startswith(wanted), browser.value(CHOSEN))
    wants("the chosen row is seen", browser.value("""(() => { const [it, box] = [document.querySelector('.item[aria-selected=true]'), document.querySelector('.rows')].map((it) => it.getBoundingClientRect());
        return it.top >= box.top && it.bottom <= box.bottom + 1; })()"""))
    wants("the chosen row is named", browser.value("document.getElementById(document.querySelector('.rows').getAttribute('aria-activedescendant')).ariaSelected") == "true")
    browser.wait(f"{DETAIL}.includes('Feature 11,998: Meadow 11997')")
    wants("its line", "Line 11,999, column 74." in browser.value(DETAIL), browser.value(DETAIL))
    browser.press("Enter")
    wants("into the details", browser.value("document.activeElement.className") == "detail chosen", browser.value("document.activeElement.outerHTML.slice(0, 99)"))
    browser.press("Escape")
    wants("and back", browser.value("document.activeElement.className") == "rows")
    # One rule.
    browser.value("(() => { const it = document.querySelector('.which select'); it.value = [...it.options].find((o) => o.text.startsWith('G18')).value; it.dispatchEvent(new Event('change')); })()")
    browser.wait(f"{DETAIL}.includes('Feature 8 ')")
    wants("one rule alone", browser.value(ROWS) == 1)
    is_open_to_all(browser, "list")
    browser.look(**PHONE)
    browser.shot(shots / f"{name}-list-phone.png")
    browser.look()
    # The valid features, which are then checked.
    browser.value("document.querySelector('.save-valid').click()")
    saved = browser.downloaded("many.valid.geojsons")
    wants("the valid features are saved unchanged", saved == "".join(f"\x1e{it}\n" for i, it in enumerate(features) if i % 6 == 5), saved[:200])
    wants("that is reported", browser.value("document.getElementById('status').textContent") == "2,000 valid features or texts of many.geojson were saved as a text sequence.",
          browser.value("document.getElementById('status').textContent"))
    (room / "saved.geojsons").write_text(saved)
    (room / "broken.ndjson").write_text(f'{POINT % 1}\r\n\n{RING % (2, 2, 2)}\n{POINT % 300}\n')
    browser.choose("#files", [str(room / "saved.geojsons"), str(room / "broken.ndjson")])
    browser.wait(DONE.format(3))
    browser.wait("document.querySelectorAll('.chosen')[1].textContent.includes('How to fix it')")
    wants("what was saved is valid", browser.value("document.querySelectorAll('.verdict')[1].textContent") == "Valid: each of its 2,000 texts is GeoJSON.")
    wants("newline-delimited texts", browser.value(SENTENCE) == "Not valid. Text 2: A ring does not end where it begins.", browser.value(SENTENCE))
    last = browser.value("document.querySelector('.card:last-child').textContent")
    wants("its list", all(it in last for it in ("1 of 3 texts is not valid. 1 of 3 texts is valid and has a warning.", "Text 2: Meadow 2", "Line 3, column 70.", "Save the valid texts")), last)
    browser.value("document.getElementById('save-lines').click()")
    lines = sorts(browser.downloaded("geolint-report.jsonl"))
    wants("the saved lines have each finding", [len(lines), sum("feature" in it for it in lines), [it["record"] for it in lines[-2:]]] == [1 + 10_000 + 1 + 1 + 2, 10_000, [2, 3]], lines[-3:])
    wants("with line and path", [lines[1][it] for it in ("feature", "id", "rule", "line", "column", "json_path")] == [0, "0", "G15", 2, 70, "$.features[0].geometry.coordinates[0]"], lines[1])
    browser.value("document.getElementById('save-sarif').click()")
    log = json.loads(browser.downloaded("geolint-report.sarif"))
    wants("and the log", len(log["runs"][0]["results"]) == 1 + 10_000 + 1 + 2, len(log["runs"][0]["results"]))
    browser.value("document.getElementById('save-page').click()")
    printed = browser.downloaded("geolint-report.html")
    wants("and the page", printed.count("<tr>") >= 10_000 and "Meadow 11998" in printed, printed.count("<tr>"))


def refused():
    """Each way in which nothing can be checked gives a sentence, and no blank page."""
    browser = Kind()
    browser.navigate(f"file://{room}/damaged.html")
    browser.wait("!document.getElementById('alert').hidden")
    wants("a damaged module", "This copy of the page is damaged" in browser.value("document.getElementById('alert').textContent"))
    browser.navigate(f"file://{room}/trap.html")
    browser.wait(READY)
    browser.choose("#files", [f"{ROOT}/examples/cafes.geojson"])
    browser.wait(DONE.format(1))
    wants("a trap", "internal error" in browser.value(SENTENCE), browser.value(SENTENCE))
    browser.wait("document.getElementById('run').hidden")
    browser.shot(shots / f"{name}-trap.png")
    browser.navigate(f"file://{room}/printed.html")
    seen = browser.value("document.title.slice(0, 8) + getComputedStyle(document.querySelector('.card')).display + getComputedStyle(document.body).margin")
    wants("the saved page has its style, and runs no script", seen == "geolint:block0px", seen)
    browser.close()
    browser = Kind(has_wasm=False)
    browser.navigate(f"file://{page}")
    browser.wait("!document.getElementById('alert').hidden")
    wants("no WebAssembly", "no WebAssembly" in browser.value("document.getElementById('alert').textContent"), browser.value("document.body.innerText")[:300])
    browser.shot(shots / f"{name}-no-wasm.png")
    browser.close()


def served(browser):
    """From a static host, and what the page asks for there."""
    class Quiet(SimpleHTTPRequestHandler):
        asked = []

        def log_message(self, *words):
            self.asked.append(self.path)

    server = ThreadingHTTPServer(("127.0.0.1", 0), partial(Quiet, directory=str(page.parent)))
    threading.Thread(target=server.serve_forever, daemon=True).start()
    opened(browser, f"http://127.0.0.1:{server.server_port}/{page.name}")
    browser.choose("#files", [f"{ROOT}/examples/faulty/swapped.geojson"])
    browser.wait(DONE.format(1))
    wants("from a static host", "one thing" in browser.value(SENTENCE), browser.value(SENTENCE))
    wants("it asks for nothing but itself", Quiet.asked == [f"/{page.name}"], Quiet.asked)
    server.shutdown()


def pictures(browser):
    opened(browser)
    browser.shot(shots / f"{name}-start.png")
    chosen = [f"{ROOT}/examples/{it}.geojson" for it in ("cafes", "wells", "faulty/open-ring", "faulty/decimal-comma")]
    browser.choose("#files", chosen)
    browser.wait(DONE.format(4))
    for look, words in {"desk": {}, "phone": PHONE}.items():
        browser.look(**words)
        browser.shot(shots / f"{name}-{look}.png")
    browser.look()


def in_the_dark():
    """The dark scheme: the start, cards, a list and its details."""
    browser = Kind(scheme="dark")
    opened(browser)
    wants("the dark scheme", browser.value("matchMedia('(prefers-color-scheme: dark)').matches"))
    is_open_to_all(browser, "start in the dark")
    browser.choose("#files", [f"{ROOT}/examples/{it}.geojson" for it in ("cafes", "wells", "faulty/open-ring", "faulty/decimal-comma")])
    browser.wait(DONE.format(4))
    browser.choose("#files", [str(room / "many.geojson")])
    browser.wait(DONE.format(5), 120)
    browser.wait(f"{DETAIL}.includes('How to fix it')")
    is_open_to_all(browser, "list in the dark")
    browser.shot(shots / f"{name}-dark.png")
    wants("an empty console in the dark", not browser.console(), browser.console()[:3])
    browser.close()


browser = Kind()
print(f"{name}: {browser.version}")
try:
    for part in (by_keyboard, reports, denied, listed, dropped, known_early, stopped, served, pictures):
        part(browser)
    asked = {url.split(":")[0] for url in browser.requests() if not url.startswith("http://127.0.0.1:")}
    wants("no request to anywhere", asked <= {"file", "blob", "data", "about"}, asked)
    wants("an empty console", not browser.console(), browser.console()[:3])
finally:
    browser.close()
in_the_dark()
refused()
print(f"{passed} passed, {failed} failed")
sys.exit(failed > 0)
