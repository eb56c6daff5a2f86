"""The extension for SQLite in Python, on texts that are stored in UTF-8 and in UTF-16, as blobs and as texts.

    sqlite_rows.py MODULE verdicts FILE    the lines of `table.py rows` or `table.py random`
    sqlite_rows.py MODULE features FILE    the lines of `table.py features`
    sqlite_rows.py MODULE hostile          values and calls that are none of these
"""

import json
import sqlite3
import sys
import threading

from checks import ended, wants
from table import NOTHING, WIDEST

POINT = '{"type":"Point","coordinates":[1,2]}'
BROKEN = '{"type":"Point","coordinates":[1]}'


def opened(encoding="UTF-8"):
    db = sqlite3.connect(":memory:")
    db.execute(f"PRAGMA encoding='{encoding}'")
    db.enable_load_extension(True)
    db.load_extension(MODULE)
    db.enable_load_extension(False)
    return db


def stored(lines):
    """Tables with the bodies of lines: each as a blob, and as a text where it is one."""
    for encoding in ("UTF-8", "UTF-16le"):
        db = opened(encoding)
        db.execute("CREATE TABLE given (id INTEGER, body)")
        for at, words in enumerate(lines):
            body = bytes.fromhex(words[1])
            db.execute("INSERT INTO given VALUES (?, ?)", (at, body))
            try:
                db.execute("INSERT INTO given VALUES (?, ?)", (at, body.decode()))
            except UnicodeDecodeError:
                pass
        yield db


def ask(db, query, *values):
    """What a statement gives, or what is wrong with it."""
    try:
        return db.execute(query, values).fetchall()
    except sqlite3.Error as error:
        return str(error)


def noted(warnings):
    return ",".join(f"{it['rule']} {it['count']} {it['place']}" for it in warnings)


def verdicts(lines):
    # The functions take no limits.
    lines = [words for words in lines if int(words[2]) == WIDEST]
    for db in stored(lines):
        for at, yes, text in db.execute("SELECT id, is_geojson(body), geojson_report(body) FROM given"):
            number, _, _, rule, place, warnings = (None if word == NOTHING else word for word in lines[at])
            said = json.loads(text)
            message, known = said.pop("message"), said.pop("warnings")
            is_valid = rule is None
            wants(f"line {number}", said, {"valid": is_valid, "rule": rule, "place": place and int(place), "path": None})
            wants(f"the answer to line {number}", (yes, message is None, known is not None), (is_valid,) * 3)
            wants(f"the warnings of line {number}", noted(known or []), warnings)


def features(lines):
    columns = '"index", start_place, end_place, id_place, rule, place, warnings, valid, message'
    for db in stored(lines):
        for at, body in db.execute("SELECT id, body FROM given"):
            said = []
            for *words, warnings, valid, message in ask(db, f"SELECT {columns} FROM geojson_features(?)", body):
                is_valid = words[4] is None
                wants("what a valid feature has", (valid, message is None, warnings is not None), (is_valid,) * 3)
                words.append(noted(json.loads(warnings or "[]")) or None)
                said.append(" ".join("-" if word is None else str(word) for word in words))
            wants(f"line {lines[at][0]}", ";".join(said), lines[at][2])


def values():
    db = opened()
    for name, value, due in (
        ("nothing", "", ("J2", 0)),
        ("a blob of nothing", b"", ("J2", 0)),
        ("an integer", 7, ("G1", 0)),
        ("a number", -0.5, ("G1", 0)),
        ("a byte 0", POINT + "\0", ("J1", 36)),
        ("a megabyte", POINT + " " * 1_000_000, (None, None)),
        ("a megabyte of brackets", "[" * 1_000_000, ("J3", 256)),
        ("a megabyte that is broken at its end", " " * 1_000_000 + BROKEN, ("G12", 1_000_030)),
        ("a megabyte of a string", '{"name":"' + "ž" * 500_000 + '","type":"Nope"}', ("G3", 1_000_018)),
        ("a binary JSON", b"\xc7\x0b", ("J1", 0)),
    ):
        wants(name, ask(db, "SELECT said ->> '$.rule', said ->> '$.place' FROM (SELECT geojson_report(?) AS said)", value), [due])
    wants("null", ask(db, "SELECT is_geojson(NULL), geojson_report(NULL), count(*) FROM geojson_features(NULL)"), [(None, None, 0)])
    wants("no UTF-8", ask(db, "SELECT is_geojson(x'22ff22'), geojson_report(CAST(x'22ff22' AS TEXT)) ->> '$.place'"), [(0, 1)])
    zeros = "zeroblob(1000000)"
    wants("a blob of zeros", ask(db, f"SELECT is_geojson({zeros}), count(*) FROM geojson_features({zeros})"), [(0, 0)])
    many = '{"features":[{}' + ",{}" * 999_999 + "]}"
    wants("a million features", ask(db, "SELECT count(*), min(place), max(place) FROM geojson_features(?)", many), [(10**6, 13, 3_000_010)])


def calls():
    db = opened()
    for query, due in (
        ("SELECT is_geojson()", "wrong number of arguments to function is_geojson()"),
        ("SELECT is_geojson('', '')", "wrong number of arguments to function is_geojson()"),
        ("SELECT geojson_report()", "wrong number of arguments to function geojson_report()"),
        ("SELECT * FROM geojson_features", "geojson_features needs the text: geojson_features(body)"),
        ("SELECT * FROM geojson_features()", "geojson_features needs the text: geojson_features(body)"),
        ("SELECT * FROM geojson_features('', '')", "too many arguments on geojson_features() - max 1"),
        ("INSERT INTO geojson_features VALUES (1)", "table geojson_features may not be modified"),
        ("CREATE VIRTUAL TABLE made USING geojson_features", "no such module: geojson_features"),
    ):
        wants(query, ask(db, query), due)


def rows():
    db = opened()
    text = '{"features":[{},{"type":"Feature","geometry":null,"properties":{}},7 ]}'
    query = "SELECT rowid, valid, end_place FROM geojson_features(?) WHERE rule IS NOT 'G2'"
    wants("some rows", ask(db, query, text), [(1, 1, 66), (2, 0, None)])
    query = "SELECT count(*) FROM geojson_features(?1) AS a, geojson_features(substr(?1, a.start_place + 1, a.end_place - a.start_place))"
    wants("the features of features", ask(db, query, '{"features":[' + text + "," + text + "]}"), [(6,)])
    query = "SELECT count(*) FROM geojson_features"
    wants("the argument by its name", ask(db, f"{query} WHERE geojson_body = ?", text), [(3,)])
    wants("two arguments", ask(db, f"{query}(?) WHERE geojson_body = ''", text), [(0,)])
    wants("several", ask(db, f"{query} WHERE geojson_body IN (?, '[]', NULL)", text), [(3,)])
    # Queries at once, of which some end midway and begin again.
    cursors = [db.execute('SELECT "index" FROM geojson_features(?)', (text,)) for _ in range(50)]
    for due in range(2):
        wants("rows in turn", [it.fetchone() for it in cursors], [(due,)] * 50)
    for cursor in cursors[::2]:
        cursor.close()
    wants("the rest of the others", [it.fetchall() for it in cursors[1::2]], [[(2,)]] * 25)
    wants("and again", ask(db, f"{query}(?)", text), [(3,)])


def tables():
    db = opened()
    ask(db, "CREATE TABLE places (id INTEGER PRIMARY KEY, body TEXT NOT NULL CHECK (is_geojson(body)))")
    insert = "INSERT INTO places (body) VALUES (?)"
    refused = "CHECK constraint failed: is_geojson(body)"
    wants("a valid text", ask(db, insert, POINT), [])
    for body in (BROKEN, "", b"\0"):
        wants(f"CHECK refuses {body}", ask(db, insert, body), refused)
    wants("null", ask(db, insert, None), "NOT NULL constraint failed: places.body")
    wants("CHECK refuses an update", ask(db, "UPDATE places SET body = body || ','"), refused)
    wants("the table", ask(db, "SELECT body FROM places"), [(POINT,)])


def indexes():
    db = opened()
    made = "rule TEXT AS (geojson_report(body) ->> '$.rule') STORED"
    wants("a column that is made", ask(db, f"CREATE TABLE uploads (id INTEGER PRIMARY KEY, body, {made})"), [])
    db.executemany("INSERT INTO uploads (body) VALUES (?)", [(POINT,), (BROKEN,), (None,), (b"",), (POINT.encode(),)] * 200)
    ask(db, "CREATE INDEX by_answer ON uploads (is_geojson(body))")
    ask(db, "CREATE INDEX broken ON uploads (id) WHERE NOT is_geojson(body)")
    ask(db, "CREATE INDEX by_place ON uploads (geojson_report(body) ->> '$.place')")
    count = "SELECT count(*) FROM uploads INDEXED BY by_answer WHERE is_geojson(body) = 1"
    wants("by an index", ask(db, count), [(400,)])
    query = "SELECT group_concat(id) FROM uploads INDEXED BY broken WHERE NOT is_geojson(body) AND id < 10"
    wants("by another", ask(db, query), [("2,4,7,9",)])
    wants("and its values", ask(db, "SELECT rule, count(*) FROM uploads GROUP BY 1"), [(None, 600), ("G12", 200), ("J2", 200)])
    ask(db, "UPDATE uploads SET body = ? WHERE id < 6", BROKEN)
    wants("after a change", ask(db, count), [(398,)])
    wants("the indexes are right", ask(db, "PRAGMA integrity_check"), [("ok",)])


def distrusted():
    """Where nothing that a file stores may call a function that is not innocuous."""
    db = opened()
    ask(db, "PRAGMA trusted_schema = OFF")
    ask(db, "CREATE VIEW features AS SELECT f.* FROM places, geojson_features(body) AS f")
    columns = "body TEXT CHECK (is_geojson(body)), report TEXT AS (geojson_report(body))"
    wants("a table there", ask(db, f"CREATE TABLE places ({columns})"), [])
    wants("an index there", ask(db, "CREATE INDEX by_report ON places (geojson_report(body))"), [])
    insert = "INSERT INTO places (body) VALUES (?)"
    wants("CHECK there", ask(db, insert, BROKEN), "CHECK constraint failed: is_geojson(body)")
    feature = '{"type":"Feature","geometry":null,"properties":{}}'
    wants("a valid text there", ask(db, insert, f'{{"type":"FeatureCollection","features":[{feature}]}}'), [])
    wants("a view there", ask(db, "SELECT start_place, valid, warnings FROM features"), [(40, 1, "[]")])


def threads():
    """Connections at once, each on a thread."""
    answers = []
    query = "SELECT is_geojson(?), is_geojson(?), count(*) FROM geojson_features('{\"features\":[{},{}]}')"

    def work():
        db = opened()
        for _ in range(300):
            answers.extend(ask(db, query, POINT, BROKEN))

    working = [threading.Thread(target=work) for _ in range(32)]
    for thread in working:
        thread.start()
    for thread in working:
        thread.join()
    wants("connections at once", answers, [(1, 0, 2)] * 300 * 32)


def hostile():
    for part in (values, calls, rows, tables, indexes, distrusted, threads):
        part()


MODULE, kind, *rest = sys.argv[1:]
if kind == "hostile":
    hostile()
else:
    given = [line.rstrip("\n").split("\t") for line in open(rest[0], encoding="ascii")]
    {"verdicts": verdicts, "features": features}[kind](given)
sys.exit(ended())
