"""The validators for Django, Starlette and FastAPI, by real requests: Django behind its development server, the others behind uvicorn.

    frameworks.py FILE..

It is run by the Python that has Debian's packages python3-django, python3-fastapi and uvicorn."""

import json
import pathlib
import socket
import sys
import tempfile
import threading
import time
from wsgiref.simple_server import make_server

import django
import fastapi
import uvicorn
from checks import curl, ended, wants
from django import forms
from django.conf import settings
from django.core.handlers.wsgi import WSGIHandler
from django.core.validators import ValidationError
from django.db.migrations.writer import MigrationWriter
from django.http import JsonResponse
from django.urls import path
from fastapi import Depends
from starlette.applications import Starlette
from starlette.responses import JSONResponse
from starlette.routing import Mount, Route

import geolint
from geolint.django import GeoJSONUploadHandler, GeoJSONValidator
from geolint.starlette import GeoJSON, GeoJSONBody, NotGeoJSON, answer

MOST = 300_000


def told(found):
    """What each answer is made of."""
    return [found.verdict.code, found.verdict.place, found.line, found.column, found.path]


# ---- Django: a form with a validator, and the upload handler

class Limited(GeoJSONUploadHandler):
    max_bytes = MOST


class Survey(forms.Form):
    file = forms.FileField(validators=[GeoJSONValidator(strict=True, allow=(4, 9))])


def validated(request):
    form = Survey(request.POST, request.FILES)
    if form.is_valid():
        return JsonResponse({"size": form.cleaned_data["file"].size})
    error = form.errors.as_data()["file"][0]
    params = error.params or {}
    return JsonResponse({"code": error.code, "fault": [params.get(it) for it in ("code", "place", "line", "column", "path")]}, status=422)


def handled(request):
    files = {name: file.read().decode("utf-8", "replace") for name, file in request.FILES.items()}
    return JsonResponse({"verdicts": {name: str(verdict) for name, verdict in request.geolint.items()}, "files": files})


def of_django():
    settings.configure(
        DEBUG=False, SECRET_KEY="x", ALLOWED_HOSTS=["*"], ROOT_URLCONF=__name__, USE_TZ=True, FILE_UPLOAD_TEMP_DIR=room,
        FILE_UPLOAD_HANDLERS=[f"{__name__}.Limited", "django.core.files.uploadhandler.TemporaryFileUploadHandler"],
    )
    django.setup()
    return make_server("127.0.0.1", 0, WSGIHandler(), handler_class=Quiet)


class Quiet(__import__("wsgiref.simple_server", fromlist=["x"]).WSGIRequestHandler):
    def log_message(self, *words):
        pass


urlpatterns = [path("validated", validated), path("handled", handled)]


def by_django(paths):
    server = of_django()
    threading.Thread(target=server.serve_forever, daemon=True).start()
    url = f"http://127.0.0.1:{server.server_port}/"
    for name in paths:
        text, found = pathlib.Path(name).read_bytes(), geolint.report(pathlib.Path(name))
        status, said = curl(url + "validated", "-F", f"file=@{name}")
        warned = [w for w in found.verdict.warnings if w.kind not in (4, 9)]
        # A file that is refused while it comes does not come so far.
        is_refused = found.verdict.name == "not JSON" and found.verdict.text != "truncated"
        if is_refused or not text:
            wants(f"Django's form on {name}", (status, json.loads(said)["code"]), (422, "required"))
        elif not found:
            wants(f"Django's form on {name}", (status, json.loads(said)), (422, {"code": "invalid_geojson", "fault": told(found)}))
        elif warned:
            fault = [f"W{warned[0].kind}", warned[0].first, None, None, None]
            wants(f"Django's form on {name}", (status, json.loads(said)), (422, {"code": "geojson_warning", "fault": fault}))
        else:
            wants(f"Django's form on {name}", (status, json.loads(said)), (200, {"size": len(text)}))
        status, said = curl(url + "handled", "-F", f"a=@{name}", "-F", "b=@-;filename=b", given=POINT)
        files = {"b": POINT.decode(), **({} if is_refused else {"a": text.decode("utf-8", "replace")})}
        wants(f"Django's handler on {name}", json.loads(said), {"verdicts": {"a": str(found.verdict), "b": "valid"}, "files": files})
    broken, warned = ('{"type":"Point","coordinates":[%s]}' % it for it in ("1", "500,2"))
    words = [["-F", f"a={text};filename=a"] for text in (POINT.decode(), warned, broken)]
    for wanted, order in ("broken G12 at 30", (0, 2, 1)), ("broken G12 at 30", (2, 0)), ("valid\nwarning W5", (1, 0)), ("valid", (0, 0)):
        said = curl(url + "handled", *[word for at in order for word in words[at]])[1]
        wants(f"Django's handler on {order} in one field", json.loads(said)["verdicts"]["a"][: len(wanted)], wanted)
    full = POINT + b" " * (MOST - len(POINT))
    wants("Django's handler at its limit", json.loads(curl(url + "handled", "-F", "a=@-;filename=a", given=full)[1])["verdicts"], {"a": "valid"})
    status, said = curl(url + "handled", "-F", "a=@-;filename=a", given=full + b" " * 200_000)
    wants("Django's handler beyond its limit", json.loads(said), {"verdicts": {"a": f"not JSON at {MOST}: too long"}, "files": {}})
    server.shutdown()


def of_fields():
    """The validator as a field of a model has it: for texts, in migrations, and in messages."""
    validator = GeoJSONValidator(strict=True, allow=[5], max_bytes=100)
    written, imports = MigrationWriter.serialize(validator)
    again = eval(written, {"geolint": __import__("geolint.django")})
    wants("the validator in a migration", (again, hash(again), imports), (validator, hash(validator), {"import geolint.django"}))
    wants("another validator", GeoJSONValidator() == validator, False)
    for name, value, message in [
        ("a text", '{"type":"Point","coordinates":[1]}', "line 1, column 31: G12: position of fewer than two elements ($.coordinates)"),
        ("bytes", b"{", "line 1, column 2: J2: truncated"),
        ("a text that is too long", " " * 200, "line 1, column 101: J4: too long"),
        ("a warning", '{"type":"Point","coordinates":[1,2],"crs":null}', "byte 36: W9: crs is no longer used"),
    ]:
        try:
            validator(value)
            wants(name, "nothing", message)
        except ValidationError as error:
            wants(name, error.messages, [message])
    wants("a warning that is allowed", validator('{"type":"Point","coordinates":[500,2]}'), None)


# ---- Starlette and FastAPI: the dependency, and the block

api = fastapi.FastAPI()
api.add_exception_handler(NotGeoJSON, answer)
bare = fastapi.FastAPI()


@api.post("/")
@bare.post("/")
async def added(body: GeoJSON = Depends(GeoJSONBody(strict=True, allow=(4, 5, 9), max_bytes=MOST))):
    return {"size": len(body.file.read()), "verdict": str(body.verdict)}


async def block(request):
    demands = GeoJSONBody() if "default" in request.query_params else GeoJSONBody(max_bytes=MOST)
    async with demands.of(request) as body:
        return JSONResponse({"size": len(body.file.read()), "verdict": str(body.verdict)})


starlette = Starlette(routes=[Route("/", block, methods=["POST"])])
app = Starlette(routes=[Mount("/api", api), Mount("/bare", bare), Mount("/starlette", starlette)])


def by_asgi(paths):
    with socket.socket() as free:
        free.bind(("127.0.0.1", 0))
        port = free.getsockname()[1]
    server = uvicorn.Server(uvicorn.Config(app, host="127.0.0.1", port=port, log_level="error"))
    thread = threading.Thread(target=server.run, daemon=True)
    thread.start()
    while not server.started:
        time.sleep(0.01)
    url = f"http://127.0.0.1:{port}/"
    for number, name in enumerate(paths):
        found, size = geolint.report(pathlib.Path(name)), pathlib.Path(name).stat().st_size
        words = ["--data-binary", f"@{name}", *(["-H", "Transfer-Encoding: chunked"] if number % 2 else [])]
        if not found.verdict.rule:
            found = geolint.Report(found.verdict)
        whole = (200, {"size": size, "verdict": str(found.verdict)})
        status, said = curl(url + "api/", *words)
        if found and not [w for w in found.verdict.warnings if w.kind not in (4, 5, 9)]:
            wants(f"FastAPI on {name}", (status, json.loads(said)), whole)
            wants(f"FastAPI without the handler on {name}", curl(url + "bare/", *words)[0], 200)
        else:
            detail = json.loads(said)["detail"]
            wants(f"FastAPI on {name}", (status, [detail[it] for it in ("code", "offset", "line", "column", "path")]), (422, told(found)))
            status, said = curl(url + "bare/", *words)
            wants(f"FastAPI without the handler on {name}", (status, json.loads(said)), (422, {"detail": str(found)}))
        status, said = curl(url + "starlette/", *words)
        wants(f"Starlette on {name}", (status, json.loads(said) if found else said), whole if found else (422, str(found)))
    full = POINT + b" " * (MOST - len(POINT))
    wants("FastAPI at its limit", curl(url + "api/", "--data-binary", "@-", given=full)[0], 200)
    wants("FastAPI beyond its limit", curl(url + "api/", "--data-binary", "@-", given=full + b" ")[0], 413)
    full = POINT.ljust(100_000_000)
    wants("Starlette at the limit that is not given", curl(url + "starlette/?default", "--data-binary", "@-", given=full)[0], 200)
    wants("Starlette beyond it", curl(url + "starlette/?default", "--data-binary", "@-", given=full + b" ")[0], 413)
    server.should_exit = True
    thread.join(10)


POINT = b'{"type":"Point","coordinates":[1,2]}'
if __name__ == "__main__":
    with tempfile.TemporaryDirectory() as room:
        by_django(sys.argv[1:])
        of_fields()
        by_asgi(sys.argv[1:])
    sys.exit(ended() or len(sys.argv) < 3)
