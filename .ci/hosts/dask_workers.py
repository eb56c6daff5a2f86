"""geolint.dask on the workers of a scheduler: what it says of each file is what one reading says, also where a worker is killed.

    dask_workers.py FOLDER SCHEDULER    FOLDER has sequences and features.geojson, of each NAME the report in json NAME.report, and a program `kills`;
                                        each.found has each finding of `broken`, and first.found the first one

Each worker has geolint-files in PATH. It is run by the Python that has Debian's package python3-distributed."""

import json
import os
import sys

import distributed
from checks import ended, wants

import geolint.dask


def report_of(folder, name, ending="report"):
    with open(f"{folder}/{name}.{ending}", encoding="utf-8") as file:
        return [json.loads(line) for line in file]


def refusal(call, *words, **options):
    try:
        return call(*words, **options)
    except OSError as error:
        return str(error)


def main(folder, file):
    names = ["right", "broken", "runs", "few", "empty", "features"]
    paths = [f"{folder}/{name}.geojson{'' if name == 'features' else 's'}" for name in names]
    with distributed.Client(scheduler_file=file) as client:
        client.wait_for_workers(3)
        workers = set(client.scheduler_info()["workers"])
        check = geolint.dask.check
        for name, path in zip(names, paths):
            wants(f"{name} in 7 parts", check(path, parts=7), report_of(folder, name))
        wants("four parts for each thread", check(paths[0]), report_of(folder, "right"))
        wants("a relative name", check(os.path.relpath(paths[1]), parts=2), report_of(folder, "broken"))
        strict = [{**it, "passes": False} for it in report_of(folder, "right")]
        wants("with an option", check(paths[0], parts=3, options=["--strict"]), strict)
        whole = [it for name in names for it in report_of(folder, name)]
        each = report_of(folder, "each", "found")
        wants("each finding, in 7 parts", check(paths[1], parts=7, every="warnings"), each)
        wants("each finding, the file as a whole", check([paths[1]], every="warnings"), each)
        wants("the first finding", check(paths[1], parts=7, every="faults", most=1), report_of(folder, "first", "found"))
        wants("many files", check(paths), whole)
        wants("many files, in two tasks", check(iter(paths), parts=2), whole)
        wants("no file", check([]), [])
        none = f"{folder}/none.geojsons"
        missing = f"geolint-files: {none}: No such file or directory"
        wants("a sequence that is not there", refusal(check, none, parts=3), missing)
        found = check([none, paths[0]], parts=2)
        wants("files of which one is not there", ([it["path"] for it in found], found[0]["passes"], found[1:]), ([none, paths[0]], False, whole[:1]))
        # The first task of each call kills its worker, and is done by another.
        calls = (lambda words: check(paths[1], parts=9, **words), lambda words: check(paths, **words)[1:2], lambda words: check(paths[5], parts=9, **words))
        for number, (call, name) in enumerate(zip(calls, ("broken", "broken", "features"))):
            mark = f"{folder}/killed-{number}"
            os.symlink(mark, f"{folder}/mark")
            wants("where a worker is killed", call({"program": f"{folder}/kills"}), report_of(folder, name))
            wants("it was killed", os.path.isdir(mark), True)
            os.remove(f"{folder}/mark")
        client.wait_for_workers(3)
        wants("other workers than at first", set(client.scheduler_info()["workers"]) != workers, True)


if __name__ == "__main__":
    main(*sys.argv[1:])
    sys.exit(ended())
