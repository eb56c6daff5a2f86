"""geolint for Dask: checks many files, or one large file in parts, on the workers of a cluster.

    client = distributed.Client("scheduler:8786")
    found = geolint.dask.check("/data/roads.geojsons", parts=512)           # one file of records, cut by bytes
    found = geolint.dask.check(["/data/a.geojson", "/data/towns"])          # files, and folders of them
    found = geolint.dask.check("/data/roads.geojsons", every="faults")      # and each record of it that has a fault
    print(all(file["passes"] for file in found))

Each worker has geolint-files in PATH, and the files by the same names; it does not need this package. What a worker that is lost
has done, Dask does anew on another.
"""

from __future__ import annotations

import json
import os
import subprocess
from typing import Any, Dict, Iterable, List, Optional, Union

import distributed

Path = Union[str, "os.PathLike[str]"]


def check(
    paths: Union[Path, Iterable[Path]],
    parts: Optional[int] = None,
    options: Iterable[str] = (),
    client: Optional[Any] = None,
    program: str = "geolint-files",
    every: Optional[str] = None,
    most: Optional[int] = None,
) -> List[Dict[str, Any]]:
    """What is found in each file, as `geolint-files --format json` says it.

    One path is checked in `parts` ranges of its bytes, four for each thread of the workers where the number is
    not given, and what is found is what one reading of it finds. Many paths are checked each as a whole, by as many tasks. Names that
    are not absolute begin at the current folder of this process.

    With `every`, which is "faults" or "warnings", the findings of each feature or record follow those of their file, at most `most`
    of a file (1000 where the number is not given; 0 lifts this limit).

    `options` are other options of geolint-files, as "--strict". The client is the current one where none is given. A file of several that
    cannot be read is in the answer with its reason; one path that cannot be is an OSError.
    """
    client = client or distributed.get_client()
    count = parts or 4 * max(1, sum(client.nthreads().values()))
    listing = [] if every is None else [f"--every={every}"]
    if most is not None:
        listing += ["--most", str(most)]
    words = [*options, *listing]
    if isinstance(paths, (str, os.PathLike)):
        name = os.path.abspath(paths)
        calls = [[program, "--part", f"{number}/{count}", *words, "--", name] for number in range(1, count + 1)]
        lines = "".join(_outputs(_run(client, calls), [0]))
        return _objects(_outputs(_run(client, [[program, "--join", "--file", name, *listing, "--format", "json"]], lines), [0, 1]))
    names = [os.path.abspath(path) for path in paths]
    most = -(-len(names) // count) or 1
    words = [program, "--format", "json", "--allow-empty", *words, "--"]
    found = _objects(_outputs(_run(client, [words + names[at : at + most] for at in range(0, len(names), most)]), [0, 1, 2]))
    if names and not found:
        raise OSError(f"{program}: no file was checked")
    return found


def _run(client: Any, calls: List[List[str]], text: Optional[str] = None) -> List[Any]:
    """What each of these calls of the program, each a task, has written. A task is a call of Python's own, which each worker has."""
    tasks = client.map(subprocess.run, calls, capture_output=True, input=text, encoding="utf-8", pure=False, key="geolint-files")
    done: List[Any] = client.gather(tasks)
    return done


def _outputs(done: List[Any], statuses: List[int]) -> List[str]:
    """What was written to standard output, where each call ended with one of these statuses."""
    for it in done:
        if it.returncode not in statuses or (it.returncode == 2 and not it.stdout):
            raise OSError(it.stderr.strip() or f"{it.args[0]} ended with status {it.returncode}")
    return [it.stdout for it in done]


def _objects(outputs: List[str]) -> List[Dict[str, Any]]:
    return [json.loads(line) for output in outputs for line in output.splitlines()]


__all__ = ["check"]
