"""`python -m geolint`: the program geolint-files, where it is installed.

Where it is not, as on macOS and on 64-bit ARM, this reports on files and on standard input (-), a line or more for each, and has no
options but `--jobs N`, which stands first: N threads check each file that is one text. With it the program is not called.
"""

from __future__ import annotations

import os
import re
import shutil
import subprocess
import sys
import sysconfig
from pathlib import Path
from typing import BinaryIO, Optional, Union

from . import Report, Verdict, build, check, records, report
from ._findings import framing_of


def _found(path: str, jobs: Optional[int]) -> Union[Report, Verdict, None]:
    """What a file is, or standard input."""
    source: Union[BinaryIO, Path] = sys.stdin.buffer if path == "-" else Path(path)
    framing = framing_of(os.fsencode(path))
    if not framing:
        verdict = check(source, jobs=jobs) if jobs and isinstance(source, Path) else None
        # What is to be told of another text comes from a second reading.
        return verdict if verdict and not verdict.warnings else report(source)
    found = records(source, framing)
    for _ in found:
        pass
    return found.verdict


def _report(path: str, jobs: Optional[int]) -> int:
    """Reports on a file, and answers its status."""
    name = path if path.isprintable() else repr(path)
    try:
        found = _found(path, jobs)
    except OSError as error:
        sys.stderr.write(f"geolint: {name}: {error.strerror or error}\n")
        return 2
    said = str(found)
    print(f"{name}:{said}" if said[0].isdigit() else f"{name}: {said}", flush=True)
    return 0 if found else 1


def main(words: list[str]) -> int:
    """Runs the command, and answers its exit status."""
    folders = [sysconfig.get_path("scripts"), sysconfig.get_path("scripts", f"{os.name}_user"), *os.get_exec_path()]
    program = shutil.which("geolint-files", path=os.pathsep.join(folders))
    jobs = None
    if words[:1] == ["--jobs"]:
        jobs = int(words[1]) if re.fullmatch("[1-9][0-9]{0,3}", "".join(words[1:2])) else None
        if not jobs:
            sys.stderr.write("geolint: --jobs takes a number from 1 to 9999\n")
            return 2
        words, program = words[2:], None
    if program and os.name == "nt":
        return subprocess.call([program, *words])
    if program:
        os.execv(program, [program, *words])
    if words == ["--version"]:
        print(build())
        return 0
    for word in words:
        if word.startswith("-") and word != "-":
            why = "--jobs N takes none" if jobs else "the program geolint-files has options, and is not installed"
            sys.stderr.write(f"geolint: {word}: {why}: give names of files alone\n")
            return 2
    try:
        return max(_report(path, jobs) for path in words or ["-"])
    except BrokenPipeError:
        # What is still held back goes nowhere.
        os.dup2(os.open(os.devnull, os.O_WRONLY), sys.stdout.fileno())
        return 141


if __name__ == "__main__":
    sys.exit(main(sys.argv[1:]))
