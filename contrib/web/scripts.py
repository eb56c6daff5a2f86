#!/usr/bin/env python3
"""The modules of JavaScript: scripts.py NAME.. prints the paths of these and of all that they need. contrib/web/build and
contrib/vscode/extension/make-vsix join modules into one script."""

import os
import re
import sys

TOP = os.path.realpath(f"{os.path.dirname(os.path.realpath(__file__))}/../..")
FOLDERS = [f"{TOP}/contrib/{it}" for it in ("web", "lsp", "npm", "vscode/extension")]


def text(path):
    with open(path, encoding="utf-8") as file:
        return file.read()


def modules(*names):
    """The paths of these modules and of all that they need, each after those that it needs."""
    paths = []
    for name in names:
        path = next(filter(os.path.exists, (f"{it}/{name}.js" for it in FOLDERS)))
        below = re.findall(r'^(?:import|export) [^;"]*from "\./([\w.-]+)\.js";$', text(path), re.M)
        paths += [it for it in [*modules(*below), path] if it not in paths]
    return paths


def joined(name):
    """A module and those that it needs as one script in one scope. So no two of them give one name to different things."""
    sources, declared = ['"use strict";'], set()
    for path in modules(name):
        source = re.sub(r'^import \{[^}]*\} from "\./[\w.]+\.js";$', "", text(path), flags=re.M)
        source = re.sub(r"^export (?=async |const |class |function)", "", source, flags=re.M)
        for word in ("import ", "export "):
            assert not re.search(f"^{word}", source, re.M), f"{path}: a form of {word}that this does not know"
        own = re.findall(r"^(?:async )?(?:const|let|class|function\*?) ([\w$]+|\[.*?\]|\{.*?\})", source, re.M)
        own = {it for names in own for it in re.findall(r"[\w$]+", names)}
        assert not declared & own, f"{path}: {declared & own} are names of another module too"
        declared |= own
        sources.append(source)
    return "\n".join(sources)


if __name__ == "__main__":
    print(*modules(*sys.argv[1:]))
