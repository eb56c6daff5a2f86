"""Rattle's module for Linux, for Windows on the same processor.

What a program asks of C is renamed to `posix_NAME`, since Windows has functions of the same names that mean less: windows.c defines
them. They keep Linux's calling convention, as their callers have it in the module. Two registers hold no structure on x86-64, so each
call of the library that gives one of 16 bytes gets a body by which Windows calls it. Functions get unwind tables, which the system
needs, and the stack is probed as Windows does it."""

import re
import sys

PAIR = r"\{ i64, i64 \}"


def asked_of_c(text, convention):
    """What is declared and called, under the names and by the calling convention of windows.c."""
    names = re.findall(r"^declare (?!.*@llvm\.)[^\n]*?@(\w+)\(", text, flags=re.M)
    if names:
        text = re.sub(rf"\b(declare|call) ([^\n@]*?)@({'|'.join(names)})\(", rf"\1 {convention}\2@posix_\3(", text)
    return text, names


def body_by_address(name, types, pairs):
    """A body by which Windows calls `name`, whose result is a pair: its address is the first word. `pairs` has the place of each word
    that is the first half of a structure, which comes by its address."""
    outer, inner, body = ["ptr %out"], [], []
    for at, type in enumerate(types):
        if at in pairs:
            outer.append(f"ptr %p{at}")
            body += [f"  %a{at} = load i64, ptr %p{at}, align 8", f"  %q{at} = getelementptr i8, ptr %p{at}, i64 8",
                     f"  %a{at + 1} = load i64, ptr %q{at}, align 8"]
        elif at - 1 not in pairs:
            outer.append(f"{type} %a{at}")
        inner.append(f"{type} %a{at}")
    return "\n".join([f"define ptr @{name}({', '.join(outer)}) #0 {{", *body,
                      f"  %r = call {{ i64, i64 }} @{name}.pair({', '.join(inner)})",
                      "  %r0 = extractvalue { i64, i64 } %r, 0", "  %r1 = extractvalue { i64, i64 } %r, 1",
                      "  store i64 %r0, ptr %out, align 8", "  %out1 = getelementptr i8, ptr %out, i64 8", "  store i64 %r1, ptr %out1, align 8",
                      "  ret ptr %out", "}", ""])


def pairs_by_address(text):
    """Each call that gives a structure of two words, with such a body."""
    bodies = []

    def renamed(it):
        words = it[2].split(", ") if it[2] else []
        # Rattle writes a structure of two numbers as two numbers that are not `noundef`; a slice is an address and a size.
        is_half = [re.match(r"i64 %", word) is not None for word in words]
        pairs = {at for at in range(len(words) - 1) if is_half[at] and is_half[at + 1]}
        types = [word.replace(" noundef", "").rsplit(" ", 1)[0] for word in words]
        bodies.append(body_by_address(it[1], types, pairs))
        return f"define internal {{ i64, i64 }} @{it[1]}.pair({it[2]})"

    text = re.sub(rf"^define {PAIR} @(\w+)\(([^)]*)\)", renamed, text, flags=re.M)
    return "\n".join([text, *bodies]), bodies


def with_its_calls(text, triple):
    text = re.sub(r'"probe-stack"="inline-asm" "stack-probe-size"="\d+" ?', "", text)
    text = re.sub(r"^(attributes #\d+ = \{ nounwind)(?= \")", r"\1 uwtable", text, flags=re.M)
    is_x86 = triple.startswith("x86_64")
    text, names = asked_of_c(text, "x86_64_sysvcc " if is_x86 else "")
    text, bodies = pairs_by_address(text) if is_x86 else (text, [])
    print(f"contrib/targets/windows.py: {len(bodies)} calls with a pair; asked of C: {' '.join(names) or 'nothing'}", file=sys.stderr)
    return text
