"""Rattle's module for WebAssembly: each shuffle as the one instruction that WebAssembly has for it.

Rattle writes `swizzle_dyn` for this machine as sixteen loads: the lanes lie in memory, the low four bits of each index choose a byte,
and a lane whose index has its highest bit set is 0. The instruction gives 0 for each index from 16 on, so the bits between are cleared
first."""

import re
import sys

LANES = "<16 x i8>"
VALUE = r"(%[\w.]+)"
DEFINED = re.compile(rf"  {VALUE} = (.*)")
CHOICE = re.compile(rf"select <16 x i1> {VALUE}, {LANES} {VALUE}, {LANES} zeroinitializer")
# How each byte of a lane is found, from its load back to the indices.
STEPS = [rf"load i8, ptr {VALUE}, align 1", rf"getelementptr i8, ptr (?P<lanes>%[\w.]+), i64 {VALUE}", rf"mul i64 {VALUE}, 1$", rf"add i64 {VALUE}, 0$",
         rf"zext i8 {VALUE} to i64", rf"extractelement {LANES} {VALUE}, i32 @$", rf"and {LANES} {VALUE}, splat \(i8 15\)"]
# What may stand between the first of the loads and the choice: nothing that writes.
QUIET = re.compile(r"(?:extractelement|insertelement|zext|add|mul|getelementptr|load|icmp) ")


def shuffle_of(defined, choice):
    """The address of the lanes, the indices and the line of the first load; None where this is no shuffle."""
    def step(pattern, value):
        return re.match(pattern, defined.get(value, (0, ""))[1])

    sign = step(rf"icmp sge {LANES} {VALUE}, zeroinitializer", choice[1])
    bytes, last = [], choice[2]
    for lane in reversed(range(16)):
        inserted = step(rf"insertelement {LANES} (\S+), i8 {VALUE}, i32 {lane}$", last)
        if not sign or not inserted:
            return None
        last = inserted[1]
        bytes.insert(0, inserted[2])
    sources = set()
    for lane, value in enumerate(bytes):
        for pattern in STEPS:
            found = step(pattern.replace("@", str(lane)), value)
            if not found:
                return None
            if "lanes" in found.groupdict():
                sources.add(found["lanes"])
            value = found[found.lastindex]
        if value != sign[1]:
            return None
    return (sources.pop(), value, defined[bytes[0]][0]) if len(sources) == 1 and last == "zeroinitializer" else None


def with_shuffles(text):
    lines = text.split("\n")
    defined, first_loads = {}, {}
    for number, line in enumerate(lines):
        if line.startswith("define "):
            defined = {}
        it = DEFINED.match(line)
        if not it:
            continue
        defined[it[1]] = (number, it[2])
        choice = CHOICE.match(it[2])
        shuffle = choice and shuffle_of(defined, choice)
        if not shuffle:
            continue
        lanes, indices, first = shuffle
        if not all(QUIET.match(DEFINED.match(between)[2]) for between in lines[first:number]):
            sys.exit(f"contrib/targets/wasm.py: something else stands within a shuffle: {line}")
        first_loads[first] = f"  {it[1]}.lanes = load {LANES}, ptr {lanes}, align 1"
        lines[number] = (f"  {it[1]}.indices = and {LANES} {indices}, splat (i8 -113)\n"
                         f"  {it[1]} = call {LANES} @llvm.wasm.swizzle({LANES} {it[1]}.lanes, {LANES} {it[1]}.indices)")
    if not first_loads:
        sys.exit("contrib/targets/wasm.py: there is no shuffle; Rattle may write it in another form now")
    print(f"contrib/targets/wasm.py: {len(first_loads)} shuffles", file=sys.stderr)
    for number, load in first_loads.items():
        lines[number] = f"{load}\n{lines[number]}"
    return "\n".join([*lines, f"declare {LANES} @llvm.wasm.swizzle({LANES}, {LANES})", ""])
