"""The addresses at which the basic blocks of a library begin in a program that it is linked into, one a line.

    blocks.py PROGRAM ARCHIVE
"""

import re
import subprocess
import sys

FUNCTION = re.compile(r"([0-9a-f]+) <(.+)>:")
INSTRUCTION = re.compile(r" +([0-9a-f]+):\t(\S+)(?: +([0-9a-f]+) <)?")


def output(*words):
    return subprocess.run(words, stdout=subprocess.PIPE, stderr=subprocess.DEVNULL, check=True).stdout.decode()


def functions_of(archive):
    """The names of the functions of the library, but for those that copy and compare memory."""
    lines = [line.split() for line in output("nm", "--defined-only", archive).splitlines()]
    return {words[2] for words in lines if len(words) == 3 and words[1] in "tTwW" and not re.match("mem|bcmp", words[2])}


def blocks_of(program, names):
    """Where a function begins, a jump leads to, and after a jump that is taken on a condition."""
    found, inside, seen, after_branch, targets = set(), False, set(), False, set()
    for line in output("objdump", "-d", "--no-show-raw-insn", program).splitlines():
        if head := FUNCTION.fullmatch(line):
            inside, after_branch = head[2] in names, True
        elif inside and (step := INSTRUCTION.match(line)):
            at, kind, target = int(step[1], 16), step[2], step[3]
            seen.add(at)
            if after_branch:
                found.add(at)
            after_branch = kind.startswith("j") and kind != "jmp"
            if kind.startswith("j") and target:
                targets.add(int(target, 16))
    return sorted(found | targets & seen)


def main():
    program, archive = sys.argv[1:]
    for at in blocks_of(program, functions_of(archive)):
        print(f"{at:x}")


if __name__ == "__main__":
    main()
