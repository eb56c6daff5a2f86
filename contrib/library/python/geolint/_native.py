"""The shared object: where it lies, its calls and its structures. Nothing here is for hosts."""

from __future__ import annotations

import ctypes
import ctypes.util
import os
import sys
from typing import Any, Iterator

# `make install-library` writes here where it puts the shared object.
_INSTALLED = ""

DONE, REFUSED, ENDED, LIMITS = 0, 1, 2, 3

# The most bytes that are copied at once, where the bytes of a source have to be.
PIECE = 65536


class Warned(ctypes.Structure):
    count: int
    first: int
    _fields_ = [("count", ctypes.c_uint64), ("first", ctypes.c_uint64)]


class Report(ctypes.Structure):
    status: int
    verdict: int
    rule: int
    cause: int
    place: int
    warned: int
    warnings: Any
    _fields_ = [
        ("status", ctypes.c_uint32),
        ("verdict", ctypes.c_uint32),
        ("rule", ctypes.c_uint32),
        ("cause", ctypes.c_uint32),
        ("place", ctypes.c_uint64),
        ("warned", ctypes.c_uint64),
        ("warnings", Warned * 9),
    ]


class Progress(ctypes.Structure):
    taken: int
    status: int
    ready: int
    _fields_ = [("taken", ctypes.c_uint64), ("status", ctypes.c_uint32), ("ready", ctypes.c_uint32)]


class Finding(ctypes.Structure):
    number: int
    place: int
    end: int
    id: int
    report: Report
    _fields_ = [
        ("number", ctypes.c_uint64),
        ("place", ctypes.c_uint64),
        ("end", ctypes.c_uint64),
        ("id", ctypes.c_uint64),
        ("report", Report),
    ]


class Whole(ctypes.Structure):
    report: Report
    number: int
    _fields_ = [("report", Report), ("number", ctypes.c_uint64)]


class Sum(ctypes.Structure):
    status: int
    ended: int
    begin: int
    end: int
    features: int
    _fields_ = [
        ("status", ctypes.c_uint32),
        ("ended", ctypes.c_uint32),
        ("begin", ctypes.c_uint64),
        ("end", ctypes.c_uint64),
        ("features", ctypes.c_uint64),
        ("warnings", Warned * 9),
    ]


class Step(ctypes.Structure):
    size: int
    bytes: bytes
    _fields_ = [("size", ctypes.c_uint64), ("bytes", ctypes.c_char * 24)]


class Lines(ctypes.Structure):
    line: int
    column: int
    _fields_ = [("line", ctypes.c_uint64), ("column", ctypes.c_uint64)]


class Text(ctypes.Structure):
    bytes: bytes
    size: int
    _fields_ = [("bytes", ctypes.c_char_p), ("size", ctypes.c_size_t)]


def find() -> str:
    """The path of the shared object."""
    here = os.path.dirname(os.path.abspath(__file__))
    name = {"win32": "geolint.dll", "darwin": "libgeolint.dylib"}.get(sys.platform, "libgeolint.so")
    near = [os.path.join(here, name), _INSTALLED, os.path.join(here, "..", "..", "..", "libgeolint.so.0")]
    found = [path for path in near if os.path.exists(path)]
    path = os.environ.get("GEOLINT_LIBRARY") or (found[0] if found else ctypes.util.find_library("geolint"))
    if not path:
        raise ImportError(f"{name} is not installed; GEOLINT_LIBRARY may name it")
    return path


def load() -> Any:
    native = ctypes.CDLL(find())
    address, size, u32, u64 = ctypes.c_void_p, ctypes.c_size_t, ctypes.c_uint32, ctypes.c_uint64
    text, report = ctypes.POINTER(Text), ctypes.POINTER(Report)
    calls: list[tuple[str, Any, list[Any]]] = [
        ("check", Report, [address, size, u32, u64]),
        ("size", size, []),
        ("alignment", size, []),
        ("begin", u32, [address, u32, u64]),
        ("begin_again", u32, [address, u32, u64]),
        ("feed", u32, [address, address, size]),
        ("doomed", u32, [address]),
        ("offset", u64, [address]),
        ("levels", u32, [address]),
        ("finish", Report, [address]),
        ("features_size", size, []),
        ("features_begin", u32, [address, u32, u64]),
        ("features_feed", Progress, [address, address, size]),
        ("features_next", Finding, [address]),
        ("features_offset", u64, [address]),
        ("features_finish", Report, [address]),
        ("records_size", size, []),
        ("records_begin", u32, [address, u32, u32, u64]),
        ("records_feed", Progress, [address, address, size]),
        ("records_next", Finding, [address]),
        ("records_offset", u64, [address]),
        ("records_finish", Whole, [address]),
        ("run_size", size, []),
        ("run_begin", u32, [address, u32, u64]),
        ("run_feed", u32, [address, address, size]),
        ("run_sum", Sum, [address]),
        ("run_likely", size, [address, size]),
        ("join_size", size, []),
        ("join_begin", u32, [address, u32, u64]),
        ("join_feed", u32, [address, address, size]),
        ("join_pass_over", u32, [address, ctypes.POINTER(Sum)]),
        ("join_finish", Report, [address]),
        ("locator_size", size, []),
        ("locator_begin", u32, [address, u32, u64]),
        ("locator_feed", u32, [address, address, size]),
        ("locator_step", Step, [address, u32]),
        ("lines_begin", Lines, []),
        ("lines_feed", Lines, [Lines, address, size]),
        ("rule_text", None, [u32, text]),
        ("cause_text", None, [u32, text]),
        ("warning_text", None, [u32, text]),
        ("version_text", None, [text]),
        ("hint_text", None, [report, address, size, text]),
        ("hint_around", None, [report, u32, address, size, address, size, address, size, text]),
    ]
    for name, result, words in calls:
        call = getattr(native, "geolint_" + name)
        call.restype, call.argtypes = result, words
    return native


library: Any = load()


def text_of(call: Any, *number: int) -> str:
    """A text of the library."""
    text = Text(b"", 1)
    call(*number, ctypes.byref(text))
    return text.bytes.decode("ascii")


def room(size: int) -> tuple[Any, int]:
    """Memory of this many bytes, and the address in it where a handle lies."""
    alignment = library.geolint_alignment()
    memory = ctypes.create_string_buffer(size + alignment)
    return memory, -(-ctypes.addressof(memory) // alignment) * alignment


def address(data: bytes) -> int:
    """The address of bytes, which live as long as `data` does."""
    return ctypes.cast(ctypes.c_char_p(data), ctypes.c_void_p).value or 0


def steps(locator: int) -> Iterator[str]:
    """The steps of the path that the bytes taken lead to."""
    step, count = library.geolint_locator_step(locator, 0), 0
    while step.size:
        yield step.bytes[: step.size].decode("utf-8")
        count += 1
        step = library.geolint_locator_step(locator, count)
