"""The parts of tilvenka_pmp.h in use, by their names without prefix, which checks/release compares."""
from __future__ import annotations

import ctypes
import os
from pathlib import Path
from typing import Tuple

VERSION = 200
MAX_ENTRIES = 64
PLACES = 217
ODD_CONFIGURATION = 1
NO_REGISTER = 2
NO_HART = 3
CHANGED = 4
MOVED = 8
SPLIT = 256
NO_MATCH = 512
FAULT = 1024
NO_ACCESS = 1023
MIXED = 8
NO_RANGE = 16


class Registers(ctypes.Structure):
    _fields_ = [
        ("addresses", ctypes.c_uint64 * MAX_ENTRIES),
        ("configurations", ctypes.c_uint8 * MAX_ENTRIES),
        ("mseccfg", ctypes.c_uint64),
        ("entries", ctypes.c_uint64),
    ]


class Map(ctypes.Structure):
    _fields_ = [
        ("starts", ctypes.c_uint64 * PLACES),
        ("runs", ctypes.c_uint64),
        ("rows", ctypes.c_uint16 * 16 * PLACES),
    ]


class Unit(ctypes.Structure):
    _fields_ = [("registers", Registers), ("map", Map)]


class Question(ctypes.Structure):
    _fields_ = [
        ("start", ctypes.c_uint64),
        ("length", ctypes.c_uint32),
        ("mode", ctypes.c_uint32),
        ("kind", ctypes.c_uint32),
        ("answer", ctypes.c_uint32),
    ]


def expect_compatible(library: ctypes.CDLL, path: str) -> None:
    """Raises ImportError if the library doesn't fit this module: it needs the module's major and minor numbers, and the
    same size of units."""
    try:
        version, size = library.tilvenka_pmp_version, library.tilvenka_pmp_unit_size
    except AttributeError as fault:
        raise ImportError(f"{path} has no version: it is older than this module") from fault
    version.restype, size.restype = ctypes.c_uint32, ctypes.c_uint64
    version.argtypes, size.argtypes = [], []
    if version() // 100 != VERSION // 100 or size() != ctypes.sizeof(Unit):
        found, wanted = f"{parts(version())}, with units of {size()} bytes", f"{parts(VERSION)}, with {ctypes.sizeof(Unit)}"
        raise ImportError(f"{path} is of version {found}; this module is for {wanted}")


def parts(number: int) -> Tuple[int, int, int]:
    """Returns the major, minor and patch number."""
    return number // 10000, number // 100 % 100, number % 100


def load() -> ctypes.CDLL:
    """Returns the library, with the types of its calls set."""
    name = "libtilvenka_pmp.so.2"
    beside = Path(__file__).with_name(name)
    path = str(beside) if beside.exists() else os.environ.get("TILVENKA_PMP_LIBRARY", name)
    try:
        library = ctypes.CDLL(path)
    except OSError as fault:
        raise ImportError(f"{fault}: set TILVENKA_PMP_LIBRARY to the path of {name}") from fault
    expect_compatible(library, path)
    unit, number, word, truth = ctypes.POINTER(Unit), ctypes.c_uint64, ctypes.c_uint32, ctypes.c_bool
    place, registers = ctypes.POINTER(number), ctypes.POINTER(Registers)
    for call, result, arguments in (
        ("reset", word, [unit, number]),
        ("write_moved", word, [unit, word, number, place, place]),
        ("read", word, [unit, word, place]),
        ("build", None, [unit]),
        ("settle", truth, [unit, number]),
        ("is_built", truth, [unit]),
        ("decide", word, [unit, word, word, number, number]),
        ("decide_by_registers", word, [unit, word, word, number, number]),
        ("decide_many", None, [unit, ctypes.POINTER(Question), ctypes.c_size_t]),
        ("rights", word, [unit, word, number, number]),
        ("run", word, [unit, word, number, place, place]),
        ("save_to", None, [unit, registers]),
        ("restore_from", word, [unit, registers]),
    ):
        function = getattr(library, f"tilvenka_pmp_{call}")
        function.restype, function.argtypes = result, arguments
    return library


library = load()
