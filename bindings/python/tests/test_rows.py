"""The rows of rows.txt, on each of their harts, before and after the map is built. The last line is 'N passed, M failed'."""
from __future__ import annotations

import copy
import sys
from pathlib import Path
from types import SimpleNamespace

import tilvenka_pmp
from tilvenka_pmp import Answer, Hart, Kind, Mode, Question, Reason, Registers, Rights, Run, Unit, Written
from tilvenka_pmp import QUESTION, __version__, _c, version

ROWS = Path(__file__).resolve().parents[2] / "rows.txt"
MODES = {"M": Mode.MACHINE, "S": Mode.SUPERVISOR, "U": Mode.USER}


def register(name: str) -> int | str:
    return int(name, 0) if name.startswith("0x") else name


def check(unit: Unit, question: str) -> str:
    mode, kind, start, length = question.split()
    words = (MODES[mode], Kind[kind.upper()], int(start, 0), int(length, 0))
    asked = (Question * 2)((0, 1, Mode.MACHINE, Kind.LOAD), (words[2], words[3], words[0], words[1]))
    unit.decide_many(asked)
    try:
        answer = unit.decide(*words)
    except ValueError:
        assert refuses(ValueError, Answer.of_number, asked[1].answer) == ("ValueError", "ValueError")
        return "no access"
    assert [Answer.of_number(it.answer) for it in asked] == [unit.decide(Mode.MACHINE, Kind.LOAD, 0, 1), answer]
    assert answer == unit.decide_by_registers(*words)
    assert bool(answer) == answer.is_allowed
    verdict = "allow," if answer else f"fault,{answer.fault}"
    return f"{verdict},{answer.cause.value},{'' if answer.entry is None else answer.entry}"


def read(unit: Unit, question: str) -> str:
    try:
        return hex(unit.read(register(question)))
    except KeyError:
        return "odd or none"


def write(unit: Unit, question: str) -> str:
    """A write is changed if the registers changed, and stored if the register reads the value."""
    name, value = question.split()
    after = unit.copy()
    try:
        written = after.write(register(name), int(value, 0))
    except KeyError:
        return "odd or none" if after == unit else "odd or none, and changed"
    assert written.is_changed == (after != unit)
    assert written.is_stored == (after.read(register(name)) == int(value, 0))
    assert after.is_built == (unit.is_built and not written.is_changed)
    moved = ",".join(map(hex, written.moved)) if written.moved else ","
    return f"{'changed' if written.is_changed else 'same'},{moved},{written.reasons.words}"


def settle(unit: Unit, question: str) -> str:
    after = unit.copy()
    is_built = after.settle(int(question, 0))
    assert is_built == after.is_built and after == unit
    return "yes" if is_built else "no"


def told(unit: Unit, after: Unit, call, *words: object) -> str:
    """A refused call leaves the unit unchanged, and a done one leaves no map."""
    try:
        call(*words)
    except ValueError:
        assert after == unit and after.is_built == unit.is_built
        return "no hart"
    assert not after.is_built
    return "done"


def reset(unit: Unit, question: str) -> str:
    after, words = unit.copy(), hart(question)
    answer = told(unit, after, after.reset, *words)
    assert answer != "done" or after == Unit(*words)
    return answer


def restore(unit: Unit, question: str) -> str:
    after, saved = unit.copy(), unit.save()
    saved.entries = int(question, 0)
    return told(unit, after, after.restore, saved)


def line(it: Run) -> str:
    owner = "-" if it.owner is None else it.owner
    return f"{it.first:014x},{it.last:014x},{owner},{it.machine.letters},{it.others.letters}"


def lines(unit: Unit) -> str:
    """Each run is that of its bytes."""
    runs = unit.map()
    assert all(it == unit.run(it.first) == unit.run(it.last) for it in runs)
    return " ".join(map(line, runs))


def run(unit: Unit, question: str) -> str:
    try:
        return line(unit.run(int(question, 0)))
    except ValueError:
        return "no range"


KINDS = {
    "check": check,
    "read": read,
    "write": write,
    "map": lambda unit, question: lines(unit),
    "run": run,
    "settle": settle,
    "reset": reset,
    "restore": restore,
}


def wanted(kind: str, text: str) -> str:
    if text in ("odd", "none"):
        return "odd or none"
    return hex(int(text, 0)) if kind == "read" else text


def hart(words: str) -> tuple:
    """Returns ENTRIES/GRAIN/BITS/SMEPMP, or that of RV32 with /32 after it, in Unit's terms."""
    entries, grain, bits, smepmp, *xlen = words.split("/")
    return (int(entries), int(grain), int(bits), smepmp == "yes", *map(int, xlen))


def harts(word: str) -> list[tuple]:
    """The harts that the first word of a row names."""
    return [hart(word)] if "/" in word else [(size,) for size in (16, 64) if word in (str(size), "both")]


def unit_after(hart: tuple, writes: str) -> Unit:
    unit = Unit(*hart)
    for it in filter(None, map(str.strip, writes.split(";"))):
        if it == "reset":
            unit.reset(*hart)
        else:
            name, value = it.split()
            unit.write(register(name), int(value, 0))
    return unit


def answers_of(hart: tuple, row: str) -> list[tuple[str, str]]:
    """The answers and what is wanted: before the map is built, with it, and from a snapshot."""
    head, writes, question, text = (it.strip() for it in row.split("|"))
    kind = head.split()[1]
    ask = KINDS[kind]
    unit = unit_after(hart, writes)
    got = [ask(unit, question)]
    unit.build()
    got += [ask(unit, question), str(unit.is_built)]
    copy = Unit()
    copy.restore(unit.save())
    got += [ask(copy, question), str(copy == unit and not copy.is_built)]
    text = wanted(kind, text)
    return list(zip(got, [text, "yes" if kind == "settle" else text, "True", text, "True"]))


def refuses(fault: type[Exception], call, *words) -> tuple[str, str]:
    """Whether the call raises this."""
    try:
        return (f"{call(*words)}", fault.__name__)
    except fault:
        return (fault.__name__, fault.__name__)


class Call:
    """A call that returns this."""

    def __init__(self, answer: int) -> None:
        self.answer = answer

    def __call__(self) -> int:
        return self.answer


def library(version: int, size: int) -> SimpleNamespace:
    """A library that reports this version and this size of its units."""
    return SimpleNamespace(tilvenka_pmp_version=Call(version), tilvenka_pmp_unit_size=Call(size))


def versions() -> list[tuple[object, object]]:
    """Which libraries the module accepts, and which version it has."""
    takes = _c.expect_compatible
    taken = [(200, 9280), (201, 9280)]
    refused = [library(*it) for it in ((100, 9280), (300, 9280), (10200, 9280), (200, 9272))] + [SimpleNamespace()]
    return [
        (".".join(map(str, version())), __version__),
        *((takes(library(*it), "a library"), None) for it in taken),
        *(refuses(ImportError, takes, it, "a library") for it in refused),
    ]


def copies() -> list[tuple[object, object]]:
    """A copy is an independent unit, however it is made."""
    unit = unit_after((16,), "pmpaddr0 0x200001ff; pmpcfg0 0x19")
    made = [unit.copy(), copy.copy(unit), copy.deepcopy(unit)]
    same = [it == unit for it in made]
    for it in made:
        it.write("pmpaddr0", 0)
    return [(same, [True] * 3), ([it == unit for it in made], [False] * 3), (unit.read("pmpaddr0"), 0x200001FF)]


def buffers() -> list[tuple[object, object]]:
    """Any writable buffer is accepted."""
    unit, asked = Unit(), Question(0x80000000, 8, Mode.USER, Kind.LOAD)
    buffer = bytearray(bytes(asked) * 3)
    unit.decide_many(buffer)
    asked.answer = 5 * 1024 + 512
    sizes = sum(int(size[2]) for _, size in QUESTION)
    return [
        (bytes(buffer), bytes(asked) * 3),
        (unit.decide_many(bytearray()), None),
        ([name for name, _ in QUESTION], [name for name, _ in Question._fields_]),
        (sizes, 24),
        refuses(ValueError, unit.decide_many, bytearray(25)),
        refuses(TypeError, unit.decide_many, bytes(24)),
    ]


def others() -> list[tuple[object, object]]:
    """What no row covers."""
    unit = unit_after((16,), "pmpaddr0 0x200001ff; pmpcfg0 0x19")
    return [
        *copies(),
        *buffers(),
        (Unit().hart, Hart(16, 4, 56, True, 64)),
        (Unit(64).hart, Hart(64, 4, 56, True, 64)),
        (Unit(16, 8).hart, Hart(16, 8, 56, True, 64)),
        (Unit(0, 4096, 32, False, 32).hart, Hart(0, 4096, 32, False, 32)),
        (repr(Unit(xlen=32)), "<Unit of RV32 with 16 entries, grain 4, 34 address bits and Smepmp>"),
        (sorted(set(tilvenka_pmp.__all__) - set(dir(tilvenka_pmp))), []),
        refuses(ValueError, unit.run, -1),
        refuses(ValueError, unit.run, 1 << 64),
        (unit.rights(Mode.USER, 0x80000000, 4096), Rights.READ),
        (unit.rights(Mode.USER, 0x80000800, 4096), None),
        (Unit() == Unit(64), False),
        (Unit().write("pmpaddr0", (1 << 60) + 1), Written(True, None, Reason.BITS)),
        refuses(AttributeError, setattr, Unit().write("pmpaddr0", 1), "moved", None),
        refuses(ValueError, unit.settle, -1),
        refuses(ValueError, unit.reset, 256),
        refuses(ValueError, unit.restore, Registers(entries=8)),
        refuses(ValueError, unit.rights, Mode.USER, 0, 0),
        refuses(ValueError, unit.rights, Mode.USER, 1, 1 << 56),
        refuses(ValueError, unit.rights, 2, 0, 4096),
        refuses(ValueError, unit.decide, Mode.USER, 3, 0, 4),
        refuses(ValueError, unit.decide, Mode.USER, Kind.LOAD, 1 << 64, 4),
        refuses(ValueError, unit.decide, Mode.USER, Kind.LOAD, -1, 4),
        refuses(ValueError, unit.write, "pmpaddr0", 1 << 64),
        refuses(ValueError, unit.restore, Registers(mseccfg=-1)),
        refuses(ValueError, Unit, 65),
        *(refuses(ValueError, Unit, 16, it) for it in (0, 2, 12, 8192)),
        *(refuses(ValueError, Unit, 16, 4, it) for it in (33, 57)),
        *(refuses(ValueError, Unit, 16, 4, it, True, 32) for it in (31, 35)),
        *(refuses(ValueError, Unit, 16, 4, 34, True, it) for it in (0, 16, 33, 128)),
        (Unit(16, xlen=32) == Unit(16, 4, 34, True, 32), True),
        (Unit(16, xlen=32) == Unit(16, 4, 34), False),
        *(refuses(KeyError, unit.read, it) for it in ("pmpaddr64", "pmpcfg16", "pmpaddr01", "satp", 0x3F0)),
    ]


def main() -> int:
    rows = ROWS.read_text(encoding="utf-8").replace("\n    ", " ").split("\n")
    rows = [it for it in rows if "|" in it and not it.startswith("#")]
    tried = [(row, pair) for row in rows for hart in harts(row.split()[0]) for pair in answers_of(hart, row)]
    tried += [("other calls", pair) for pair in others() + versions()]
    failed = [f"FAILED: {name}: {told}, not {want}" for name, (told, want) in tried if told != want]
    print(*failed, f"{len(tried) - len(failed)} passed, {len(failed)} failed", sep="\n")
    return 1 if failed or not rows else 0


if __name__ == "__main__":
    sys.exit(main())
