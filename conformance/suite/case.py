"""A case: a script whose events are publications of their own, as on a hart, and accesses between them."""
from dataclasses import dataclass, field

from . import place
from .hart import PAGE, Hart

OFF, TOR, NA4, NAPOT = 0, 1, 2, 3
R, W, X, L = 1, 2, 4, 0x80
ALL = R | W | X
MML, MMWP, RLB = 1, 2, 4
MODES = "MSU"
KINDS = ("fetch", "load", "store")
# How a register is read or written: by CSRRW, CSRRS, CSRRC, and by CSRRS without bits.
HOW = ("write", "set-bits", "clear-bits", "read")

# Where the harness keeps its things in the board's memory.
CODE, DATA, STUB, ARENA, TABLE, GUEST_TABLE = (
    place.memory() + it for it in (0, 0x10000, 0x20000, 0x100000, 0x130000, 0x134000))
# The entries of the page tables by which S-mode and its guests reach the arena.
TABLE_ENTRY, GUEST_TABLE_ENTRY = (it + 8 * (ARENA >> 30) for it in (TABLE, GUEST_TABLE))
CODE_SIZE, DATA_SIZE, ARENA_SIZE = 0x4000, 0x8000, 0x20000
DEVICES, DEVICES_SIZE = place.devices()
# Where memory ends at least, of the boards that are here.
MEMORY_END = CODE + 0x1000000


# How many events a publication of a script has at most.
BATCH_EVENTS = 64
# Accesses of 64 bytes, which a hart may make in parts.
OF_BLOCKS = ("vector", "block", "clean", "flush", "inval")


def napot(start, size):
    return (start >> 2) | (size // 8 - 1)


def upper_half(bits):
    """Where the upper half begins of the region of NAPOT of 2^bits bytes that has the arena."""
    return (ARENA & -(1 << bits)) + (1 << bits - 1)


# What a load shows a large region's upper half by, each below the next.
FAR = tuple(upper_half(it) for it in range(18, 57) if not ARENA & 1 << it - 1)


def byte_of(row):
    """The byte whose L R W X is the row's number."""
    return (row >> 3 & 1) * L | (row >> 2 & 1) * R | (row >> 1 & 1) * W | (row & 1) * X


def number_of(name):
    """A register's CSR number."""
    if name.startswith("mseccfg"):
        return 0x747 if name == "mseccfg" else 0x757
    return 0x3A0 + int(name[6:]) if name.startswith("pmpcfg") else 0x3B0 + int(name[7:])


def name_of(number):
    if number >= 0x747:
        return "mseccfg" if number == 0x747 else "mseccfgh"
    return f"pmpcfg{number - 0x3A0}" if number < 0x3B0 else f"pmpaddr{number - 0x3B0}"


@dataclass(frozen=True)
class Access:
    after: int
    mode: str
    kind: str
    start: int
    length: int
    # An instruction other than a plain fetch, load or store, as "lr".
    by: str = ""

    @property
    def is_aligned(self):
        return self.start % self.length == 0

    @property
    def is_one(self):
        """Whether a hart may not make it in parts."""
        return self.is_aligned and self.by not in OF_BLOCKS

    @property
    def asked_kind(self):
        """What it needs: cbo.clean, cbo.flush and cbo.inval need a load or a store, and whoever may store may load."""
        return "load" if self.by in ("clean", "flush", "inval") else self.kind

    @property
    def row(self):
        return f"{self.after},{self.mode},{self.asked_kind},{self.start:#x},{self.length}"


@dataclass(frozen=True)
class Attempt:
    """An access to a register that has to be an illegal instruction, or is there."""

    after: int
    mode: str
    number: int
    # One of HOW.
    how: str
    is_there: bool = False

    def __str__(self):
        return f"{self.mode} {self.how} of CSR {self.number:#x}"


@dataclass
class Case:
    name: str
    rule: str
    hart: Hart
    # ("write", NAME, VALUE), with "set-bits" or "clear-bits" behind it where it is one by CSRRS or CSRRC, or
    # ("reset", WRITES): these writes of names and values are what the hart keeps of before.
    events: list = field(default_factory=list)
    accesses: list = field(default_factory=list)
    attempts: list = field(default_factory=list)
    # How many entries' registers are read back.
    looks: int = 16

    def lines_of(self, event):
        """The lines of an event. A reset of a hart that keeps something has writes behind it, and several publications
        where a batch hasn't room for all."""
        if event[0] == "write":
            return [f"{(*event, 'write')[3]} {event[1]} {event[2]:#x}", "publish"]
        security = [("mseccfg", self.hart.reset_security)] if self.hart.reset_security else []
        lines = ["reset", *(f"write {name} {value:#x}" for name, value in (*event[1], *security))]
        batches = (lines[it:it + BATCH_EVENTS] for it in range(0, len(lines), BATCH_EVENTS))
        return [line for batch in batches for line in (*batch, "publish")]

    def script(self, count=None):
        lines = [it for event in self.events[:count] for it in self.lines_of(event)]
        return "\n".join([f"# {self.name}, which tries: {self.rule}", *self.hart.head(), *lines]) + "\n"

    def trace(self):
        return "\n".join(["after,mode,kind,start,length", *(it.row for it in self.accesses)]) + "\n"


class Builder:
    """Writes a case step by step. A byte is written with the others of its register as they were meant."""

    def __init__(self, rule, name, hart, looks=None):
        self.hart = hart
        self.case = Case(name, rule, hart, looks=hart.entries if looks is None else looks)
        self.bytes = [0] * 64
        self.asked = set()

    def write(self, name, value):
        self.case.events.append(("write", name, value & (2**self.hart.xlen - 1)))
        return self

    def change(self, how, name, value):
        """A write by CSRRS or CSRRC, by its word in scripts."""
        self.case.events.append(("write", name, value & (2**self.hart.xlen - 1), how))
        return self

    def attempt(self, mode, number, is_there=False):
        """Accesses to a register that the mode doesn't have, or has, by a read and each write."""
        if mode in self.hart.modes:
            self.case.attempts += [Attempt(len(self.case.events), mode, number, it, is_there) for it in HOW]
        return self

    def security(self, value):
        """Writes mseccfg, where the hart has it."""
        return self.write("mseccfg", value) if self.hart.has_smepmp else self

    def reset(self):
        self.case.events.append(("reset", ()))
        self.bytes = [0] * 64
        return self

    def address(self, entry, byte_address):
        return self.write(f"pmpaddr{entry}", byte_address >> 2)

    def configure(self, places):
        """Writes the bytes of entries, one register after the other."""
        for entry, byte in places.items():
            self.bytes[entry] = byte
        size = self.hart.bytes_in
        for first in sorted({entry // size * size for entry in places}):
            self.write(self.hart.configuration(first), int.from_bytes(self.bytes[first:first + size], "little"))
        return self

    def region(self, entry, start, size, byte):
        """A rule over a region, NA4 or NAPOT."""
        self.write(f"pmpaddr{entry}", start >> 2 if size == 4 else napot(start, size))
        return self.configure({entry: byte | (NA4 if size == 4 else NAPOT) << 3})

    def range(self, entry, low, top, byte):
        """A rule by TOR, whose low end is written too."""
        if entry:
            self.address(entry - 1, low)
        return self.address(entry, top).configure({entry: byte | TOR << 3})

    def background(self, entry, byte=ALL):
        """A rule over every byte."""
        self.write(f"pmpaddr{entry}", self.hart.ones)
        return self.configure({entry: byte | NAPOT << 3})

    def guard(self, is_locked=True):
        """The harness' own rules, in the last entries: its stub, its code, its data and the devices."""
        rules = {STUB: (PAGE, X, X), CODE: (CODE_SIZE, L | X | R, 0), DATA: (DATA_SIZE, L | W | R, 0),
                 DEVICES: (DEVICES_SIZE, L | W | R, 0)}
        starts = [it for it in rules if it in (CODE, DATA, DEVICES, STUB)[:guard_count(self.hart)]]
        first = self.hart.entries - len(starts)
        for entry, start in reversed(list(enumerate(starts, first))):
            self.write(f"pmpaddr{entry}", napot(start, max(rules[start][0], self.hart.grain)))
        return self.configure({entry: rules[start][1 if is_locked else 2] | NAPOT << 3
                               for entry, start in enumerate(starts, first)})

    def ask(self, start, length, modes=MODES, kinds=KINDS, by=""):
        """Accesses of these modes and kinds, where the hart can make them. RV32 makes two in place of eight bytes."""
        if 8 * length > self.hart.xlen and by not in (*OF_BLOCKS, "float"):
            return self if by else self.ask(start, 4, modes, kinds).ask(start + 4, 4, modes, kinds)
        for mode in modes:
            for kind in kinds:
                is_fit = kind != "fetch" or (length in (2, 4) and start % 2 == 0)
                if mode in self.hart.modes and is_fit and self.hart.has(by):
                    access = Access(len(self.case.events), mode, kind, start, length, by)
                    if access not in self.asked:
                        self.asked.add(access)
                        self.case.accesses.append(access)
        return self

    def ask_around(self, edge, modes="U", kinds=KINDS):
        """Aligned accesses on both sides of an edge."""
        for length in (1, 2, 4, 8):
            for start in (edge - length, edge):
                if start % length == 0:
                    self.ask(start, length, modes, kinds)
        return self


def guard_count(hart):
    """How many rules the harness has for itself: a hart of few entries has no room for that of the stub, and then for
    those that lockdown alone doesn't ask for. With one entry it has none, and lockdown can't be tried on a hart."""
    return 4 if hart.entries >= 8 else min(max(hart.entries - 1, 0), 3)


def free_entries(hart, is_guarded):
    """How many entries a case has for itself."""
    return hart.entries - guard_count(hart) if is_guarded else hart.entries
