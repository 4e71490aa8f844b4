"""The PMP unit of an RV64 or RV32 hart with Smepmp 1.0, from the proved C library tilvenka_pmp.

    >>> unit = Unit()                                   # sixteen entries after reset
    >>> unit.write("pmpaddr0", 0x200001ff).is_changed   # each CSR write, as firmware makes it
    True
    >>> [hex(it) for it in unit.write("pmpcfg0", 0x19).moved]
    ['0x80000000', '0x80000fff']
    >>> unit.decide(Mode.USER, Kind.LOAD, 0x80000ff8, 8)
    Answer(fault=None, cause=<Cause.RULE: 'rule'>, entry=0)

Addresses are byte addresses of physical memory, and lengths are in bytes.

The shared library is the one beside this file, if there is one; else the one that TILVENKA_PMP_LIBRARY names, or that
the loader finds."""
from __future__ import annotations

import ctypes
import enum
import re
from dataclasses import dataclass, field
from typing import Dict, List, Optional, Tuple, Union

from tilvenka_pmp import _c
from tilvenka_pmp._c import Question, library as _library

__version__ = "0.2.0"
__all__ = [
    "Answer",
    "Cause",
    "Hart",
    "Kind",
    "Mode",
    "QUESTION",
    "Question",
    "Reason",
    "Registers",
    "Rights",
    "Run",
    "Unit",
    "Written",
    "version",
]


# The fields of a Question, in the form numpy.dtype takes.
QUESTION = [("start", "=u8"), ("length", "=u4"), ("mode", "=u4"), ("kind", "=u4"), ("answer", "=u4")]


class Mode(enum.IntEnum):
    """The effective mode of an access: that of MPP for loads and stores under MPRV, S-mode for page table walks."""

    USER = 0
    SUPERVISOR = 1
    MACHINE = 3


class Kind(enum.IntEnum):
    """The kind of an access. An AMO or a store-conditional is a store."""

    FETCH = 0
    LOAD = 1
    STORE = 2


class Rights(enum.IntFlag):
    """The rights of every access inside a range."""

    READ = 1
    WRITE = 2
    EXECUTE = 4

    @property
    def letters(self) -> str:
        """The letters rwx, or - for each."""
        return "".join(letter if self & right else "-" for letter, right in zip("rwx", (1, 2, 4)))


class Reason(enum.IntFlag):
    """Why a register doesn't read what was written to it.

    >>> Unit().write("pmpaddr0", (1 << 64) - 1).reasons.words   # it has no bits 63 to 54
    'bits'
    """

    # The value isn't zero for an entry that the hart lacks.
    ABSENT = 256
    # It has bits that the register lacks.
    BITS = 512
    # It would change the byte or address of a frozen entry: locked, with RLB 0.
    FROZEN = 1024
    # It would change the address of an unfrozen entry, but the next one is frozen and TOR.
    LOW_END = 2048
    # It has W without R for an unfrozen entry, and MML is 0.
    RESERVED = 4096
    # It would add a locked executable rule, MML is 1 and RLB is 0.
    LOCKDOWN = 8192
    # It would clear MML or MMWP.
    STICKY = 16384
    # It would set RLB while an entry is locked.
    BYPASS = 32768
    # The grain is above 4 bytes, and it has NA4, or address bits that read differently.
    GRAIN = 65536

    @property
    def words(self) -> str:
        """The words of `pmp writes` for them, separated by one space."""
        words = "absent bits frozen tor reserved lockdown sticky bypass grain".split()
        return " ".join(word for bit, word in enumerate(words, 8) if self & 1 << bit)


@dataclass(frozen=True)
class Written:
    """The effects of a write.

    >>> Unit().write("mseccfg", 4).moved == (0, (1 << 56) - 1)  # RLB may open any byte
    True
    """

    # Whether what the unit stores changed, even where the grain hides it. Then the map isn't built.
    is_changed: bool
    # The addresses of the first and the last byte whose decisions may have changed: in every mode and kind an access
    # with no byte between them, inclusive, is decided as before. None if every access is.
    moved: Optional[Tuple[int, int]]
    # Why the register doesn't read the value: empty exactly when it does.
    reasons: Reason

    @property
    def is_stored(self) -> bool:
        """Whether the register reads the value."""
        return not self.reasons


class Cause(enum.Enum):
    """What decided an access."""

    RULE = "rule"  # the rule of an entry that matches all of the bytes
    SPLIT = "split"  # an entry matches some of the bytes, but not all
    NO_MATCH = "none"  # no entry matches any of the bytes


@dataclass(frozen=True)
class Answer:
    """Whether an access is allowed, and what decided that. It is true if the access is allowed.

    >>> bool(Unit().decide(Mode.USER, Kind.LOAD, 0, 8)), bool(Unit().decide(Mode.MACHINE, Kind.LOAD, 0, 8))
    (False, True)
    """

    fault: Optional[int]  # the exception code of a failed access: 1, 5 or 7
    cause: Cause
    entry: Optional[int]

    @property
    def is_allowed(self) -> bool:
        return self.fault is None

    def __bool__(self) -> bool:
        return self.is_allowed

    @staticmethod
    def of_number(number: int) -> Answer:
        """Returns the answer that decide_many gives as this number. Raises ValueError if the question is no access."""
        fault, cause = divmod(number, _c.FAULT)
        if cause == _c.NO_ACCESS:
            raise ValueError("an access has 1 to 4096 bytes below 2^56")
        if cause == _c.NO_MATCH:
            return Answer(fault or None, Cause.NO_MATCH, None)
        is_split, entry = divmod(cause, _c.SPLIT)
        return Answer(fault or None, Cause.SPLIT if is_split else Cause.RULE, entry)


@dataclass(frozen=True)
class Run:
    """Consecutive bytes that one entry owns, the lowest-numbered that matches them, and the rights on them."""

    first: int
    last: int
    owner: Optional[int]
    machine: Rights
    others: Rights


@dataclass
class Registers:
    """All registers of a unit, with zeros for those of entries that the hart lacks."""

    # pmpaddr0 and so on: bits 55 to 2 of a byte address, or 33 to 2 on RV32, including those below the grain.
    addresses: List[int] = field(default_factory=lambda: [0] * _c.MAX_ENTRIES)
    # Each entry's byte in its pmpcfg register.
    configurations: List[int] = field(default_factory=lambda: [0] * _c.MAX_ENTRIES)
    # MML in bit 0, MMWP in bit 1, RLB in bit 2.
    mseccfg: int = 0
    # The number of the hart: 16, 64, or that of TILVENKA_PMP_HART or TILVENKA_PMP_HART_RV32.
    entries: int = 16


@dataclass(frozen=True)
class Hart:
    """The hart's number of entries, its grain in bytes, its number of physical address bits, whether it has Smepmp, and
    its XLEN."""

    entries: int
    grain: int
    address_bits: int
    has_smepmp: bool
    xlen: int

    def __str__(self) -> str:
        smepmp = "Smepmp" if self.has_smepmp else "no Smepmp"
        entries = f"{self.entries} entries, grain {self.grain}"
        return f"RV{self.xlen} with {entries}, {self.address_bits} address bits and {smepmp}"


def version() -> Tuple[int, int, int]:
    """Returns the version of the loaded library: its major, minor and patch number. Importing a module with another
    major or minor number fails with ImportError."""
    return _c.parts(_library.tilvenka_pmp_version())


def _number(value: int, bits: int, what: str) -> int:
    """Returns the value, which ctypes would cut to its lowest bits."""
    if not 0 <= value < 1 << bits:
        raise ValueError(f"{what} {value} is no number of {bits} bits")
    return value


def _csr(register: Union[int, str]) -> int:
    """Returns the CSR number of a register, given its name or number."""
    if isinstance(register, int):
        return _number(register, 32, "register")
    if register in ("mseccfg", "mseccfgh"):
        return 0x747 if register == "mseccfg" else 0x757
    found = re.fullmatch(r"pmp(addr|cfg)(0|[1-9]\d?)", register)
    if not found or int(found[2]) > (63 if found[1] == "addr" else 15):
        raise KeyError(register)
    return (0x3B0 if found[1] == "addr" else 0x3A0) + int(found[2])


def _hart(entries: int, grain: int, address_bits: Optional[int], has_smepmp: bool, xlen: int) -> int:
    """Returns the number of TILVENKA_PMP_HART or TILVENKA_PMP_HART_RV32 for the hart."""
    if not 0 <= entries <= _c.MAX_ENTRIES:
        raise ValueError(f"a hart has 0 to {_c.MAX_ENTRIES} entries, not {entries}")
    if grain not in (1 << bit for bit in range(2, 13)):
        raise ValueError(f"a grain has 4, 8, 16 and so on to 4096 bytes, not {grain}")
    if xlen not in (32, 64):
        raise ValueError(f"XLEN is 32 or 64, not {xlen}")
    fewest, most = (34, 56) if xlen == 64 else (32, 34)
    bits = most if address_bits is None else address_bits
    if not fewest <= bits <= most:
        raise ValueError(f"a physical address of RV{xlen} has {fewest} to {most} bits, not {bits}")
    is_smepmp, is_rv32, g = bool(has_smepmp), xlen == 32, grain.bit_length() - 3
    return entries | bits << 8 | is_smepmp << 16 | is_rv32 << 17 | g << 24 | 1 << 32


class Unit:
    """The PMP unit of one hart, with the given number of entries, 0 to 64, a grain in bytes, 4, 8, 16 and so on to
    4096, physical address bits, 34 to 56, or 32 to 34 if XLEN is 32, by default the most, and with or without Smepmp.
    Raises ValueError if there is no such hart.

    >>> Unit(8, 4096, 38, has_smepmp=False).read("pmpaddr8")   # of an entry that the hart lacks
    0
    >>> Unit(16, xlen=32).write("pmpcfg1", 0x19).is_stored     # RV32 has it, of entries 4 to 7
    True

    Decisions and rights use a map if build() or settle() built it after the last change, which is faster. They are the
    same without it. Units are equal if their registers are."""

    def __init__(
        self,
        entries: int = 16,
        grain: int = 4,
        address_bits: Optional[int] = None,
        has_smepmp: bool = True,
        xlen: int = 64,
    ) -> None:
        self._unit = _c.Unit()
        self.reset(entries, grain, address_bits, has_smepmp, xlen)

    def reset(
        self,
        entries: int,
        grain: int = 4,
        address_bits: Optional[int] = None,
        has_smepmp: bool = True,
        xlen: int = 64,
    ) -> None:
        """Resets the unit to this hart. Raises ValueError if there is no such hart, and then the unit is unchanged.

        >>> Unit().reset(64, grain=4096)
        """
        hart = _hart(entries, grain, address_bits, has_smepmp, xlen)
        self._expect_hart(_library.tilvenka_pmp_reset(self._unit, hart), hart)

    @property
    def hart(self) -> Hart:
        """The unit's hart.

        >>> print(Unit(8, 4096, 38, has_smepmp=False).hart)
        RV64 with 8 entries, grain 4096, 38 address bits and no Smepmp
        """
        number = self._unit.registers.entries
        if number in (16, 64):
            return Hart(number, 4, 56, True, 64)
        entries, bits, flags, g = number.to_bytes(8, "little")[:4]
        return Hart(entries, 4 << g, bits, bool(flags & 1), 32 if flags & 2 else 64)

    @staticmethod
    def _expect_hart(status: int, hart: int) -> None:
        if status == _c.NO_HART:
            raise ValueError(f"{hart} is the number of no hart")

    def write(self, register: Union[int, str], value: int) -> Written:
        """Writes a register, as firmware does in M-mode. Ignores what the unit doesn't store, as the manual says. If
        the hart has no such register, such as an odd pmpcfg on RV64, or mseccfg without Smepmp, nothing changes, and
        KeyError is raised. Raises ValueError if the value is no number of 64 bits, or the register none of 32.

        >>> unit = Unit()
        >>> unit.write("pmpcfg0", 0x1a).reasons.words   # W without R
        'reserved'
        >>> hex(unit.read("pmpcfg0"))
        '0x18'
        """
        first, last = ctypes.c_uint64(), ctypes.c_uint64()
        csr, value = _csr(register), _number(value, 64, "value")
        status = _library.tilvenka_pmp_write_moved(self._unit, csr, value, first, last)
        self._expect_done(status, register)
        moved = (first.value, last.value) if status & _c.MOVED else None
        return Written(bool(status & _c.CHANGED), moved, Reason(status >> 8 << 8))

    def read(self, register: Union[int, str]) -> int:
        """Returns what the register reads. Raises KeyError if the hart has no such register, and ValueError if it is a
        number of more than 32 bits."""
        value = ctypes.c_uint64()
        self._expect_done(_library.tilvenka_pmp_read(self._unit, _csr(register), value), register)
        return value.value

    @staticmethod
    def _expect_done(status: int, register: Union[int, str]) -> None:
        """Other bits report what a write did."""
        if status in (_c.ODD_CONFIGURATION, _c.NO_REGISTER):
            raise KeyError(register)

    def build(self) -> None:
        """Builds the map, for many questions after the last of several writes. settle() is for any number of
        questions."""
        _library.tilvenka_pmp_build(self._unit)

    def settle(self, questions: int) -> bool:
        """Builds the map if it isn't built and the given number of questions (decisions, rights, runs) since the last
        change pays for it. Returns whether it is then built. Count from 0 after a reset, a restore and each write that
        is_changed, add one for each question, and call this before it. Raises ValueError if it is no number of 64 bits.

        >>> unit = Unit()
        >>> unit.write("pmpcfg0", 0x19).is_changed
        True
        >>> unit.settle(1), unit.settle(1000000)        # one question costs less than a map
        (False, True)
        """
        return bool(_library.tilvenka_pmp_settle(self._unit, _number(questions, 64, "number of questions")))

    @property
    def is_built(self) -> bool:
        """Whether the map is built. After a write that changes something it isn't."""
        return bool(_library.tilvenka_pmp_is_built(self._unit))

    def decide(self, mode: Mode, kind: Kind, start: int, length: int) -> Answer:
        """Decides an access. Raises ValueError if the numbers describe none: no bytes or more than 4096, or an end
        above 2^56."""
        return self._answer(_library.tilvenka_pmp_decide, mode, kind, start, length)

    def decide_by_registers(self, mode: Mode, kind: Kind, start: int, length: int) -> Answer:
        """Decides by the registers alone: slower, and independent of the map."""
        return self._answer(_library.tilvenka_pmp_decide_by_registers, mode, kind, start, length)

    def _answer(self, call: ctypes._NamedFuncPointer, mode: Mode, kind: Kind, start: int, length: int) -> Answer:
        start, length = _number(start, 64, "start"), _number(length, 64, "length")
        return Answer.of_number(call(self._unit, Mode(mode), Kind(kind), start, length))

    def decide_many(self, questions: Union[bytearray, memoryview, ctypes.Array]) -> None:
        """Decides the accesses of a writable buffer of questions, each of 24 bytes: its start, of 8 bytes, and its
        length, mode, kind and answer, of 4 bytes each. The answers are written there, each as the number of an Answer.
        An array of Question is such a buffer, and so is a numpy array whose dtype is QUESTION.

        >>> questions = (Question * 2)((0x80000000, 8, Mode.USER, Kind.LOAD), (0x80000000, 8, Mode.MACHINE, Kind.LOAD))
        >>> Unit().decide_many(questions)
        >>> [bool(Answer.of_number(it.answer)) for it in questions]
        [False, True]
        """
        view = memoryview(questions).cast("B")
        count, rest = divmod(view.nbytes, ctypes.sizeof(Question))
        if rest:
            raise ValueError(f"{view.nbytes} bytes are no whole number of questions")
        _library.tilvenka_pmp_decide_many(self._unit, (Question * count).from_buffer(view), count)

    def rights(self, mode: Mode, start: int, length: int) -> Optional[Rights]:
        """Returns the rights of every access of the mode inside the range. None if not all bytes have the same entry,
        so each access has to be decided. Raises ValueError if the range has no bytes or ends above 2^56."""
        start, length = _number(start, 64, "start"), _number(length, 64, "length")
        number = _library.tilvenka_pmp_rights(self._unit, Mode(mode), start, length)
        if number == _c.NO_RANGE:
            raise ValueError("a range has 1 byte or more, below 2^56")
        return None if number == _c.MIXED else Rights(number)

    def save(self) -> Registers:
        """Returns all registers."""
        saved = _c.Registers()
        _library.tilvenka_pmp_save_to(self._unit, saved)
        return Registers(list(saved.addresses), list(saved.configurations), saved.mseccfg, saved.entries)

    def restore(self, registers: Registers) -> None:
        """Restores registers, whatever they hold and whatever is locked. Raises ValueError if their number names no
        hart, and then the unit is unchanged.

        >>> unit = Unit()
        >>> unit.restore(Unit(64).save())
        >>> unit == Unit(64)
        True
        """
        addresses = [_number(it, 64, "address") for it in registers.addresses]
        configurations = [_number(it, 8, "configuration") for it in registers.configurations]
        mseccfg, hart = _number(registers.mseccfg, 64, "mseccfg"), _number(registers.entries, 64, "hart")
        saved = _c.Registers(tuple(addresses), tuple(configurations), mseccfg, hart)
        self._expect_hart(_library.tilvenka_pmp_restore_from(self._unit, saved), hart)

    def run(self, address: int) -> Run:
        """Returns all bytes around this one that have the same entry, or none. Raises ValueError if the address isn't
        below 2^56.

        >>> run = Unit().run(0x80000000)
        >>> hex(run.last), run.owner, run.machine.letters
        ('0xffffffffffffff', None, 'rwx')
        """
        first, last = ctypes.c_uint64(), ctypes.c_uint64()
        address = _number(address, 64, "address")
        machine, others = (
            _library.tilvenka_pmp_run(self._unit, mode, address, first, last) for mode in (Mode.MACHINE, Mode.USER)
        )
        rights, owner = divmod(machine, _c.FAULT)
        if owner == _c.NO_ACCESS:
            raise ValueError("an address is below 2^56")
        entry = None if owner == _c.NO_MATCH else owner
        return Run(first.value, last.value, entry, Rights(rights), Rights(others // _c.FAULT))

    def map(self) -> List[Run]:
        """Returns the runs of all bytes, in order, as `pmp map` writes them."""
        built, runs = self.copy(), [self.run(0)]
        built.build()
        while runs[-1].last + 1 < 1 << 56:
            runs.append(built.run(runs[-1].last + 1))
        return runs

    def copy(self) -> Unit:
        """Returns an independent unit with these registers and this map."""
        other = Unit.__new__(Unit)
        other._unit = _c.Unit.from_buffer_copy(self._unit)
        return other

    __copy__ = copy

    def __deepcopy__(self, memo: Dict[int, object]) -> Unit:
        return self.copy()

    def __eq__(self, other: object) -> bool:
        return isinstance(other, Unit) and self.save() == other.save()

    __hash__ = None  # type: ignore[assignment]

    def __repr__(self) -> str:
        return f"<Unit of {self.hart}>"
