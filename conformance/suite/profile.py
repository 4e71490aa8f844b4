"""A profile: what the manual leaves to a hart. A switch that a file gives is demanded; any other is found by probing,
or by the cases where it shows, and is told in the report."""
from dataclasses import dataclass, field

from .answers import Answer, Facts, Look
from .blob import CASE, EXTENSIONS, HART, KEEP, LOOK, WAYS, WRITE, access_words
from .case import ARENA, FAR, MEMORY_END, MML, MMWP, RLB, Access, number_of
from .hart import Hart

# Each switch, and what it says.
SWITCHES = {
    "xlen": "how many bits a register has",
    "entries": "how many entries there are: 0 to 64",
    "grain": "the least size of a region, in bytes",
    "address_bits": "how many bits a physical address has",
    "smepmp": "whether mseccfg is there and has its bits: yes or no",
    "memory": "where it ends: loads are tried up to there",
    "modes": "which modes there are: M, MU or MSU",
    "extensions": "what else loads and stores: none, or of " + ", ".join(EXTENSIONS),
    "reset_mseccfg": "what mseccfg is after power comes",
    "reset_rest": "whether a reset leaves other fields than A and L: kept or cleared",
    "reserved": "what is left of a byte with W and without R, where MML is 0: as-written, no-rights or other",
    "barred": "how much of a write is ignored for a byte that lockdown bars: byte or register",
    "na4": "what A is behind a write of NA4 on a hart of a coarser grain: off, tor, napot or kept",
    "absent": "how an access to a register of a missing entry ends: zero or exception",
    "misaligned": "whether a misaligned access in several rules is one access: whole, parts or exception",
    "mseccfg_bits": "which bits of other extensions mseccfg has, of 0x300000700",
    "fault_address": "what mtval is at a fault: zero or address",
}
OTHER_EXTENSIONS = 0x300000700
OF_SUPERVISOR = ("hypervisor", "walk", "hlvx", "guest")


@dataclass
class Profile:
    given: dict = field(default_factory=dict)
    # Each switch with the values seen, in how many answers, and the case that showed each first.
    seen: dict = field(default_factory=dict)
    first: dict = field(default_factory=dict)
    # Why accesses weren't judged, and how many.
    unjudged: dict = field(default_factory=dict)
    hart: Hart = Hart()
    # The registers whose accesses raise exceptions.
    absent: set = field(default_factory=set)

    def allows(self, switch, value):
        """Whether the choice may be made."""
        return self.given.get(switch, value) == value

    def note(self, switch, value, case=""):
        values = self.seen.setdefault(switch, {})
        values[value] = values.get(value, 0) + 1
        self.first.setdefault((switch, value), case)

    def unmet(self):
        """The switches that are demanded, where the hart has shown another value."""
        return [it for it, value in self.given.items() if set(self.seen.get(it, ())) - {value}]

    def lines(self):
        for switch in SWITCHES:
            values = self.seen.get(switch, {})
            if switch in self.given:
                more = "but the hart has " + ", ".join(values) if switch in self.unmet() else "as given"
                yield f"{switch} {self.given[switch]}    # {more}"
            elif values:
                more = "" if len(values) == 1 else "    # " + ", ".join(f"{it} {count}" for it, count in values.items())
                yield f"{switch} {max(values, key=values.get)}{more}"
            else:
                yield f"# {switch}: not seen"

    def inconsistent(self):
        """The choices that were made in more than one way, each with the case that shows it first."""
        for switch, values in self.seen.items():
            if len(values) > 1 and switch != "mseccfg_bits":
                yield f"{switch}: " + ", ".join(f"{it} {count} times, first in {self.first[switch, it]}"
                                                for it, count in values.items())


def read(path):
    given = {}
    with open(path, encoding="utf-8") as it:
        for line in it:
            words = line.split("#")[0].split()
            if words and (len(words) != 2 or words[0] not in SWITCHES):
                raise SystemExit(f"conformance: {path}: no switch and value: {line.strip()}")
            if words:
                given[words[0]] = words[1]
    return given


class Probe:
    """A run whose first look is at what power left, and whose later ones show which registers and modes there are."""

    is_sticky = False

    def __init__(self, far=FAR):
        self.words = [CASE | 64 << 8 | KEEP, LOOK, HART, *access_words(Access(0, "M", "load", ARENA + 1, 2), 0, None)]
        for start in far:
            self.words += access_words(Access(0, "M", "load", start, 4), 0, None)
        # All entries have all memory with all rights.
        self.write(range(0x3B0, 0x3F0), 2**64 - 1)
        self.write(range(0x3A0, 0x3B0), 0x1F1F1F1F1F1F1F1F)
        for by, (mode, kind, length) in EXTENSIONS.items():
            self.words += access_words(Access(0, mode, kind, ARENA, length, by), 0, None)
        self.write((number_of("mseccfg"),), RLB)

    def write(self, numbers, value):
        for number in numbers:
            self.words += [WRITE | number << 16, value]
        self.words += [LOOK]

    def numbered(self, number):
        return [self.words[0] | number << 32, *self.words[1:]]


def note_probe(profile, steps):
    """What the probe's steps say of the hart."""
    looks = [it for it in steps if isinstance(it, Look)]
    facts = next((it for it in steps if isinstance(it, Facts)), None)
    if len(looks) < 4 or facts is None:
        raise SystemExit("conformance: the simulator doesn't answer the probe, the first run. Check that its board, "
                         "memory and XLEN are those of --board, --link and --xlen, that the board's console is its "
                         "standard output, and what it says when it is started by hand: see conformance/README.md")
    addresses = looks[0].changed | looks[1].changed
    profile.absent = looks[0].missing
    answers = [it for it in steps if isinstance(it, Answer)]
    extensions = tuple(by for by, it in zip(EXTENSIONS, answers[-len(EXTENSIONS):])
                       if it.cause is None and WAYS.index(by) < facts.ways)
    memory = memory_of(profile.given, answers[1:-len(EXTENSIONS)])
    if "block" not in extensions:
        # Nothing else tells the size of a block.
        extensions = tuple(it for it in extensions if it not in ("clean", "inval"))
    hart = profile.hart = hart_of(addresses, facts, looks, extensions, memory)
    for switch, value in (("xlen", hart.xlen), ("entries", hart.entries), ("grain", hart.grain),
                          ("address_bits", hart.bits), ("smepmp", "yes" if hart.has_smepmp else "no"),
                          ("memory", hex(hart.memory)), ("modes", hart.modes),
                          ("extensions", ",".join(hart.extensions) or "none"),
                          ("reset_mseccfg", hex(looks[0].changed.get("mseccfg", 0)))):
        profile.note(switch, str(value), "probe")
    if answers and answers[0].cause == 4:
        profile.note("misaligned", "exception", "probe")


def memory_of(given, answers):
    """Where memory ends: as it is given, or before the first of the far loads that is refused."""
    if "memory" in given:
        return int(given["memory"], 0)
    return next((start for start, it in zip(FAR, answers) if it.cause is not None), 2**56)


def hart_of(addresses, facts, looks, extensions, memory):
    """By the addresses that are left of ones, and by whether RLB is left of mseccfg."""
    most = 54 if facts.xlen == 64 else 32
    holding = [it for it in range(64) if addresses.get(f"pmpaddr{it}")]
    ones = addresses.get("pmpaddr0", 0) & (2**most - 1)
    security = looks[0].changed | looks[3].changed
    modes = "M" + ("S" if facts.modes & 2 else "") + ("U" if facts.modes & 1 else "")
    return Hart(
        xlen=facts.xlen, entries=holding[-1] + 1 if holding else 0, modes=modes, memory=memory,
        extensions=tuple(it for it in extensions if it not in OF_SUPERVISOR or "S" in modes),
        grain=(ones & -ones) * 4 if ones else 4, bits=ones.bit_length() + 2 if ones else most + 2,
        has_smepmp="mseccfg" not in looks[0].missing and bool(security.get("mseccfg", 0) & RLB),
        reset_security=looks[0].changed.get("mseccfg", 0) & (MML | MMWP | RLB))


def demanded_hart(given):
    """The hart that a profile says, where none can be probed."""
    plain = Hart()
    yes = given.get("smepmp", "yes") == "yes"
    return Hart(
        xlen=int(given.get("xlen", plain.xlen)), entries=int(given.get("entries", plain.entries)),
        grain=int(given.get("grain", plain.grain)), bits=int(given.get("address_bits", plain.bits)), has_smepmp=yes,
        memory=int(given.get("memory", hex(MEMORY_END)), 0), modes=given.get("modes", plain.modes),
        extensions=tuple(given.get("extensions", "lr").split(",")),
        reset_security=int(given.get("reset_mseccfg", "0"), 0) & 7 if yes else 0)
