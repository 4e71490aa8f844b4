"""Cases as the harness reads them: words of 64 bits."""
import struct

from .case import HOW, number_of

END, CASE, WRITE, LOOK, EXPECT, ACCESS, RESET, SPOT, HART, ATTEMPT, NAME = range(11)
KEEP = 1 << 16
KINDS = {"fetch": 0, "load": 1, "store": 2}
AMOS = ("amoswap", "amoadd", "amoxor", "amoand", "amoor", "amomin", "amomax", "amominu", "amomaxu")
# What an access is made by, where it isn't a plain fetch, load or store.
WAYS = ("", "unsigned", "lr", "sc", *AMOS, "falling", "float", "vector", "block", "hypervisor", "walk",
        "clean", "flush", "update", "inval", "hlvx", "guest", "mprv", "masked")
# How many of these a simulator knows that doesn't say so.
FIRST_WAYS = WAYS.index("inval")
# Those of extensions, each with the mode, the kind and the length of an access that shows whether the hart has it.
EXTENSIONS = {"lr": ("M", "load", 4), "float": ("M", "load", 8), "vector": ("M", "load", 64),
              "block": ("M", "store", 64), "hypervisor": ("M", "load", 4), "walk": ("M", "load", 4),
              "clean": ("M", "store", 64), "inval": ("M", "store", 64), "hlvx": ("M", "load", 4),
              "guest": ("S", "load", 4), "masked": ("M", "load", 4)}
MODES = {"U": 0, "S": 1, "M": 3}
ANSWERS = {None: 0, "allow": 1, "fault": 2, "either": 3}
ALL_ONES = 2**64 - 1


def ways_of(access, expected):
    """By the mode itself for machine mode and fetches; else by MPRV, and by the mode itself where it has the stub."""
    if access.mode == "M" or access.kind == "fetch" or (access.after, access.mode) not in expected.stubs \
            or access.by in (*EXTENSIONS, "flush", "update") and access.by != "lr":
        return (0,)
    return (0, 1)


# How many places of the arena the harness can give another instruction in a run.
SPOTS = 64


def is_spot(access):
    """Whether an instruction of its own has to be there: one of four bytes, or one before it that it is reached by."""
    return access.kind == "fetch" and (access.length == 4 or access.by == "falling")


def spot_of(access):
    """Where that is, and whether it is the one before."""
    return (access.start - 2, 1) if access.by == "falling" else (access.start, 0)


def meet(one, other):
    first, last = spot_of(one)[0], spot_of(other)[0]
    return first < other.start + other.length and last < one.start + one.length


def can_share(access, others):
    """A fetch of four bytes finds an instruction of its own there, which no store and no other fetch may meet."""
    for other in others:
        same = is_spot(access) and is_spot(other) and spot_of(access) == spot_of(other)
        kinds = {access.kind, other.kind}
        if not same and meet(access, other) and kinds & {"store", "fetch"} and kinds != {"fetch", "load"}:
            return False
    return True


class Part:
    """Accesses that can be made in one run of a case."""

    def __init__(self):
        self.accesses, self.spots, self.starts = [], [], set()

    def takes(self, access):
        """Whether the access can be made beside the others: then it is one of them."""
        if not can_share(access, self.accesses if is_spot(access) else self.spots):
            return False
        if is_spot(access):
            if len(self.starts | {spot_of(access)}) > SPOTS:
                return False
            self.starts.add(spot_of(access))
            self.spots.append(access)
        self.accesses.append(access)
        return True


def parts_of(case):
    """The case's accesses in lists of those that can be made in one run of it."""
    parts = [Part()]
    for access in case.accesses:
        if not any(it.takes(access) for it in parts):
            parts.append(Part())
            parts[-1].takes(access)
    return [it.accesses for it in parts]


def expects(state):
    """What the look behind a reset expects: A and L, and mseccfg. All else a hart may keep."""
    for name, value in state.items():
        mask = ALL_ONES if name == "mseccfg" else 0x9898989898989898 if name.startswith("pmpcfg") else 0
        yield from (EXPECT | number_of(name) << 16, mask, value)


def access_words(access, way, answer):
    yield (ACCESS | KINDS[access.kind] << 8 | MODES[access.mode] << 12 | way << 16
           | ANSWERS[answer] << 24 | WAYS.index(access.by) << 32 | access.length << 40)
    yield access.start


def words_of(case, part, expected):
    """A run of a case with one part of its accesses. What is judged in the harness is what has no lawful choice."""
    yield CASE | case.looks << 8
    for start, is_before in sorted({spot_of(it) for it in part if is_spot(it)}):
        yield from (SPOT | is_before << 8, start)
    yield LOOK
    is_judged = True
    for after in range(len(case.events) + 1):
        for access in part:
            if access.after == after:
                for way in ways_of(access, expected):
                    yield from access_words(access, way, expected.answers.get(access) if is_judged else None)
        for it in case.attempts:
            if it.after == after:
                yield ATTEMPT | HOW.index(it.how) << 8 | MODES[it.mode] << 12 | it.number << 16 | it.is_there << 28
        if after < len(case.events):
            event = case.events[after]
            how = HOW.index((*event, "write")[3]) if event[0] == "write" else 0
            yield from (RESET,) if event[0] == "reset" else (WRITE | how << 8 | number_of(event[1]) << 16, event[2])
            is_judged = is_judged and not {"reserved", "lockdown", "grain"} & set(expected.reasons[after])
            state = expected.registers[after + 1]
            if is_judged and event[0] == "write" and event[1] in state:
                yield from (EXPECT | number_of(event[1]) << 16, ALL_ONES, state[event[1]])
            elif is_judged and event[0] == "reset":
                yield from expects(state)
            elif event[0] == "write":
                yield from (EXPECT | number_of(event[1]) << 16, 0, 0)
            yield LOOK


def name_words(name):
    """A case's name, of which the harness has 64 letters at most."""
    letters = name.encode("ascii")[:64]
    padded = letters + bytes(-len(letters) % 8)
    return [NAME | len(letters) << 8, *struct.unpack(f"<{len(padded) // 8}Q", padded)]


# What the first word says: that nothing is told but what is wrong, and that a reset has to follow.
QUIET, RESETS = 1, 2


def blob_of(runs, flags=0):
    words = [flags]
    for it in runs:
        words += it
    return struct.pack(f"<{len(words) + 1}Q", *words, END)
