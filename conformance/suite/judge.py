"""Compares what a simulator answers to a run of a case with what the program says. A choice that the manual leaves open
is noted, and what follows is compared with what the program says behind it; anything else is a difference."""
from collections import Counter
from dataclasses import dataclass, replace

from .answers import Answer, Look
from .blob import ways_of
from .case import L, MML, NA4, RLB, TOR
from .profile import OTHER_EXTENSIONS
from .simulator import Run

FAULTS = {"fetch": 1, "load": 5, "store": 7}
MISALIGNED = {"fetch": 0, "load": 4, "store": 6}
# L R W X of the rules that lockdown bars.
BARRED = (9, 10, 11, 13)
BY_RESERVED = "by a rule that was written with W and without R while MML was 0"
AS_NOT_UPDATED = "by a page table whose A and D the hart doesn't set, which raise page faults"
PAGE_FAULTS = {"load": 13, "store": 15}
AS_MISALIGNED = "misaligned, which raise an exception of their own"


@dataclass(frozen=True)
class Difference:
    # How many events are done, the access or the register, and what each side says.
    after: int
    access: object
    way: int
    wanted: str
    got: str
    # Whether the simulator allows what is refused ("opens"), refuses what is allowed ("closes"), or neither.
    effect: str = ""


@dataclass(frozen=True)
class Taken:
    """A choice that shows in a register: in place of the event the hart made this one."""

    after: int
    event: tuple


def row_of(byte):
    return byte >> 4 & 8 | byte << 2 & 4 | byte & 2 | byte >> 2 & 1


def is_reserved(byte):
    return byte & 3 == 2


def is_frozen(byte, security):
    return bool(byte & L) and not security & RLB


class Comparison:
    """One run beside its answers."""

    def __init__(self, profile, run, steps):
        self.profile, self.run, self.steps = profile, run, iter(steps)
        self.case, self.expected, self.hart = run.understood, run.expected, run.case.hart
        self.state = {it: 0 for it in self.hart.registers(self.case.looks)}
        # The entries that keep a reserved byte, which the program's unit can't, and the byte.
        self.reserved = {}
        self.choices, self.unjudged = [], Counter()
        # How many choices were made before the last look.
        self.mark = 0

    def first(self):
        """The first difference, or the first choice by which the rest has to be asked anew, or None."""
        found = self.look(0, next(self.steps, None))
        for after in range(len(self.case.events) + 1):
            for access in () if found else self.run.part:
                if access.after == after:
                    for way in ways_of(access, self.expected):
                        found = found or self.access(access, way, next(self.steps, None))
            for attempt in () if found else self.case.attempts:
                if attempt.after == after:
                    found = found or self.attempt(attempt, next(self.steps, None))
            if found or after == len(self.case.events):
                return found
            found = self.look(after + 1, next(self.steps, None))
        return found

    def allows(self, switch, value):
        self.choices.append((switch, value))
        return self.profile.allows(switch, value)

    def look(self, after, look):
        if not isinstance(look, Look):
            return Difference(after, None, 0, "an answer", "none: the simulator hung or ended")
        event = self.case.events[after - 1] if after else ("reset", ())
        before, self.mark = dict(self.state), len(self.choices)
        if event[0] == "reset":
            self.state.update({it: 0 for it in self.state})
            self.reserved = {}
        elif after:
            self.forget_reserved(after, event)
        if look.changed.get("mseccfgh"):
            return Difference(after, "mseccfgh", 0, f"{0:#018x}", f"{look.changed['mseccfgh']:#018x}")
        self.state.update(look.changed)
        if after == 0 and self.case.looks > self.hart.entries:
            self.allows("absent", "exception" if look.missing - {"mseccfg", "mseccfgh"} else "zero")
        wanted = self.expected.registers[after]
        if self.reserved or len(wanted) != len(self.state):
            wanted = {it: self.wanted(after, it) for it in self.state}
        if self.state == wanted:
            return self.note_alike(after)
        if event[0] == "reset" and after:
            return self.behind_reset(after, event, wanted)
        unlike = [it for it in self.state if self.state[it] != wanted[it]]
        found = [self.unlike(after, event, before, it, wanted[it]) for it in unlike]
        return next((it for it in found if isinstance(it, Taken)), next(filter(None, found), None))

    def wanted(self, after, name):
        """What a register should read: the program's answer, with the reserved bytes that the hart keeps."""
        value = self.expected.registers[after].get(name, 0)
        for entry, byte in self.reserved.items():
            if self.hart.configuration(entry) == name:
                shift = 8 * (entry % self.hart.bytes_in)
                value = value & ~(0xff << shift) | byte << shift
        return value

    def forget_reserved(self, after, event):
        """A byte that is stored over isn't the old one any more."""
        before = self.expected.registers[after - 1]
        for entry in list(self.reserved):
            if event[1] == self.hart.configuration(entry) and self.is_stored(before, entry, self.written(after)):
                del self.reserved[entry]

    def written(self, after):
        """What the event writes."""
        return self.expected.written[after - 1]

    def is_stored(self, before, entry, value):
        """Whether a write of the value to its register stores the entry's byte."""
        security, byte = before["mseccfg"], value >> 8 * (entry % self.hart.bytes_in) & 0xff
        is_barred = security & MML and not security & RLB and row_of(byte) in BARRED
        return not is_barred and not is_frozen(self.hart.byte_of(before, entry), security)

    def note_alike(self, after):
        """Notes the choices that are made as the program makes them."""
        reasons = self.expected.reasons[after - 1] if after else ()
        if "grain" in reasons and self.case.events[after - 1][1].startswith("pmpcfg") \
                and self.expected.registers[after] != self.expected.registers[after - 1]:
            self.allows("na4", "off")
        if "reserved" in reasons and not self.reserved:
            self.allows("reserved", "no-rights")
        if "lockdown" in reasons and self.expected.registers[after] != self.expected.registers[after - 1]:
            self.allows("barred", "byte")

    def differs_in(self, after, name, wanted):
        return Difference(after, name, 0, f"{wanted:#018x}", f"{self.state[name]:#018x}")

    def unlike(self, after, event, before, name, wanted):
        """What a register is that doesn't read what is expected: a choice, one that changes nothing, or wrong."""
        got = self.state[name]
        if name == "mseccfg" and (got ^ wanted) & ~OTHER_EXTENSIONS == 0:
            return self.other_extensions(after, event, before[name], got, wanted)
        if event[0] == "write" and name == event[1] and name.startswith("pmpcfg"):
            reasons = self.expected.reasons[after - 1]
            if "lockdown" in reasons and got == before[name]:
                is_allowed = self.allows("barred", "register")
                kept = ("write", name, self.expected.registers[after - 1][name])
                return Taken(after, kept) if is_allowed else self.differs_in(after, name, wanted)
            return self.unlike_bytes(after, event, name, wanted)
        return self.differs_in(after, name, wanted)

    def other_extensions(self, after, event, before, got, wanted):
        """Bits of Zkr, Zicfilp and Smmpm: each holds what was written, or nothing, and PMM no reserved value."""
        got, before = got & OTHER_EXTENSIONS, before & OTHER_EXTENSIONS
        is_written = event[0] == "write" and event[1] == "mseccfg"
        written = self.written(after) & OTHER_EXTENSIONS if is_written else before
        mask_bits = got >> 32 & 3, written >> 32 & 3, before >> 32 & 3
        is_lawful = not got & ~written & 0x700 and mask_bits[0] != 1 and mask_bits[0] in (0, *mask_bits[1:])
        is_lawful &= mask_bits[0] == 0 or mask_bits[1] != 0
        if is_lawful and (is_written or got == before) and self.allows("mseccfg_bits", hex(got)):
            return None
        return self.differs_in(after, "mseccfg", wanted)

    def unlike_bytes(self, after, event, name, wanted):
        """The write's bytes one by one. Where one differs that has no choice, the register does."""
        before, value = self.expected.registers[after - 1], self.written(after)
        first = self.hart.first_entry(name)
        for place in range(self.hart.bytes_in):
            whole = self.written(after)
            written, got, byte = (it >> 8 * place & 0xff for it in (whole, self.state[name], wanted))
            if got == byte:
                continue
            entry = first + place
            if entry >= self.hart.entries or not self.is_stored(before, entry, whole) \
                    or not self.is_choice(before["mseccfg"], written, got, byte, self.hart.byte_of(before, entry)):
                return self.differs_in(after, name, wanted)
            if is_reserved(got) and not before["mseccfg"] & MML:
                self.reserved[entry] = got
                got = written & 0xe7 | got & 0x18
            value = value & ~(0xff << 8 * place) | got << 8 * place
        return Taken(after, ("write", name, value)) if value != self.written(after) else None

    def is_choice(self, security, written, got, wanted, before):
        """Whether the hart may store a byte so: rights of a reserved one, and A where NA4 can't be chosen."""
        is_na4 = self.hart.grain > 4 and written >> 3 & 3 == NA4
        rights_matter = not is_reserved(written) or security & MML
        if (got ^ wanted) & (0x7 if rights_matter else 0) or (got ^ wanted) & (0xe0 if is_na4 else 0xf8):
            return False
        is_allowed = True
        if not rights_matter:
            same = [("as-written", written & 7), ("no-rights", 0)]
            is_allowed = self.allows("reserved", next((it for it, bits in same if bits == got & 7), "other"))
        if is_na4:
            how = self.na4_choice(before >> 3 & 3, got >> 3 & 3)
            is_allowed = is_allowed and how != "na4" and (how is None or self.allows("na4", how))
        return is_allowed

    @staticmethod
    def na4_choice(before, matching):
        """What a hart without NA4 makes of it, or None where that can't be told."""
        if before == matching:
            return "kept" if matching == TOR else None
        return ("off", "tor", "na4", "napot")[matching]

    def behind_reset(self, after, event, wanted):
        """A reset clears A and L, and sets mseccfg as it is after power comes; all else is the hart's choice."""
        kept = []
        for name in (it for it in self.state if self.state[it] != wanted[it]):
            is_wrong = self.state[name] & 0x9898989898989898 if name.startswith("pmpcfg") else name == "mseccfg"
            if is_wrong or not self.allows("reset_rest", "kept"):
                return self.differs_in(after, name, wanted[name])
            value = self.state[name]
            value = self.without_reserved(name, value) if name.startswith("pmpcfg") else value
            if value != self.expected.registers[after].get(name, 0):
                kept.append((name, value))
        return Taken(after, ("reset", (*event[1], *kept))) if kept else None

    def without_reserved(self, name, value):
        """The bytes that the program's unit can have; the others are noted."""
        for place, byte in enumerate(value.to_bytes(8, "little")):
            if is_reserved(byte):
                self.reserved[self.hart.first_entry(name) + place] = byte
                value &= ~(0xff << 8 * place)
        return value

    def access(self, access, way, got):
        wanted = self.expected.answers[access]
        if not isinstance(got, Answer):
            return Difference(access.after, access, way, wanted, "none: the simulator hung or ended")
        if got.cause == MISALIGNED[access.kind] and not access.is_aligned:
            self.unjudged[AS_MISALIGNED] += 1
            is_lawful = self.allows("misaligned", "exception")
            return None if is_lawful else self.differs(access, way, wanted, got)
        if access.by == "update" and got.cause == PAGE_FAULTS[access.kind]:
            self.unjudged[AS_NOT_UPDATED] += 1
            return None
        if got.cause is not None and not self.is_fault_of(access, got):
            return self.differs(access, way, wanted, got)
        is_allowed = got.cause is None
        if self.is_by_reserved(access):
            self.unjudged[BY_RESERVED] += 1
            return None
        if wanted == "either" and access.is_aligned:
            return None
        if wanted == "either":
            is_lawful = self.allows("misaligned", "parts" if is_allowed else "whole")
            return None if is_lawful else self.differs(access, way, wanted, got)
        return None if is_allowed == (wanted == "allow") else self.differs(access, way, wanted, got)

    def attempt(self, attempt, got):
        what = str(attempt)
        if not isinstance(got, Answer):
            return Difference(attempt.after, what, 0, "exception 2", "none: the simulator hung or ended")
        if attempt.is_there:
            return None if got.cause is None else Difference(attempt.after, what, 0, "no exception", str(got), "closes")
        if got.cause == 2 and got.is_at_access:
            return None
        return Difference(attempt.after, what, 0, "exception 2", str(got), "opens" if got.cause is None else "")

    def is_by_reserved(self, access):
        """Whether a reserved byte that the hart keeps decides."""
        cause, entry = self.expected.causes[access]
        if cause != "rule" or int(entry) not in self.reserved:
            return False
        state = self.expected.registers[access.after]
        spared = access.mode == "M" and not state["mseccfg"] & MML
        return not spared or bool(self.hart.byte_of(state, int(entry)) & L)

    def is_fault_of(self, access, got):
        is_zero = got.address == 0
        if got.cause != FAULTS[access.kind] or not got.is_at_access:
            return False
        if not is_zero and not access.start <= got.address < access.start + access.length:
            return False
        return self.allows("fault_address", "zero" if is_zero else "address")

    @staticmethod
    def differs(access, way, wanted, got):
        text = f"fault, {FAULTS[access.kind]}" if wanted == "fault" else wanted
        effect = "opens" if got.cause is None else "closes" if wanted == "allow" else ""
        return Difference(access.after, access, way, text, str(got), effect)


def differences(oracle, profile, runs, steps):
    """Each run that differs, with its first difference. What follows a choice is asked of the program anew."""
    pending = [(run, these, ()) for run, these in zip(runs, steps)]
    while pending:
        taken = []
        for run, these, made in pending:
            comparison = Comparison(profile, run, these)
            found = comparison.first()
            if isinstance(found, Taken):
                events = list(run.understood.events)
                events[found.after - 1] = found.event
                made = (*made, *comparison.choices[comparison.mark:])
                taken.append((run, replace(run.understood, events=events), these, made))
                continue
            for switch, value in (*made, *comparison.choices):
                profile.note(switch, value, run.case.name)
            for reason, count in comparison.unjudged.items():
                profile.unjudged[reason] = profile.unjudged.get(reason, 0) + count
            if found:
                yield run, found
        answers = oracle.answer([case for _, case, _, _ in taken])
        pending = [(Run(run.case, run.part, it, case), these, made)
                   for (run, case, these, made), it in zip(taken, answers)]
