"""What checks/plans and checks/orders know of plans and of registers: a model that has nothing of the program's."""
import re
import subprocess

RIGHTS = {it: "".join(letter if it >> place & 1 else "-" for place, letter in enumerate("rwx")) for it in range(8)}
# What a rule gives M, and S and U, by its R, W and X (Smepmp, the truth table), where MML is 1: unlocked, and locked.
UNLOCKED = {0: (0, 0), 4: (0, 4), 2: (3, 1), 6: (3, 3), 1: (0, 1), 5: (0, 5), 3: (0, 3), 7: (0, 7)}
LOCKED = {0: (0, 0), 4: (4, 0), 2: (4, 4), 6: (5, 4), 1: (1, 0), 5: (5, 0), 3: (3, 0), 7: (1, 1)}
MML, MMWP, RLB = 1, 2, 4
OFF, TOR, NA4, NAPOT = range(4)
REFUSED = {"65": "overlap", "66": "pair", "67": "grain", "68": "entries", "69": "stopped", "70": "order"}


def rule_rights(mml, is_locked, bits):
    if mml:
        return (LOCKED if is_locked else UNLOCKED)[bits]
    return (bits if is_locked else 7), bits


def rules(mml):
    """Each rule that an entry can have, with what it gives: whether it is locked, its R, W and X, and the pair."""
    for is_locked in (False, True):
        for bits in range(8):
            if mml or bits & 3 != 2:
                yield is_locked, bits, rule_rights(mml, is_locked, bits)


def default_rights(mml, mmwp):
    return (0 if mmwp else 3 if mml else 7), 0


class Hart:
    """A hart with its parameters: how many entries, the grain in bytes, and whether it is RV32 and has Smepmp."""

    def __init__(self, entries, grain, is_rv32, smepmp):
        self.entries, self.grain, self.is_rv32, self.smepmp = entries, grain, is_rv32, smepmp
        self.bits = 34 if is_rv32 else 56

    def words(self):
        yield from ("--entries", str(self.entries), "--grain", str(self.grain))
        yield from ("--xlen", "32") if self.is_rv32 else ()
        yield from () if self.smepmp else ("--smepmp", "no")

    def head(self):
        """The lines of a script that give it, in any order."""
        lines = {f"hart entries {self.entries}", f"hart grain {self.grain}", f"hart bits {self.bits}",
                 f"hart smepmp {'yes' if self.smepmp else 'no'}"}
        return lines | {"hart xlen 32"} if self.is_rv32 else lines


class Plan:
    """A plan of the first grains of a hart's memory: rows of (first grain, grain behind the last, pair, is locked), and
    the bits of mseccfg with which they have to be met."""

    def __init__(self, hart, grains, mseccfg, rows):
        self.hart, self.grains, self.mseccfg, self.rows = hart, grains, mseccfg, rows
        self.mml, self.mmwp, self.rlb = mseccfg & MML, mseccfg & MMWP, mseccfg & RLB

    def text(self):
        lines = ["first,last,m,su,locked,name"]
        for number, (first, end, (machine, others), is_locked) in enumerate(self.rows):
            grain = self.hart.grain
            lines.append(f"{first * grain:#x},{end * grain - 1:#x},{RIGHTS[machine]},{RIGHTS[others]},"
                         f"{'yes' if is_locked else 'no'},row{number}")
        return "".join(f"{line}\n" for line in lines)

    def words(self, kept=0):
        """The options that ask for its bits, except those that are kept anyway."""
        asked = self.mseccfg & ~kept
        return [f"--{name}" for name, bit in (("mml", MML), ("mmwp", MMWP), ("rlb", RLB)) if asked & bit]

    def default(self):
        return default_rights(self.mml, self.mmwp)

    def cells(self):
        """What is asked of each grain: the pair, and whether it is locked. One more stands for all behind them."""
        cells = [(self.default(), False)] * (self.grains + 1)
        for first, end, pair, is_locked in self.rows:
            cells[first:end] = [(pair, is_locked)] * (end - first)
        return cells

    def cell_of(self, byte):
        return self.cells()[min(byte // self.hart.grain, self.grains)]

    def has_rule(self, pair, is_locked):
        return any(it == pair and (not is_locked or locks and not self.rlb) for locks, _, it in rules(self.mml))

    def is_sound(self):
        return all(self.has_rule(pair, is_locked) for _, _, pair, is_locked in self.rows)


class Registers:
    """The registers of a hart, at first as a reset leaves them, and what writes make of them."""

    def __init__(self, hart):
        self.hart = hart
        self.addresses, self.bytes, self.mseccfg = [0] * hart.entries, [0] * hart.entries, 0

    def copy(self):
        it = Registers(self.hart)
        it.addresses, it.bytes, it.mseccfg = self.addresses[:], self.bytes[:], self.mseccfg
        return it

    def key(self):
        return tuple(self.addresses), tuple(self.bytes), self.mseccfg

    def is_frozen(self, entry):
        return self.bytes[entry] & 128 and not self.mseccfg & RLB

    def stored(self, entry, byte):
        """What a configuration byte written over an entry's leaves there."""
        byte &= ~96
        if not self.mseccfg & MML and byte & 3 == 2:
            byte &= ~7
        if byte >> 3 & 3 == NA4 and self.hart.grain > 4:
            byte &= ~24
        is_barred = self.mseccfg & (MML | RLB) == MML and byte & 128 and LOCKED[byte & 7][0] & 4
        return self.bytes[entry] if self.is_frozen(entry) or is_barred else byte

    def holds_address(self, entry):
        """Whether a write leaves an address register as it is."""
        behind = entry + 1 < self.hart.entries and self.is_frozen(entry + 1) and self.bytes[entry + 1] >> 3 & 3 == TOR
        return self.is_frozen(entry) or behind

    def write(self, name, value):
        if name == "mseccfg":
            if not self.mseccfg & RLB and any(byte & 128 for byte in self.bytes):
                value &= ~RLB
            self.mseccfg = (value & 7 | self.mseccfg & 3) if self.hart.smepmp else 0
        elif name.startswith("pmpaddr"):
            entry = int(name[7:])
            if entry < self.hart.entries and not self.holds_address(entry):
                self.addresses[entry] = value & (1 << self.hart.bits - 2) - 1
        else:
            first, count = 4 * int(name[6:]), 4 if self.hart.is_rv32 else 8
            stored = [self.stored(entry, value >> 8 * (entry - first) & 255)
                      for entry in range(first, min(first + count, self.hart.entries))]
            self.bytes[first:first + len(stored)] = stored

    def set(self, name, value):
        """What a script begins with."""
        if name == "mseccfg":
            self.mseccfg = value
        elif name.startswith("pmpaddr"):
            self.addresses[int(name[7:])] = value
        else:
            first = 4 * int(name[6:])
            for entry in range(first, min(first + (4 if self.hart.is_rv32 else 8), self.hart.entries)):
                self.bytes[entry] = value >> 8 * (entry - first) & 255

    def span(self, entry):
        """The bytes that an entry matches: the first, and the one behind the last."""
        grain, address = self.hart.grain // 4, self.addresses[entry]
        how = self.bytes[entry] >> 3 & 3
        if how == TOR:
            low = self.addresses[entry - 1] if entry else 0
            return low // grain * grain * 4, address // grain * grain * 4
        if how == NA4:
            return address * 4, address * 4 + 4
        if how == NAPOT:
            address |= grain // 2 - 1 if grain > 1 else 0
            ones = (~address & address + 1).bit_length() - 1
            return address >> ones + 1 << ones + 3, (address >> ones + 1) + 1 << ones + 3
        return 0, 0

    def gives(self, starts):
        """What M, and S and U, may do with each of these bytes, and whether it is held."""
        spans = [self.span(entry) for entry in range(self.hart.entries)]
        frozen = [bool(self.is_frozen(entry)) for entry in range(self.hart.entries)]
        answers = []
        for byte in starts:
            owner = next((entry for entry, (first, end) in enumerate(spans) if first <= byte < end), None)
            if owner is None:
                answers.append((default_rights(self.mseccfg & MML, self.mseccfg & MMWP), all(frozen)))
            else:
                it = self.bytes[owner]
                answers.append((rule_rights(self.mseccfg & MML, it >= 128, it & 7), all(frozen[:owner + 1])))
        return answers


def starts_of(plan, states):
    """A byte of each range on which the plan and the entries of all these registers don't change: its first one."""
    ends = {number * plan.hart.grain for number in range(plan.grains + 1)}
    for it in states:
        for entry in range(plan.hart.entries):
            first, end = it.span(entry)
            ends |= {first, end} if first < end else set()
    return sorted(it for it in ends if it < 1 << plan.hart.bits)


def unmet(plan, registers):
    """Where registers don't meet a plan."""
    if registers.mseccfg != plan.mseccfg:
        return f"mseccfg is {registers.mseccfg}"
    starts = starts_of(plan, [registers])
    for byte, (gives, is_held) in zip(starts, registers.gives(starts)):
        pair, is_locked = plan.cell_of(byte)
        if gives != pair or is_locked and not is_held:
            return f"byte {byte:#x} isn't as in the plan"
    return None


def lines_of(script):
    """The lines of a script that `pmp plan` writes: its head, what it sets, and its writes."""
    version, *lines = script.splitlines()
    parts = {"hart": [], "set": [], "write": [], "publish": []}
    for line in lines:
        parts.get(line.split()[0], []).append(line)
    if version != "pmp 3" or lines[-1] != "publish" or sum(map(len, parts.values())) < len(lines):
        raise ValueError("the script has other lines")
    return set(parts["hart"]), *([(name, int(value, 0)) for _, name, value in (it.split() for it in parts[what])]
                                 for what in ("set", "write"))


def states_of(hart, script):
    """The registers of a hart that a script begins with, and those after each of its writes; and its writes."""
    head, sets, writes = lines_of(script)
    if head != hart.head():
        raise ValueError("the script has another hart")
    states = [Registers(hart)]
    for name, value in sets:
        states[0].set(name, value)
    for name, value in writes:
        states.append(states[-1].copy())
        states[-1].write(name, value)
    return states, writes


def array_of(text):
    """The writes of an array for C."""
    names = {0x747: "mseccfg"} | {0x3a0 + it: f"pmpcfg{it}" for it in range(16)}
    names |= {0x3b0 + it: f"pmpaddr{it}" for it in range(64)}
    found = re.findall(r"^    \{(0x[0-9a-f]+), (0x[0-9a-f]+)\},", text, re.MULTILINE)
    return [(names[int(csr, 16)], int(value, 16)) for csr, value in found]


def blocks(grains):
    """The naturally aligned blocks of the first grains, as masks, with where a top of range behind each begins."""
    size = 1
    while size <= grains:
        for first in range(0, grains, size):
            yield ((1 << size) - 1) << first, first + max(size // 2 - 1, 0)
        size *= 2


class Search:
    """Every choice of entries, from the first on, by what they own, where the last one ends, and whether one isn't
    frozen. No entry reaches behind the grains, but one that gives what is given there without it changes nothing by
    that."""

    def __init__(self, plan):
        self.plan = plan
        cells = plan.cells()[:plan.grains]
        default = plan.default()
        self.wanted = self.mask(cells, lambda pair, is_locked: pair != default or is_locked)
        self.locked = self.mask(cells, lambda pair, is_locked: is_locked)
        self.of_pair = {it: self.mask(cells, lambda pair, _, it=it: pair == it) for it, _ in cells}
        self.kinds = sorted({(pair, locks) for locks, _, pair in rules(plan.mml) if pair in self.of_pair})
        self.blocks = list(blocks(plan.grains))

    @staticmethod
    def mask(cells, test):
        return sum(1 << place for place, cell in enumerate(cells) if test(*cell))

    def behind(self, owned, low, is_open):
        """What one entry more leads to."""
        for tail in range(self.plan.grains + 1):
            yield owned, tail, is_open
        tops = [(((1 << end) - 1) & ~((1 << low) - 1), end) for end in range(low + 1, self.plan.grains + 1)]
        for pair, locks in self.kinds:
            opens = is_open or not locks or self.plan.rlb
            refused = ~self.of_pair[pair] | (self.locked if opens else 0)
            for mask, tail in self.blocks + tops:
                fresh = mask & ~owned
                if fresh and not fresh & refused:
                    yield owned | fresh, tail, opens

    def least(self, most):
        """The fewest entries, or none where more than so many are needed."""
        level, seen = {(0, 0, False)}, {(0, 0, False)}
        for count in range(most + 1):
            if any(owned & self.wanted == self.wanted for owned, _, _ in level):
                return count
            level = {it for state in level for it in self.behind(*state)} - seen
            seen |= level
        return None


def answered(program, plan, folder, *words):
    """What the program writes for a plan with these options, or why it refuses it."""
    path = f"{folder}/plan.csv"
    with open(path, "w", encoding="ascii") as file:
        file.write(plan.text())
    done = subprocess.run([*program, "plan", path, *words], capture_output=True, text=True, check=False)
    if done.returncode == 0:
        return done.stdout, None
    told = re.search(r"refused (\d+) ", done.stderr)
    return None, REFUSED.get(told and told[1], f"status {done.returncode}: {done.stderr}")
