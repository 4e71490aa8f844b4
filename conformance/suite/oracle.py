"""What the proved program says of cases: `pmp writes` for each register, `pmp audit` for each access. Many cases are
asked in one script, with a reset before each, and `pmp dump` says the same of one case at its end."""
import os
import subprocess
import tempfile
from dataclasses import dataclass, field
from itertools import accumulate

from . import place
from .case import CODE, CODE_SIZE, DATA, DATA_SIZE, GUEST_TABLE_ENTRY, STUB, TABLE_ENTRY
from .hart import PAGE

MAX_EVENTS = 500_000
MAX_ROWS = 200_000


@dataclass
class Expected:
    # The registers after each number of events.
    registers: list
    # Of each event, the reasons of `pmp writes`, and what is written.
    reasons: list = field(default_factory=list)
    written: list = field(default_factory=list)
    # "allow", "fault", or "either" where that depends on how the hart parts a misaligned access.
    answers: dict = field(default_factory=dict)
    # Of each access, why, and by which entry: the cause and the entry of `pmp audit`.
    causes: dict = field(default_factory=dict)
    # Of an access that is refused since something else is that it needs, the row of that.
    needs: dict = field(default_factory=dict)
    # For which (number of events, mode) the harness' stub may be fetched.
    stubs: set = field(default_factory=set)
    # Whether the harness keeps its code, its data and its devices throughout.
    is_safe: bool = True


def safety_rows(after):
    yield from (f"{after},M,fetch,{it:#x},{PAGE}" for it in range(CODE, CODE + CODE_SIZE, PAGE))
    yield from (f"{after},M,store,{it:#x},{PAGE}" for it in range(DATA, DATA + DATA_SIZE, PAGE))
    yield from (f"{after},M,store,{it:#x},4" for it in place.device_words)


def needs_of(access):
    """What else has to be allowed for an access: that of page tables, and that hlvx may execute too."""
    if access.by in ("walk", "update", "guest"):
        yield f"S,{'store' if access.by == 'update' else 'load'},{TABLE_ENTRY:#x},8"
    if access.by == "guest":
        yield f"S,load,{GUEST_TABLE_ENTRY:#x},8"
    if access.by == "hlvx":
        yield f"{access.mode},fetch,{access.start:#x},{access.length}"


def questions(case, is_for_hart):
    """The rows to ask of a case, in order, each with what it is for."""
    asked = {}
    for access in case.accesses:
        asked.setdefault(access.after, []).append(access)
    for after in range(len(case.events) + 1):
        for access in asked.get(after, ()):
            yield access, access.row
            for it in needs_of(access):
                yield (access, it), f"{after},{it}"
            if not access.is_one:
                for byte in range(access.start, access.start + access.length):
                    yield (access, byte), f"{after},{access.mode},{access.asked_kind},{byte:#x},1"
        if after in asked and is_for_hart:
            yield from ((("stub", mode), f"{after},{mode},fetch,{STUB:#x},{PAGE}") for mode in case.hart.lower)
        if is_for_hart:
            yield from ((("safe", after), it) for it in safety_rows(after))


def lines_of_case(case):
    """The case's lines behind a reset, each with what its row of `pmp writes` is for: the number of events, and the
    register. A configuration register that is written changes what the addresses of its entries read at a grain."""
    first = case.lines_of(("reset", ()))
    yield from ((it, None) for it in first)
    for after, event in enumerate(case.events, 1):
        for line in case.lines_of(event):
            yield line, None if line == "publish" else (after, (line.split() + ["reset"])[1])
        if case.hart.grain > 4:
            yield from ((f"expect {it} 0", (after, it)) for it in reread(case, event))


def reread(case, event):
    """The address registers that may read otherwise behind an event, though no write is of them."""
    hart = case.hart
    if event[0] == "reset":
        return [name for name, _ in event[1] if name.startswith("pmpaddr")]
    if not event[1].startswith("pmpcfg"):
        return []
    first = hart.first_entry(event[1])
    return [f"pmpaddr{it}" for it in range(first, min(first + hart.bytes_in, hart.entries))]


class Oracle:
    def __init__(self, program, is_for_hart):
        self.program = program
        self.is_for_hart = is_for_hart

    def ask(self, *words):
        done = subprocess.run([self.program, *words], capture_output=True, text=True, check=False)
        if done.returncode > 1 or done.stderr:
            raise SystemExit(f"conformance: {self.program} {' '.join(words)}: status {done.returncode}, {done.stderr}")
        return done.stdout.splitlines()

    def version(self):
        return " ".join(self.ask("--version"))

    def answer(self, cases):
        """What is expected of each case, in their order: all are of one hart."""
        found, chunk, events, rows = [], [], 0, 0
        for case in cases:
            asked = list(questions(case, self.is_for_hart))
            if chunk and (events > MAX_EVENTS or rows + len(asked) > MAX_ROWS):
                found += self.answer_chunk(chunk)
                chunk, events, rows = [], 0, 0
            chunk.append((case, asked))
            events, rows = events + len(case.events) + 1, rows + len(asked)
        return found + (self.answer_chunk(chunk) if chunk else [])

    def answer_chunk(self, chunk):
        script, trace, places = list(chunk[0][0].hart.head()), ["after,mode,kind,start,length"], {}
        done = 0
        for number, (case, asked) in enumerate(chunk):
            for line, place in lines_of_case(case):
                script.append(line)
                if place:
                    places[len(script)] = number, *place
            ends = list(accumulate((case.lines_of(it).count("publish") for it in case.events), initial=done + 1))
            for _, row in asked:
                after, rest = row.split(",", 1)
                trace.append(f"{ends[int(after)]},{rest}")
            done = ends[-1]
        writes, answers = self.read(script, trace)
        rows = [[] for _ in chunk]
        for row in writes:
            if place := places.get(int(row[2])):
                rows[place[0]].append((*place[1:], row))
        answers = iter(answers)
        return [expected_of(case, asked, mine, answers) for (case, asked), mine in zip(chunk, rows)]

    def read(self, script, trace):
        """The rows that `pmp writes` and `pmp audit` answer."""
        with tempfile.TemporaryDirectory() as work:
            paths = [os.path.join(work, it) for it in ("script.pmp", "trace.csv")]
            for path, lines in zip(paths, (script, trace)):
                with open(path, "w", encoding="ascii") as it:
                    it.write("\n".join(lines) + "\n")
            return ([it.split(",") for it in self.ask("writes", paths[0])],
                    [it.split(",") for it in self.ask("audit", *paths)])

    def check_dump(self, case, expected):
        """Whether `pmp dump` says the same of the registers at the case's end."""
        with tempfile.NamedTemporaryFile("w", suffix=".pmp") as it:
            it.write(case.script())
            it.flush()
            lines = self.ask("dump", it.name)
        return dumps(lines, expected)


def dumps(lines, expected):
    """Whether the lines of `pmp dump` are the registers at the end."""
    return {name: int(value, 16) for name, value in map(str.split, lines)} == expected.registers[-1]


def expected_of(case, asked, rows, answers):
    """`rows` are those of `pmp writes`, each behind its number of events and the register."""
    zeros = {it: 0 for it in case.hart.registers()} | {"mseccfg": case.hart.reset_security}
    expected = Expected([zeros])
    told = {}
    for after, name, row in rows:
        told.setdefault(after, []).append((name, row))
    for after, event in enumerate(case.events, 1):
        state = dict(zeros if event[0] == "reset" else expected.registers[-1])
        for name, row in told[after]:
            if name in state:
                state[name] = int(row[6], 16)
        row = told[after][0][1]
        expected.registers.append(state)
        expected.reasons.append(row[8].split())
        expected.written.append(int(row[4], 16) if row[4] else 0)
    for key, row in asked:
        note_answer(expected, key, row, next(answers))
    return expected


def note_answer(expected, key, row, told):
    answer = told[1]
    if not isinstance(key, tuple):
        expected.causes[key] = told[3], told[4]
        expected.answers[key] = answer if key.is_one or answer == "allow" else "either"
    elif key[0] == "safe":
        expected.is_safe &= answer == "allow"
    elif key[0] == "stub":
        if answer == "allow":
            expected.stubs.add((int(row.split(",")[0]), key[1]))
    elif answer == "fault":
        expected.answers[key[0]] = "fault"
        if isinstance(key[1], str):
            expected.needs.setdefault(key[0], key[1])
