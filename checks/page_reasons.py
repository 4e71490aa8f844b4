"""What checks/page tries of reasons: what the module says of why an access is decided as it is, byte for byte as
`pmp why` writes it, for scripts of checks/rows too, and what the page makes of that row: its sentences, the lines that
they lead to, the answers at all moments, and the report."""
import itertools
import pathlib
import re
import subprocess

from page_rows import program_rows

ROWS = pathlib.Path(__file__).parent / "rows"
FILES = ("lint", "check", "entries", "heads", "marks", "rv32", "shorthands")
MODES = ("M", "S", "U")
KINDS = ("fetch", "load", "store")
# What these columns may have, and has to be met.
WORDS = {"answer": {"allow", "fault"}, "cause": {"rule", "split", "none"}, "matching": {"", "tor", "na4", "napot"},
         "table": {"", "plain", "smepmp"}, "lock": {"", "-", "bypassed", "frozen"}, "held": {"", "-", "held"}}
# The columns that lead to a line, and what they are called.
PARTS = {"configured": "its configuration byte", "addressed": "its address register",
         "lowend": "the low end of its range"}
MADE = """pmp 3
hart entries 8
set pmpaddr2 0x20000000
set pmpcfg0 0x1b0000
# TOR from 0 on, na4, TOR behind an address register that is set, and one behind a write
write pmpaddr0 0x400
write pmpcfg0 0x1b0f
write pmpaddr1 0x1000
publish first
write pmpaddr3 0x20004000
write pmpcfg0 0x8f1b170f
write mseccfg 4
publish
write pmpcfg0 0x8f1b978f
write mseccfg 0
publish frozen
write mseccfg 3
reset
write pmpaddr6 0x20000000
write pmpaddr7 0x20004000
write pmpcfg0 0x8f00000000000000
publish
"""
# The scripts whose reasons are shown, each with the most lines of it that one reason leads to.
SHOWN = {"smepmp-boot": 2, "opensbi-1.1-virt": 2, "registers": 0, "a made script": 3}
NAMES = "first,last,name\n0x0,0xfff,low\n0x80000000,0x8000ffff,firmware\n0x80010000,0x80010003,<i>&amp;\n"
PLACES = (("M", "load", 0x10, 4), ("U", "store", 0x4000, 4), ("S", "fetch", 0x80000010, 8), ("U", "load", 0xFFE, 4),
          ("S", "load", 0x80010000, 8), ("M", "store", 0x80001000, 8))
TABLES = {"plain": "read by the plain rule, since MML is 0: they bind S-mode and U-mode, and M-mode if L is 1",
          "smepmp": "read by the truth table of Smepmp, since MML is 1"}
LOCKS = {("-", "-"): "It isn’t locked.", ("bypassed", "-"): "It is locked, but bypassed: RLB is 1.",
         ("frozen", "-"): "It is frozen, but not held: an entry before it isn’t frozen.",
         ("frozen", "held"): "It is frozen, and held: all entries before it are frozen too."}
FIRST_HELD = "It is frozen, and held: no entry is before it."


def scripts_of(name):
    """The scripts of a file of rows, which stand below the step's word, four blanks to the right."""
    text = (ROWS / f"{name}.txt").read_text(encoding="utf-8")
    found = re.findall(r"^script\n((?:    .*\n|\n(?=    ))+)", text, re.MULTILINE)
    return [re.sub(r"^    ", "", it, flags=re.MULTILINE) for it in found]


def sentences(row, by, names=""):
    """What the page has to say of a row, whose lines are the script's own."""
    since, entry, lock, held = (row[it] for it in ("since", "entry", "lock", "held"))
    said = ["It has been so from the start." if since == "0" else f"It has been so since {by} {since}."]
    if entry == "":
        return said
    first, last = (hex(int(row[it], 16)) for it in ("first", "last"))
    bits = ", ".join(f"{name} = {bit}" for name, bit in zip("LRWX", row["bits"]))
    lines = {part: row[it] for it, part in PARTS.items() if row[it]}
    parts = [f"{part} by {'no event' if line == '0' else f'line {line}'}" for part, line in lines.items()]
    return said + [
        f"Entry {entry} is {row['matching'].upper()} and matches {first} to {last}{f': {names}' if names else ''}.",
        f"Its bits are {bits}, {TABLES[row['table']]}.",
        FIRST_HELD if (held, entry) == ("held", "0") else LOCKS[lock, held],
        f"Changed last: {', '.join(parts)}."]


class Reasons:
    def __init__(self, tally, program, work, write_singly):
        self.tally, self.program, self.write_singly = tally, program, write_singly
        self.names = pathlib.Path(work, "reasons.csv")
        self.words = {column: set() for column in WORDS}

    def compare_all(self, tab, boots):
        made = {**boots, "a made script": MADE}
        rows = {f"{file} {place}": it for file in FILES for place, it in enumerate(scripts_of(file))}
        self.tally.has("the scripts of the rows", len(rows) > 100)
        self.kinds = itertools.cycle(itertools.product(MODES, KINDS))
        for name, script in {**made, **rows}.items():
            self.compare_answers(tab, name, script)
        for column, words in WORDS.items():
            self.tally.compare(f"the words of {column}", self.words[column], words)
        for name in SHOWN:
            self.compare_shown(tab, name, made[name])
        self.compare_names(tab, boots["smepmp-boot"])
        self.compare_refused(tab)

    def run(self, command, script, *words):
        return subprocess.run([self.program, command, *words], input=script.encode(), capture_output=True, check=False)

    def answer(self, script, after, access):
        """[status, line, text] of `pmp why`."""
        done = self.run("why", script, "--after", str(after), "--", "stdin", *map(str, access))
        refused = re.match(rb"pmp: (?:script line (\d+): )?refused (\d+) ", done.stderr)
        return [int(refused[2]), int(refused[1] or 0), ""] if refused else [0, 0, done.stdout.decode()]

    def rows(self, text):
        """The first row of `pmp why`, and those of its answers at all moments."""
        first, _, answers = text.partition("\n")
        [row] = program_rows(self.program, "why", f"{first}\n")
        return row, program_rows(self.program, "why", answers, table=1)

    # What the module answers.

    def compare_answers(self, tab, name, script):
        """At some moments, and past them all, of accesses at the edges of the runs."""
        last = len(re.findall(r"^[ \t]*publish\b", script, re.MULTILINE))
        runs = program_rows(self.program, "map", self.run("map", script, "stdin").stdout.decode())
        starts = [0, *(place for it in runs[:5] for place in (int(it["first"], 16), int(it["last"], 16) - 3))]
        accesses = [(*next(self.kinds), it, 8) for it in starts] + [("U", "load", 0, 0), ("S", "store", 2 ** 56 - 4, 8)]
        moments = sorted({0, last // 2, last, last + 1})
        got = tab.call("whyOf", script, moments, [[*it[:2], *map(str, it[2:])] for it in accesses])
        for after, answers in zip(moments, got, strict=True):
            for access, answer in zip(accesses, answers, strict=True):
                wanted = self.answer(script, after, access)
                self.tally.compare(f"{name} after {after}: why {access}", answer, wanted)
                if wanted[0] == 0:
                    row, _ = self.rows(wanted[2])
                    for column, words in self.words.items():
                        words.add(row[column])

    # What the page shows.

    def compare_shown(self, tab, name, script):
        """Each moment that the sliders lead to, and the report of the first one with the most lines."""
        singly, events = self.write_singly(script)
        tab.call("type", script)
        own = self.own_lines(script, singly, events)
        last = len(re.findall(r"^publish\b", script, re.MULTILINE))
        led = {}
        for by, text, count in (("publication", script, last), ("write", singly, events)):
            for access, at in itertools.product(PLACES, range(count + 1)):
                row, runs = self.rows(self.answer(text, at, access)[2])
                if by == "write":
                    row |= {it: own[row[it]] for it in PARTS}
                asked = (by, at, [*access[:2], hex(access[2]), str(access[3])])
                shown = tab.call("whyShown", *asked)
                place = f"{name} at {by} {at}: {access}"
                self.tally.compare(f"{place}: why", shown["said"], sentences(row, by))
                self.tally.compare(f"{place}: answers", *self.runs_of(shown, runs, count, at))
                lines = [int(row[it]) for it in PARTS if row[it] not in ("", "0")]
                self.tally.compare(f"{place}: lines", shown["lines"], [script.split("\n")[it - 1] for it in lines])
                led.setdefault(len(lines), (asked, sentences(row, by)))
        most = max(led)
        self.tally.compare(f"{name}: the most lines", most, SHOWN[name])
        self.compare_report(tab, name, *led[most], most)

    def own_lines(self, script, singly, events):
        """The script's line for each line of the script of its single writes that an entry's row may have."""
        writes = program_rows(self.program, "writes", self.run("writes", script, "stdin").stdout.decode())
        lines = [it["line"] for it in writes if it["n"]]
        first = singly.count("\n") - 2 * events + 1
        return {"": "", "0": "0", **{str(first + 2 * place): line for place, line in enumerate(lines)}}

    def runs_of(self, shown, runs, last, at):
        """The rows of the table, with the one that has the moment, and those of the program."""
        firsts = [int(it["n"]) for it in runs]
        ends = [it - 1 for it in firsts[1:]] + [last]
        wanted = [{**it, "n": f"{first}" if first == end else f"{first} to {end}"}
                  for first, end, it in zip(firsts, ends, runs)]
        now = [first <= at <= end for first, end in zip(firsts, ends)]
        return [shown["rows"], shown["now"]], [[list(it.values()) for it in wanted], now.index(True)]

    def compare_report(self, tab, name, asked, said, lines):
        tab.call("whyShown", *asked)
        report = tab.ask("reportOf(page)").splitlines()
        marked = [re.sub(r"([\\`*_[\]<>|#&~])", r"\\\1", it) for it in said]
        self.tally.compare(f"{name}: why in the report", [it[2:] for it in report if it.startswith("- ")], marked)
        rows = [f"| {' | '.join(it)} |" for it in tab.ask("rowsOf('decisions')")]
        self.tally.has(f"{name}: answers in the report", rows and set(rows) <= set(report))
        tab.send("Emulation.setEmulatedMedia", media="print")
        buttons = tab.ask("[...byId('why').querySelectorAll('button')].map(isSeen)")
        self.tally.compare(f"{name}: lines that are printed", buttons, [True] * lines)
        tab.send("Emulation.setEmulatedMedia", media="")

    def compare_names(self, tab, script):
        """The names of the entry's bytes, as `pmp entries` has them."""
        tab.call("type", script)
        tab.call("giveNames", NAMES)
        self.names.write_text(NAMES, encoding="utf-8")
        text = self.run("entries", script, "--names", self.names, "stdin").stdout.decode()
        names = {it["entry"]: it["names"] for it in program_rows(self.program, "entries", text, "names")}
        for access in PLACES:
            row, _ = self.rows(self.answer(script, 6, access)[2])
            shown = tab.call("whyShown", "publication", 6, [*access[:2], hex(access[2]), str(access[3])])
            self.tally.compare(f"{access} with names: why", shown["said"],
                               sentences(row, "publication", names.get(row["entry"], "")))
        tab.call("giveNames", "")

    def compare_refused(self, tab):
        """An access that is refused has no reason, and no answers."""
        tab.call("type", MADE)
        shown = tab.call("whyShown", "publication", 1, ["M", "load", "0", "0"])
        self.tally.compare("no access: why", shown, {"said": [], "rows": [], "now": -1, "lines": []})
        report = tab.ask("reportOf(page)")
        self.tally.compare("no access: the report", "\n- " in report or "\n\n\n" in report, False)
