"""What checks/page tries of the page's part "Findings": what the module finds, byte for byte as `pmp lint` writes it,
in the boots of examples/, in scripts of checks/rows and in random ones, and what the page shows of it: the rows, the
lines that they lead to, what to do, the names of addresses, the report and what is printed."""
import pathlib
import random
import re
import subprocess

from page_reasons import scripts_of
from page_rows import program_rows

FILES = ("lint", "writes", "heads", "rv32", "shorthands", "names")
FORMATS = (pathlib.Path(__file__).parent.parent / "docs/FORMATS.md").read_text(encoding="utf-8")
# What is found by each name, and what to do.
TEXTS = dict(re.findall(r"^\| \d `([a-z-]+)` \| (.*) \|$", FORMATS, re.MULTILINE))
HEADS = ("pmp 1\n", "pmp 2\n", "pmp 3\nhart entries 8\n", "pmp 3\nhart grain 4096\n")
BYTES = (0x00, 0x07, 0x08, 0x0B, 0x0F, 0x18, 0x19, 0x1B, 0x1F, 0x88, 0x8F, 0x98, 0x99, 0x9B, 0x9F)
ADDRESSES = (0, 0x400, 0x20000000, 0x20000FFF, 0x200001FF, 0x20001000, 0x20004000, 0x3FFFFFFFFFFFFF)
RANDOM = 300
MOST = 500
NAMES = "first,last,name\n0x0,0xfff,low\n0x80000000,0x8000ffff,firmware\n0x80010000,0x80010003,<i>&amp;\n"
LOCKED = "pmp 2\n" + "".join(f"write pmpcfg{it} 0x9898989898989898\n" for it in range(0, 16, 2)) + "publish\n"
# More rows than the page shows, and more than it has room for.
MANY = LOCKED + 10 * "write pmpcfg0 0\nwrite pmpcfg2 0\nwrite pmpcfg4 0\nwrite pmpcfg6 0\n" + "publish\n"
TOO_MANY = LOCKED + 90 * (64 * "write pmpcfg14 0\n" + "publish\n")


def random_script(rng):
    """A script in which few addresses and modes recur, so that there is something to find."""
    def write():
        kind = rng.randrange(10)
        if kind < 4:
            return f"write pmpaddr{rng.randrange(8)} {rng.choice(ADDRESSES):#x}\n"
        if kind < 8:
            return f"write pmpcfg0 {sum(rng.choice(BYTES) << 8 * it for it in range(8)):#x}\n"
        return f"write mseccfg {rng.randrange(8)}\n" if kind < 9 else rng.choice(("reset\n", "# none\n"))
    return rng.choice(HEADS) + "".join("".join(write() for _ in range(rng.randrange(6))) + "publish\n"
                                       for _ in range(rng.randrange(1, 5)))


class Lint:
    def __init__(self, tally, program, work):
        self.tally, self.program = tally, program
        self.names = pathlib.Path(work, "lint.csv")
        self.found = set()

    def compare_all(self, tab, boots):
        rng = random.Random(7)
        made = {**boots, **{f"{file} {place}": it for file in FILES for place, it in enumerate(scripts_of(file))},
                **{f"a random script, {it}": random_script(rng) for it in range(RANDOM)}}
        self.tally.has("the scripts with findings", len(made) > 350)
        for name, script in made.items():
            wanted = self.answer(script)
            self.found |= {it["name"] for it in self.rows(wanted[2])}
            self.tally.compare(f"{name}: findings", tab.call("lintOf", script), wanted)
        self.tally.compare("the names of findings", sorted(self.found), sorted(TEXTS))
        for name, script in {**boots, "many": MANY, **dict(list(made.items())[-20:])}.items():
            self.compare_shown(tab, name, script)
        self.compare_names(tab, boots["smepmp-boot"])
        self.compare_report(tab, boots["smepmp-boot"])
        self.compare_others(tab)

    def run(self, script, *words):
        return subprocess.run([self.program, "lint", "stdin", *words], input=script.encode(), capture_output=True,
                              check=False)

    def rows(self, text):
        return program_rows(self.program, "lint", text)

    def answer(self, script):
        """[status, line, text] of `pmp lint`."""
        done = self.run(script)
        refused = re.match(rb"pmp: (?:script line (\d+): )?refused (\d+) ", done.stderr)
        return [int(refused[2]), int(refused[1] or 0), ""] if refused else [0, 0, done.stdout.decode()]

    def compare_shown(self, tab, name, script):
        """The rows, where each one's line leads, and what to do about each kind."""
        tab.call("type", script)
        rows = self.rows(self.answer(script)[2])
        count = f"{len(rows):,} finding{'' if len(rows) == 1 else 's'}" if rows else "No findings."
        if rows:
            count += f"; the first {MOST}:" if len(rows) > MOST else ":"
        shown = tab.ask("lintShown()")
        self.tally.compare(f"{name}: findings shown", shown["rows"], [",".join(it.values()) for it in rows[:MOST]])
        self.tally.compare(f"{name}: their count", shown["count"], count)
        lines = [int(it["line"]) for it in rows[:MOST]]
        self.tally.compare(f"{name}: their lines", shown["lines"], [script.split("\n")[it - 1] for it in lines if it])
        names = dict.fromkeys(it["name"] for it in rows)
        self.tally.compare(f"{name}: what to do", shown["texts"], [it for name in names for it in (name, TEXTS[name])])

    def compare_names(self, tab, script):
        """The names of the bytes, as `pmp lint` has them."""
        tab.call("type", script)
        tab.call("giveNames", NAMES)
        self.names.write_text(NAMES, encoding="utf-8")
        wanted = self.run(script, "--names", self.names).stdout.decode().splitlines()
        self.tally.has("findings with names", any(it.endswith("firmware") for it in wanted))
        self.tally.compare("findings with names", tab.ask("lintShown()")["rows"], wanted)
        tab.call("giveNames", "")
        self.tally.compare("findings without names", tab.ask("lintShown()")["rows"],
                           self.answer(script)[2].splitlines())

    def compare_report(self, tab, script):
        """The report and what is printed have the rows, and what to do."""
        tab.call("type", script)
        rows = self.rows(self.answer(script)[2])
        report = tab.ask("reportOf(page)").splitlines()
        wanted = [f"| {' | '.join(it.values())} |" for it in rows]
        wanted += [f"{it}: {TEXTS[it]}" for it in dict.fromkeys(row["name"] for row in rows)]
        self.tally.compare("findings not in the report", [it for it in wanted if it not in report], [])
        tab.send("Emulation.setEmulatedMedia", media="print")
        printed = tab.ask("[rowsOf('findings').length, isSeen(byId('remedies'))]")
        self.tally.compare("findings that are printed", printed, [len(rows), True])
        tab.send("Emulation.setEmulatedMedia", media="")

    def compare_others(self, tab):
        """No findings, a script at fault, rows for which there is no room, and a script that takes long."""
        tab.call("type", "pmp 1\nwrite mseccfg 3\npublish\n")
        self.tally.compare("no findings", tab.ask("lintShown()"),
                           {"rows": [], "count": "No findings.", "lines": [], "texts": []})
        self.tally.compare("no findings: the report", "Findings" in tab.ask("reportOf(page)"), False)
        tab.call("type", "pmp 4\n")
        self.tally.compare("a script at fault: findings", tab.ask("lintShown()"),
                           {"rows": [], "count": "", "lines": [], "texts": []})
        self.tally.compare("a script at fault", tab.call("lintOf", "pmp 4\n"), [10, 1, ""])
        tab.call("(text) => page.open('', text)", TOO_MANY)
        shown = tab.ask("lintShown()")
        self.tally.has("too many findings", shown["count"].startswith("Refused 40 Memory. The page has room for "))
        self.tally.compare("too many findings: the rows", shown["rows"], [])
        tab.call("type", MANY)
        waits = tab.ask("page.findings.took = 1000, type(byId('script').value), byId('findings-count').textContent")
        self.tally.compare("findings that take long", waits, "They follow when you pause.")
        self.compare_shown(tab, "after a pause", MANY)
