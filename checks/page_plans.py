"""What checks/page tries of plans: the module's script of each plan that checks/rows/plan.txt has, on several harts
and with all bits of mseccfg, beside that of `pmp plan`, and whether registers meet a plan, beside what the rows of `pmp
map`, `pmp entries` and `pmp dump` say of it; and what the page shows of both."""
import pathlib
import re
import subprocess

from page_rows import program_rows

TOP = pathlib.Path(__file__).resolve().parent.parent
HEADER = "first,last,m,su,locked,name\n"
LIMIT = 2 ** 56
EXAMPLE = (TOP / "examples/plans/boot.csv").read_text(encoding="utf-8")
# The words of `pmp plan` for a hart, and the lines by which a script has it.
HARTS = {(): "pmp 1\n", ("--xlen", "32"): "pmp 3\nhart xlen 32\n", ("--entries", "1"): "pmp 3\nhart entries 1\n",
         ("--entries", "0"): "pmp 3\nhart entries 0\n", ("--grain", "16"): "pmp 3\nhart grain 16\n",
         ("--smepmp", "no"): "pmp 3\nhart smepmp no\n", ("--entries", "64", "--address-bits", "34"):
         "pmp 3\nhart bits 34\nhart entries 64\n"}
BITS = {1: "--mml", 2: "--mmwp", 4: "--rlb"}
MADE = {
    "a locked range": HEADER + "0x80000000,0x8001ffff,r-x,---,yes,firmware\n",
    "all bytes": HEADER + f"0,{LIMIT - 1},rwx,---,no,all\n",
    "rows that overlap": HEADER + "0x80000000,0x8000ffff,rwx,rwx,no,one\n0x80008000,0x8001ffff,rwx,---,no,two\n",
    "single bytes": HEADER + "0x80000000,0x80000000,rwx,---,no,a\n0x8001ffff,0x80020000,---,rwx,yes,b\n"
                    "1,1,r--,r--,no,c\n",
    "a header alone": HEADER, "no last line end": EXAMPLE[:-1], "CR LF": EXAMPLE.replace("\n", "\r\n"),
}
FAULTY = {
    "another header": EXAMPLE.replace("su,", "", 1), "a blank row": HEADER + "\n",
    "a byte-order mark": "\ufeff" + EXAMPLE,
    "other rights": EXAMPLE.replace("rw-", "wr-", 1), "another word": EXAMPLE.replace("yes", "maybe", 1),
    "turned": HEADER + "9,8,rwx,---,no,a\n", "a far byte": HEADER + f"0,{LIMIT},rwx,---,no,a\n",
    "a digit first": EXAMPLE + "0,7,rwx,---,no,0a\n",
}
WANTED = {20: f"Wanted: the first line {HEADER.strip()}.",
          21: f"Wanted: {HEADER.strip()}, each in its form: see “Fields of a plan”."}
UNMADE = {"rows that overlap": (MADE["rows that overlap"], 65),
          "a locked range with RLB": (MADE["a locked range"], 66),
          "many rows": (HEADER + "".join(f"{it << 12:#x},{(it << 12) + 7:#x},rwx,r--,no,n{it}\n" for it in range(20)),
                        68)}


def plans():
    """The plans of the rows: those that stand alone, and those of tables, one a line with a backslash and `n` for a
    line's end."""
    text = (TOP / "checks/rows/plan.txt").read_text(encoding="utf-8")
    blocks = re.findall(r"(?:^    first,last,m,su.*\n(?:    .*\n)*)", text, re.MULTILINE)
    lone = [re.sub(r"^    ", "", it, flags=re.MULTILINE) for it in blocks if "|" not in it]
    return lone + [it.replace("\\n", "\n") for it in re.findall(r"^    (first,.*?)\|", text, re.MULTILINE)]


def rows_of(plan):
    lines = [it.removesuffix("\r") for it in plan.removesuffix("\n").split("\n")]
    return [(int(first, 0), int(last, 0), machine, others, locked == "yes", name)
            for first, last, machine, others, locked, name in (it.split(",") for it in lines[1:])]


def gaps_of(rows):
    """The ranges of bytes of no row."""
    at = 0
    for first, last, *_ in sorted(rows):
        if at < first:
            yield at, first - 1
        at = max(at, last + 1)
    if at < LIMIT:
        yield at, LIMIT - 1


class Registers:
    """What a script leaves at a moment, by the rows of the program's views."""

    def __init__(self, program, view, script, after):
        self.runs = program_rows(program, "map", view("map", script, after))
        entries = program_rows(program, "entries", view("entries", script, after))
        self.frozen = [it["lock"] == "frozen" for it in entries]
        bits = int(re.search(r"^mseccfg (\S+)$", view("dump", script, after), re.MULTILINE)[1], 16)
        self.rest = ("---" if bits & 2 else "rw-" if bits & 1 else "rwx", "---")

    def is_held(self, owner):
        return all(self.frozen if owner == "-" else self.frozen[:int(owner) + 1])

    def verdict(self, number, first, last, asked, is_locked):
        """The line on these bytes, or None where they are met."""
        for run in self.runs:
            begin, end, owner = int(run["first"], 16), int(run["last"], 16), run["owner"]
            given = run["mrights"], run["surights"]
            held = self.is_held(owner)
            if begin <= last and first <= end and (given != asked or is_locked and not held):
                fields = f"{max(first, begin):#x},{owner},{','.join(given)},{'yes' if held else 'no'}"
                return f"{number},unmet,{fields}\n"
        return None

    def verdicts(self, plan):
        rows = rows_of(plan)
        lines = [self.verdict(number, *it[:2], it[2:4], it[4]) or f"{number},met,,,,,\n"
                 for number, it in enumerate(rows, 1)]
        rest = (self.verdict(0, *it, self.rest, False) for it in gaps_of(rows))
        return "".join([*lines, next((it for it in rest if it), "0,met,,,,,\n")])


def shown_rows(plan, verdicts):
    """The rows that the page shows for these lines."""
    rows = [*([f"{number}", *line.removesuffix("\r").split(",")] for number, line in
              enumerate(plan.removesuffix("\n").split("\n")[1:], 1)), ["-", "", "", "", "", "", "bytes of no row"]]
    for (number, *asked), line in zip(rows, verdicts.splitlines(), strict=True):
        _, verdict, byte, owner, machine, others, held = line.split(",")
        by = "no entry" if owner == "-" else f"entry {owner}"
        has = f"{by}: {machine}, {others}, {'held' if held == 'yes' else 'not held'}"
        yield [number, verdict, *asked, byte, "" if verdict == "met" else has]


class Plans:
    def __init__(self, tally, program, work, write_singly):
        self.tally, self.program, self.write_singly = tally, program, write_singly
        self.file = pathlib.Path(work, "plan.csv")

    def compare_all(self, tab, opened, url, boots, sizes):
        self.refusals = tab.ask("data.refusals")
        self.compare_scripts(tab)
        for name, script in boots.items():
            self.compare_verdicts(tab, name, script)
        self.compare_shown(tab, boots)
        self.compare_faults(tab)
        self.compare_made(tab)
        self.compare_limits(tab)
        self.compare_files(tab)
        self.compare_address(tab, opened, url)
        self.try_sizes(tab, sizes)
        tab.call("givePlan", "")
        self.tally.compare("no plan: the report", "Plan" in tab.ask("reportOf(page)"), False)

    def run(self, *words, text=""):
        return subprocess.run([self.program, *words], input=text.encode(), capture_output=True, check=False)

    def view(self, view, script, after):
        return self.run(view, "--after", str(after), "stdin", text=script).stdout.decode()

    def registers(self, script, after):
        return Registers(self.program, self.view, script, after)

    def answer(self, plan, *options):
        """[status, row, text] of `pmp plan`."""
        done = self.run("plan", "stdin", *options, text=plan)
        refused = re.match(rb"pmp: (?:plan(?: rows? (\d+))?[^:]*: )?refused (\d+) ", done.stderr)
        return [int(refused[2]), int(refused[1] or 0), ""] if refused else [0, 0, done.stdout.decode()]

    # What the module answers.

    def compare_scripts(self, tab):
        """Byte for byte, on each hart, with each value of mseccfg."""
        known = [*plans(), *MADE.values(), *FAULTY.values()]
        statuses = set()
        for plan in known:
            for options, script in HARTS.items():
                for bits, got in enumerate(tab.call("plansOf", script, plan)):
                    wanted = self.answer(plan, *options, *(word for bit, word in BITS.items() if bits & bit))
                    statuses.add(wanted[0])
                    self.tally.compare(f"the script of {plan!r:.90}, {options}, mseccfg {bits}", got, wanted)
        self.tally.compare("what becomes of plans", sorted(statuses), [0, 4, 20, 21, 54, 65, 66, 67, 68])
        got = tab.ask("asList(page.unit.plan(encodeText('pmp 1\\n'), encodeText(PLAN_HEADER), 8))")
        self.tally.compare("a value of mseccfg with another bit", got, [24, 0, ""])
        got = tab.call("meetsOf", "pmp 4\n", 0, EXAMPLE), tab.call("plansOf", "pmp 4\n", EXAMPLE)[0]
        self.tally.compare("a script at fault", got, ([10, 1, ""], [10, 1, ""]))
        self.tally.compare("too few publications", tab.call("meetsOf", "pmp 1\n", 1, EXAMPLE), [22, 0, ""])

    def compare_verdicts(self, tab, name, script):
        """Of made plans, and of the one that the script's end meets, at each moment."""
        own = self.run("plan", "--of", "stdin", text=script).stdout.decode()
        last = len(re.findall(r"^[ \t]*publish\b", script, re.MULTILINE))
        for after in range(last + 1):
            registers = self.registers(script, after)
            for label, plan in {**MADE, "the example": EXAMPLE, "its own": own}.items():
                wanted = registers.verdicts(plan)
                got = tab.call("meetsOf", script, after, plan)
                self.tally.compare(f"{name} after {after}: {label}", got, [0, 0, wanted])
        self.tally.compare(f"{name}: its own is met", "unmet" in wanted, False)

    # What the page shows.

    def compare_shown(self, tab, boots):
        """Wherever the sliders lead."""
        for name in ("smepmp-boot", "opensbi-1.6-virt32"):
            script = tab.call("openBoot", name)
            singly, events = self.write_singly(script)
            plan = self.run("plan", "--of", "stdin", text=boots[name]).stdout.decode()
            tab.call("givePlan", plan)
            last = len(re.findall(r"^publish\b", script, re.MULTILINE))
            for by, text, count in (("publication", script, last), ("write", singly, events)):
                for at in range(count + 1):
                    wanted = self.registers(text, at).verdicts(plan)
                    shown = tab.call("planShownAt", by, at)
                    place = f"{name} at {by} {at}: the plan"
                    self.tally.compare(place, shown["rows"], list(shown_rows(plan, wanted)))
                    self.tally.compare(f"{place}'s count", shown["count"], self.count_of(wanted))
            report = tab.ask("reportOf(page)").splitlines()
            rows = [f"| {' | '.join(it)} |" for it in shown_rows(plan, wanted)]
            missing = [it for it in rows if it not in report]
            self.tally.compare(f"{name}: rows of the plan not in the report", missing, [])

    def count_of(self, verdicts):
        *rows, rest = verdicts.splitlines()
        met = sum(",met," in it for it in rows)
        other = "as without entries" if ",met," in rest else "not all as without entries"
        return f"{met} of {len(rows)} row{'' if len(rows) == 1 else 's'} met; bytes of no row are {other}."

    def compare_faults(self, tab):
        """The program's number and row, which is gone to; and no verdicts."""
        tab.call("openBoot", "first")
        for name, plan in FAULTY.items():
            status, row, _ = self.answer(plan)
            known = self.refusals[str(status)]
            wanted = {"rows": [], "count": "", "makes": False, "advice": WANTED.get(status, known["advice"]),
                      "line": f"{f'Plan row {row}: refused' if row else 'Refused'} {status} {known['name']}"}
            self.tally.compare(f"a plan at fault, {name}", tab.call("givePlan", plan), wanted)
            self.tally.compare(f"a plan at fault, {name}: the row", tab.ask("rowGoneTo('plan')"),
                               plan.split("\n")[row] if row else "")

    def compare_made(self, tab):
        """A plan's script is opened, and its registers meet the plan; or it is told why there is none."""
        for bits in (0, 1, 3):
            options = [word for bit, word in BITS.items() if bits & bit]
            plan = MADE["a locked range"] if bits else HEADER + "0x80000000,0x8001ffff,rwx,r-x,no,code\n"
            tab.call("openBoot", "smepmp-boot")
            tab.call("givePlan", plan)
            status, _, text = self.answer(plan, *options)
            script, notice, unmade = tab.call("planMade", bits)
            self.tally.compare(f"a plan's script with {options}", [status, script, unmade] if status == 0 else None,
                               [0, text, ""])
            self.tally.has("its notice", f"“pmp plan{''.join(f' {it}' for it in options)}”" in notice)
            self.tally.compare("its registers", tab.ask("planShown()")["count"],
                               "1 of 1 row met; bytes of no row are as without entries.")
        for name, (plan, wanted) in UNMADE.items():
            script = tab.call("openBoot", "first")
            tab.call("givePlan", plan)
            bits = 4 if wanted == 66 else 0
            status, row, _ = self.answer(plan, *(["--rlb"] if bits else []))
            known = self.refusals[str(wanted)]
            told = f"Plan row {row}: refused {status} {known['name']}. {known['advice']}"
            got = [status, *tab.call("planMade", bits)]
            self.tally.compare(f"no script of {name}", got, [wanted, script, "", told])

    def compare_limits(self, tab):
        """As many rows as the page has room for, and one more."""
        most = tab.ask("data.limits.ROWS")
        tab.call("type", "pmp 1\n")
        plan = HEADER + "".join(f"{it},{it},rwx,---,no,n\n" for it in range(most))
        wanted = [0, 0, self.registers("pmp 1\n", 0).verdicts(plan)]
        self.tally.compare("so many rows of a plan", tab.call("meetsOf", "pmp 1\n", 0, plan), wanted)
        plan += f"{most},{most},rwx,---,no,n\n"
        got = [tab.call("meetsOf", "pmp 1\n", 0, plan), tab.call("plansOf", "pmp 1\n", plan)[0]]
        self.tally.compare("more rows of a plan", got, [[40, 0, ""], [40, 0, ""]])
        self.tally.has("the limit of rows", f"for {most:,} rows of a plan" in tab.call("givePlan", plan)["advice"])

    def compare_files(self, tab):
        """A plan that is dropped on the page or its part, or chosen there, is one; the script stays."""
        node = "document.getElementById('plan-file')"
        for how in ("chosen", "dropped on its part", "dropped on the page"):
            script = tab.call("openBoot", "first")
            tab.call("givePlan", "")
            self.file.write_bytes(EXAMPLE.replace("\n", "\r\n").encode())
            if how == "chosen":
                found = tab.send("Runtime.evaluate", expression=node)["result"]["objectId"]
                tab.send("DOM.setFileInputFiles", files=[str(self.file)], objectId=found)
            else:
                tab.ask("byId('plan-part').open = true")
                self.drop(tab, "plan" if how == "dropped on its part" else "script")
            tab.ask("Promise.all([page.opened, page.plan.reading])")
            got = tab.ask("[byId('plan').value, page.editor.text]")
            self.tally.compare(f"a plan that is {how}", got, [EXAMPLE, script])

    def drop(self, tab, part):
        tab.ask(f"byId('{part}').scrollIntoView({{block: 'center'}})")
        x, y = tab.ask(f"(({{x, y}}) => [x + 20, y + 20])(byId('{part}').getBoundingClientRect())")
        for kind in ("dragEnter", "dragOver", "drop"):
            tab.send("Input.dispatchDragEvent", type=kind, x=x, y=y,
                     data={"items": [], "files": [str(self.file)], "dragOperationsMask": 1})

    def compare_address(self, tab, opened, url):
        """An example by its name, and a plan of one's own, with the bits of mseccfg."""
        for state in ({"name": "boot", "mseccfg": 0}, {"text": MADE["single bytes"], "mseccfg": 5}):
            tab.call("openBoot", "smepmp-boot")
            tab.call("(state) => page.plan.put(state)", state)
            address = tab.ask("page.noteAddress().then(() => location.hash)")
            other = opened(url + address)
            self.tally.compare("a plan by its address", other.ask("page.plan.state"), state)
            self.tally.compare("what is shown of it", other.ask("planShown()"), tab.ask("planShown()"))
            self.tally.compare("complaints", other.complaints(), [])
        tab.call("(state) => page.plan.put(state)", {"text": "", "mseccfg": 0})
        address = tab.ask("page.noteAddress().then(() => location.hash)")
        self.tally.compare("no plan: the address", "plan=" in address or "ranges=" in address, False)

    def try_sizes(self, tab, sizes):
        for width, height in sizes:
            for dark in (False, True):
                tab.resize(width, height, dark)
                tab.call("openBoot", "smepmp-boot")
                for plan in (EXAMPLE, FAULTY["turned"]):
                    tab.call("givePlan", plan)
                    place = f"a plan, {width} wide, {'dark' if dark else 'light'}"
                    self.tally.compare(f"{place}: the width", tab.ask("document.documentElement.scrollWidth"), width)
                    low = [it for it in tab.ask("contrasts()") if it[1] < 4.5]
                    self.tally.compare(f"{place}: contrast below 4.5", low, [])
        tab.resize(*sizes[0])
