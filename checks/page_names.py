"""What checks/page tries of names of addresses: what stands behind each row, as `pmp map`, `entries`, `diff` and
`policy` write it with --names, what an access may start at, texts that are refused, and what the picture and the report
make of a name with signs that SVG, HTML and Markdown read."""
import pathlib
import re
import subprocess
from xml.etree import ElementTree

from page_rows import program_rows

TOP = pathlib.Path(__file__).resolve().parent.parent
HEADER = "first,last,name\n"
MOST_LETTERS = 40
MADE = HEADER + "".join(f"{it}\n" for it in (
    "0x80000000,0x8000ffff,firmware", "0x80000800,0x8001ffff,a<b&c", "0,0xffffffffffffffff,all>]]>$&'",
    "0x8001ffff,0x80020000,between", "0x80010000,0x80010000,<svg/onload=x>", "2147549184,2147614719,&amp;|`*_[x]#~",
    "0x80020000,0x80020fff,twice", "0x80400000,0x8040ffff,twice", f"0x80200000,0x803fffff,{64 * 'n'}",
    "0x100000000000000,0x1ffffffffffffff,beyond"))
GIVEN = {"the example": (TOP / "examples/names/virt.csv").read_text(encoding="utf-8"), "made names": MADE,
         "a header alone": HEADER, "no last line end": MADE[:-1]}
BOOTS = ("smepmp-boot", "opensbi-1.1-virt", "opensbi-1.6-virt32", "enclaves")
POLICY = 'name,from,to,modes,kind,first,last,demand,comment\nan <i>,0,,SU,any,0,0xffffffffffffff,always,"a, b"\n' \
    "c,0,,M,any,0x80000100,0x800001ff,never,\nd,0,,S,any,0,9,never,\n"
STARTS = ("firmware", "twice", "twice+0x10", "twice+4096", "a<b&c", "a<b&c+", "a<b&c+0", "+1", "firmware+0x10+0x10",
          "firmware+twice", "FIRMWARE", "0x80000000", "00000080000000", "0x80000000+1", "", "nowhere", "beyond",
          "beyond+8", "firmware+0xffffffffffffffff", "all>]]>$&'+0x100000000000000", "all>]]>$&'+0xfffffffffffff8",
          "constructor", "firmware ", "2147483648", "18446744073709551616")
FAULTY = {
    "another header": "first,last\n0x0,0x1,a\n", "no header": "0x0,0x1,a\n", "a blank line": "\n" + HEADER,
    "a byte-order mark": "\ufeff" + HEADER, "a header with a blank": HEADER.replace("\n", " \n"),
    "two fields": HEADER + "0x0,0x1\n", "a blank row": HEADER + "0x0,0x1,a\n\n", "one field": HEADER + "0x0",
    "no number": HEADER + "0x0,0x1,a\n0x,0x1,b\n", "no last": HEADER + "0x0,,b\n", "turned": HEADER + "0x1,0x0,b\n",
    "2^64": HEADER + f"{2 ** 64},{2 ** 64},b\n", "a digit first": HEADER + "0x0,0x1,0b\n",
    "no name": HEADER + "0x0,0x1,\n", "a blank in a name": HEADER + "0x0,0x1,a b\n", "a quote": HEADER + '0,1,"a"\n',
    "a fourth field": HEADER + "0x0,0x1,a,b\n", "a plus": HEADER + "0x0,0x1,a+b\n",
    "a long name": HEADER + f"0x0,0x1,{65 * 'n'}\n", "no ASCII": HEADER + "0,1,\u00e4\n",
}


class Names:
    def __init__(self, tally, program, work):
        self.tally, self.program = tally, program
        self.names, self.other = pathlib.Path(work, "names.csv"), pathlib.Path(work, "other")

    def run(self, command, script, *words, options=()):
        """[status, place, text] of a command with the names; place is the words of a refusal before its number."""
        done = subprocess.run([self.program, command, "--names", self.names, *options, "--", *words],
                              input=script.encode(), capture_output=True, check=False)
        self.told = done.stderr.decode()
        refused = re.match(r"pmp: (?:(.*): )?refused (\d+) ", self.told)
        return [int(refused[2]), refused[1] or "", ""] if refused else [0, "", done.stdout.decode()]

    def give(self, tab, text):
        self.names.write_bytes(text.encode())
        return tab.call("giveNames", text)

    def compare_all(self, tab, opened, url, boots, sizes):
        for name, text in GIVEN.items():
            for boot in BOOTS:
                tab.call("openBoot", boot)
                self.tally.compare(f"{name}: heads", self.give(tab, text), {"line": "", "advice": "", "heads": 5})
                self.compare_rows(tab, f"{boot} with {name}", boots, boot)
        self.compare_at_once(tab)
        self.compare_starts(tab, boots["smepmp-boot"])
        self.compare_faults(tab)
        self.compare_files(tab)
        self.compare_address(tab, opened, url)
        self.try_sizes(tab, sizes)
        self.compare_without(tab, boots["smepmp-boot"])

    def compare_rows(self, tab, name, boots, boot):
        """All rows, after each publication, with those of a policy and of a difference at the end."""
        script = boots[boot]
        for at in range(script.count("\npublish") + 1):
            after = ("--after", str(at))
            shown = tab.call("shownAt", "publication", at)
            rows = {it: self.run(it, script, "stdin", options=after)[2] for it in ("map", "entries")}
            for view, wanted in rows.items():
                self.tally.compare(f"{name} after {at}: {view}", shown[view], wanted)
            self.compare_picture(tab, f"{name} after {at}: picture", shown["picture"], rows["map"], script, after)
        self.compare_report(tab, name, rows)
        self.other.write_text(POLICY, encoding="utf-8")
        judged = self.run("policy", script, "stdin", self.other)[2]
        wanted = [[cell for column, cell in row.items() if column not in ("name", "comment")]
                  for row in program_rows(self.program, "policy", judged, "name", "comment", "names")]
        self.tally.compare(f"{name}: verdicts", tab.call("verdictsShown", POLICY, "publication")["named"], wanted)
        old = boots["first"]
        self.other.write_text(old, encoding="utf-8")
        wanted = self.run("diff", script, self.other, "stdin")[2]
        self.tally.has(f"{name}: differences", wanted)
        self.tally.compare(f"{name}: differences", tab.call("differencesShown", old, ["", ""])["rows"], wanted)

    def compare_picture(self, tab, name, text, rows, script, after):
        """The bands have the names, cut where they are long, and else what the program draws."""
        ends = ["Names", *(it["names"] for it in program_rows(self.program, "map", rows, "names"))]
        cut = [it if len(it) <= MOST_LETTERS else f"{it[:MOST_LETTERS - 1]}…" for it in ends]
        drawn = tab.ask("namesDrawn()")
        self.tally.compare(f"{name}: names", drawn["names"], cut)
        self.tally.compare(f"{name}: inside", drawn["inside"], True)
        plain = subprocess.run([self.program, "picture", *after, "stdin"], input=script.encode(), capture_output=True,
                               check=False).stdout.decode()
        self.tally.compare(f"{name}: the rest", drawn["rest"], re.findall(r"<text[^>]*>([^<]*)</text>", plain))
        saved = [it.text or "" for it in ElementTree.fromstring(text).iter("{http://www.w3.org/2000/svg}text")
                 if it.get("class") == "names"]
        self.tally.compare(f"{name}: as a document", saved, cut)

    def compare_report(self, tab, name, rows):
        report = tab.ask("reportOf(page)").splitlines()
        for view, text in rows.items():
            wanted = [re.sub(r"([\\`*_[\]<>|#&~])", r"\\\1", it.replace(",", "\0")) for it in text.splitlines()]
            missing = [it for it in wanted if f"| {' | '.join(it.split(chr(0)))} |" not in report]
            self.tally.compare(f"{name}: {view} not in the report", missing, [])

    def compare_at_once(self, tab):
        """Whether the rows have names, and what is said of the access, as soon as names are given or at fault."""
        tab.call("openBoot", "smepmp-boot")
        self.give(tab, "")
        tab.call("verdictsShown", POLICY, "publication")
        tab.call("differencesShown", "pmp 1\n", ["", ""])
        tab.call("choose", ["S", "store", "firmware", "8"])
        without = [5 * [[False]], "Refused 24 BadWord"]
        self.tally.compare("without names", tab.ask("namesShown()"), without)
        self.give(tab, MADE)
        given = [5 * [[True]], "Fault 7, by the rule of entry 0."]
        self.tally.compare("as soon as names are given", tab.ask("namesShown()"), given)
        self.give(tab, FAULTY["turned"])
        self.tally.compare("as soon as names are at fault", tab.ask("namesShown()"), without)

    def compare_starts(self, tab, script):
        tab.call("type", script)
        self.give(tab, MADE)
        for start in STARTS:
            for access in (["U", "load", start, "8"], ["M", "store", start, "4"]):
                status, _, text = self.run("check", script, "stdin", *access)
                wanted = [status, 0, text.strip().removeprefix("1,")]
                self.tally.compare(f"{access} with names", tab.call("accessDecision", access), wanted)
        self.give(tab, "")
        refused = tab.call("accessDecision", ["U", "load", "firmware", "8"])
        self.tally.compare("a name without names", refused, [24, 0, ""])

    def compare_faults(self, tab):
        """The program's number, its row, which is gone to, and what it wants of the field. Names at fault are none."""
        refusals = tab.ask("data.refusals")
        for name, text in FAULTY.items():
            tab.call("openBoot", "first")
            shown = self.give(tab, text)
            status, place, _ = self.run("map", "pmp 1\n", "stdin", options=("--explain",))
            wanted = re.search(r"^wanted: (\w+: .*)$", self.told, re.MULTILINE)
            self.tally.has(f"{name}: refused", status in (20, 21) and (status == 21) == bool(place))
            words = f"{status} {refusals[str(status)]['name']}"
            line = f"{place.capitalize()}: refused {words}" if place else f"Refused {words}"
            advice = f"Wanted: {wanted[1]}." if wanted else refusals[str(status)]["advice"]
            self.tally.compare(f"{name}: the page", shown, {"line": line, "advice": advice, "heads": 0})
            row = int(place.removeprefix("names row ") or 0)
            self.tally.compare(f"{name}: the row", tab.ask("rowGoneTo('names')"), text.split("\n")[row] if row else "")
        self.tally.compare("names too long", tab.ask("readNames('first', 4).fault.status"), 17)

    def compare_files(self, tab):
        """A file that is chosen or dropped, and one that is too long, which the program refuses by the same number."""
        tab.call("openBoot", "first")
        for how, give in (("chosen", self.choose), ("dropped", self.drop)):
            self.give(tab, "")
            self.names.write_bytes(MADE.replace("\n", "\r\n").encode())
            give(tab)
            got = tab.ask("page.opened.then(() => [byId('names').value, page.names.given?.length, byId('boot').value])")
            self.tally.compare(f"names that are {how}", got, [MADE, 10, "first"])
        self.names.write_bytes(b"#" * ((16 << 20) + 1))
        self.choose(tab)
        self.tally.compare("a long file", self.run("map", "pmp 1\n", "stdin")[0], 17)
        told = tab.ask("noticeShown()")
        self.tally.has(f"a long file: {told!r}", told.startswith("names.csv: Refused 17 TooLong. "))
        self.tally.compare("names after a long file", tab.ask("byId('names').value"), MADE)

    def choose(self, tab):
        node = tab.send("Runtime.evaluate", expression="byId('names-file')")["result"]["objectId"]
        tab.send("DOM.setFileInputFiles", files=[str(self.names)], objectId=node)
        tab.ask("page.names.opened")

    def drop(self, tab):
        x, y = tab.ask("(({x, y}) => [x + 20, y + 20])(byId('names').getBoundingClientRect())")
        for kind in ("dragEnter", "dragOver", "drop"):
            tab.send("Input.dispatchDragEvent", type=kind, x=x, y=y,
                     data={"items": [], "files": [str(self.names)], "dragOperationsMask": 1})
        tab.ask("page.names.opened")

    def compare_address(self, tab, opened, url):
        tab.call("openBoot", "smepmp-boot")
        self.give(tab, MADE)
        state = tab.call("goTo", "smepmp-boot", None, "publication", 4, ["S", "store", "a<b&c+0x10", "8"])
        other = opened(url + state["address"])
        self.tally.compare("names by the address", other.ask("stateShown()"), state)
        self.tally.compare("their text", other.ask("[byId('names').value, isSeen(byId('names'))]"), [MADE, True])
        self.tally.compare("complaints", other.complaints(), [])

    def try_sizes(self, tab, sizes):
        for width, height in sizes:
            for dark in (False, True):
                tab.resize(width, height, dark)
                tab.call("openBoot", "smepmp-boot")
                self.give(tab, MADE)
                tab.call("shownAt", "publication", 4)
                place = f"names, {width} wide, {'dark' if dark else 'light'}"
                self.tally.compare(f"{place}: the width", tab.ask("document.documentElement.scrollWidth"), width)
                low = [it for it in tab.ask("contrasts()") if it[1] < 4.5]
                self.tally.compare(f"{place}: contrast below 4.5", low, [])
        tab.resize(*sizes[0])

    def compare_without(self, tab, script):
        """Names that are taken away leave the page as it was."""
        tab.call("openBoot", "smepmp-boot")
        self.tally.compare("no names: heads", self.give(tab, ""), {"line": "", "advice": "", "heads": 0})
        shown = tab.call("shownAt", "publication", 4)
        for view in ("map", "entries", "picture"):
            done = subprocess.run([self.program, view, "--after", "4", "stdin"], input=script.encode(),
                                  capture_output=True, check=False)
            self.tally.compare(f"no names: {view}", shown[view], done.stdout.decode())
        shown = tab.call("verdictsShown", POLICY, "publication")
        self.tally.has("no names: verdicts", shown["answers"])
        self.tally.compare("no names: cells of verdicts", [",".join(it) for it in shown["named"]], shown["answers"])
        self.tally.compare("no names: the address", "names=" in tab.ask("page.noteAddress().then(() => location.hash)"),
                           False)
        self.tally.compare("no names: the report", "Names" in tab.ask("reportOf(page)"), False)
