"""What checks/page compares of the page's parts "Policy" and "Difference" with what `pmp policy` and `pmp diff` write:
the module's bytes, and the texts that are shown.

A policy's rows are read by the page's own JavaScript, so their texts are compared too: each mode, kind, demand and
pace, rows at edges, and rows that are refused."""
import itertools
import pathlib
import re
import subprocess

from page_rows import program_rows

HEADER = "from,to,modes,kind,first,last,demand\n"
LABELED = "name,from,to,modes,kind,first,last,demand,comment\n"
MODES = ("M", "S", "U", "MS", "UM", "SU", "USM")
KINDS = ("fetch", "load", "store", "any")
DEMANDS = ("never", "always", "held")
RANGES = (("0", "0"), ("0", "0xffffffffffffff"), ("0x80000000", "0x80000fff"), ("2147483647", "0x80000000"),
          ("0xffffffffffffff", "0xffffffffffffff"))
SCRIPT = "pmp 1\nwrite pmpaddr0 0x200001ff\nwrite pmpcfg0 0x99\npublish\nreset\npublish\n"
ROW = "0,,SU,any,0,9,never\n"
READ = {
    "no rows": HEADER, "other line ends": HEADER.replace("\n", "\r") + ROW.replace("\n", "\r\n\n\r"),
    "a byte-order mark": "\ufeff" + HEADER + ROW,
    "quotes that open and close": HEADER + '"0"0,"","S"U,any,"0",9,"never"', "no last line end": (HEADER + ROW)[:-1],
    "a header in quotes": '"from",to,modes,kind,first,last,demand\n' + ROW, "long numbers":
    HEADER + "00000000000000000000,,M,load,0x0000000000000000,00000000000000000009,held\n",
    "names and comments": LABELED + f'a b,{ROW[:-1]},why\n,{ROW[:-1]},"no, it isn""t"\n"""a""",{ROW[:-1]},\n'
                          + f"\u00e9,{ROW[:-1]},\u0085\n",
    "labels without rows": LABELED,
    "addresses without 0x": HEADER + ROW + ROW.replace("9", "00000080000000") + ROW.replace("0,9", "00000000000000,9"),
}
REFUSED = {
    "no header": (20, 0, ROW), "another header": (20, 0, HEADER.replace("to", "until") + ROW),
    "a header too long": (20, 0, HEADER.replace("demand", "demand,") + ROW), "nothing": (20, 0, "\n"),
    "a name alone": (20, 0, LABELED.replace(",comment", "")), "names last": (20, 0, HEADER[:-1] + ",comment,name\n"),
    "no label": (21, 1, LABELED + ROW), "a label too many": (21, 1, HEADER + f"a,{ROW[:-1]},b\n"),
    "a tab in a name": (21, 1, LABELED + f"a\tb,{ROW[:-1]},\n"),
    "a delete in a comment": (21, 1, LABELED + f"a,3{ROW[1:-1]},\x7f\n"),
    "a line end in a comment": (21, 1, LABELED + f'a,{ROW[:-1]},"b\nc"\n'),
    "a name and a number": (22, 1, LABELED + f"a,3{ROW[1:-1]},b\n"),
    "six fields": (21, 2, HEADER + ROW + "0,,SU,any,0,9\n"), "eight fields": (21, 1, HEADER + ROW.replace("\n", ",\n")),
    "a blank": (21, 1, HEADER + " " + ROW), "a line of a blank": (21, 2, HEADER + ROW + " \n"),
    "no from": (21, 1, HEADER + ROW[1:]), "a mode twice": (21, 1, HEADER + ROW.replace("SU", "SS")),
    "no mode": (21, 1, HEADER + ROW.replace("SU", "")), "another mode": (21, 1, HEADER + ROW.replace("SU", "s")),
    "another kind": (21, 1, HEADER + ROW.replace("any", "Any")),
    "a property": (21, 1, HEADER + ROW.replace("any", "toString")),
    "another demand": (21, 1, HEADER + ROW.replace("never", "ever")), "0X": (21, 1, HEADER + ROW.replace("9", "0X9")),
    "2^64": (21, 1, HEADER + ROW.replace("9", str(2 ** 64))), "to below from": (21, 1, HEADER + "2,1" + ROW[2:]),
    "last below first": (21, 1, HEADER + ROW.replace(",0,9", ",9,8")),
    "too many, from": (22, 1, HEADER + "3" + ROW[1:]),
    "too many, to": (22, 1, HEADER + "0,3" + ROW[2:]), "past the end": (4, 1, HEADER + ROW.replace("9", str(2 ** 56))),
    "form before number": (21, 1, HEADER + "3,,SU,any,9,8,never\n"),
    "number before end": (22, 1, HEADER + "3" + ROW[1:].replace("9", str(2 ** 56))),
    "an open quote": (21, 1, HEADER + '"' + ROW), "the first of two": (22, 1, HEADER + "3" + ROW[1:] + "x\n"),
}
# A script of version 3 that names moments, and policies that do.
MARKED = """pmp 3
mark start
hart entries 4
 # mark comment
set mseccfg 0x4
write pmpaddr0 0x200001ff
write pmpcfg0 0x19
publish open.1
\tmark  also_open\r
publish
write pmpcfg0 0
write mseccfg 5
publish Closed
mark z9._
reset
write mseccfg 7
write mseccfg 3
publish
"""
FIRSTS = ("start", "open.1", "also_open", "Closed", "z9._", "last", "last-1", "last-4", "mml", "mmwp", "rlb-clear", "2")
LASTS = ("", "start", "also_open", "Closed", "last", "last-0x2", "mml", "mmwp", "rlb-clear", "3")
NAMED = {
    "names": HEADER + "".join(f"{first},{last},SU,any,0x80000000,0x80000fff,never\n"
                              for first, last in itertools.product(FIRSTS, LASTS)),
    "moments that don't come": HEADER + "".join(f"{first},{last},M,load,0,9,always\n" for first, last in (
        ("last-5", ""), ("0", "last-5"), ("last-5 if-any", ""), ("3", "start if-any"), ("Closed", "0"),
        ("last", "last-1"), ("last-99", "99"), ("mml if-any", "mml"))),
}
NO_NAMES = {
    "another name": (58, 1, "nowhere,"), "another case": (58, 1, "Start,"), "a name to end at": (58, 1, "0,nowhere"),
    "a comment's name": (58, 1, "comment,"), "two blanks before if-any": (21, 1, "start  if-any,"),
    "a number if any": (21, 1, "0 if-any,"), "no number": (21, 1, "last-,"), "a sign": (21, 1, "last--1,"),
    "a letter first": (21, 1, "9start,"), "a dash": (21, 1, "start-1,"), "a taken word": (21, 1, "rlb,"),
    "a name too long": (21, 1, 65 * "a" + ","), "the longest name": (58, 1, 64 * "a" + ","),
    "a number above": (22, 1, "5,start"), "a number to end at": (22, 1, "start,5"), "a number below": (21, 1, "2,1"),
    "a property": (58, 1, "constructor,"), "an umlaut": (21, 1, "\u00e4,"),
}
# Numbers that no text of a policy gives the module: what they change of a right row, and the refusal.
NUMBERS = (({"modes": 0}, 24), ({"modes": 4}, 24), ({"modes": 16}, 24), ({"kind": 4}, 24), ({"demand": 3}, 24),
           ({"pace": 2}, 24), ({"from": "2", "to": "1"}, 21), ({"first": "10"}, 21), ({"to": "3"}, 22),
           ({"last": str(2 ** 56)}, 4), ({"pace": 2, "first": "10"}, 24), ({"to": "3", "last": str(2 ** 56)}, 22))


class Findings:
    def __init__(self, tally, program, work):
        self.tally = tally
        self.program = program
        self.file = pathlib.Path(work, "second")

    def run(self, command, options, first, second):
        """[status, place, text] of a command on two inputs; place is the words of a refusal before its number."""
        self.file.write_bytes(second.encode())
        done = subprocess.run([self.program, command, *options, "stdin", str(self.file)], input=first.encode(),
                              capture_output=True, check=False)
        self.told = done.stderr.decode()
        refused = re.match(r"pmp: (?:(.*): )?refused (\d+) ", self.told)
        return [int(refused[2]), refused[1] or "", ""] if refused else [0, "", done.stdout.decode()]

    # Policies.

    def compare_policies(self, tab, boots, policies):
        made = HEADER + "".join(f"{first}{','.join((modes, kind, *span, demand))}\n"
                                for first, (modes, kind, span, demand) in zip(itertools.cycle(("0,,", "1,1,", "0,0,")),
                                itertools.product(MODES, KINDS, RANGES, DEMANDS)))
        for name, script in boots.items():
            for policy, text in policies.items():
                self.compare_verdicts(tab, f"{name} by {policy}", script, text)
        for name in ("smepmp-boot", "enclaves"):
            self.compare_verdicts(tab, f"{name} by rows of each kind", boots[name], made)
        for name, text in READ.items():
            self.compare_verdicts(tab, name, SCRIPT, text)
        for name, (status, row, text) in REFUSED.items():
            place = f"policy row {row}" if row else ""
            self.tally.compare(f"{name}: refused", self.run("policy", [], SCRIPT, text), [status, place, ""])
            self.compare_verdicts(tab, name, SCRIPT, text)
        for name, text in NAMED.items():
            self.compare_verdicts(tab, name, MARKED, text)
        for name, (status, row, moments) in NO_NAMES.items():
            text = f"{HEADER}{moments}{ROW[2:]}"
            refused = [status, f"policy row {row}", ""]
            self.tally.compare(f"{name}: refused", self.run("policy", [], MARKED, text), refused)
            self.compare_verdicts(tab, name, MARKED, text)
        self.compare_verdicts(tab, "a name in version 1", SCRIPT, f"{HEADER}last,{ROW[2:]}")
        tab.call("type", MARKED)
        for at, names in ((0, " (start)"), (1, " (open.1, also_open)"), (2, ""), (3, " (Closed, z9._)"), (4, "")):
            shown = tab.call("momentShown", "publication", at)
            self.tally.has(f"names of moment {at}: {shown}", shown.startswith(f"After publication {at}{names}: "))
        for change, status in NUMBERS:
            self.tally.compare(f"{change}: the module", tab.call("verdictOf", SCRIPT, change), [status, 0, ""])

    def compare_verdicts(self, tab, name, script, policy):
        """What is shown of a policy after each publication, and after each write, and where a breach leads."""
        tab.call("type", script)
        for by, options in (("publication", []), ("write", ["--each-write"])):
            status, place, text = self.run("policy", options, script, policy)
            shown = tab.call("verdictsShown", policy, by)
            place_shown = f"{name} after each {by}"
            labels = ("name", "comment") if policy.startswith(LABELED) else ()
            told = program_rows(self.program, "policy", text, *labels)
            rows = [",".join(cell for column, cell in it.items() if column not in labels) for it in told]
            self.tally.compare(f"{place_shown}: verdicts", shown["rows"], rows[:500])
            for said, it in zip(shown["said"], told if labels else ()):
                name_told, comment = it["name"], it["comment"]
                self.tally.has(f"{place_shown}: {said!r}", said.startswith(name_told and f"{name_told}: ")
                               and said.endswith(comment and f"; {comment}"))
            self.tally.compare(f"{place_shown}: the module's", shown["answers"], rows)
            head = f"{place.capitalize() or 'Policy'}: refused {status} "
            self.tally.has(f"{place_shown}: {shown['fault']!r}", shown["fault"].startswith(head) if status
                           else shown["fault"] == "")
            note = self.told.removeprefix("pmp: note: ").removesuffix("\n") if status == 0 else ""
            self.tally.compare(f"{place_shown}: the note", shown["note"], note)
            self.tally.compare(f"{place_shown}: what is wanted", bool(shown["wanted"]), bool(status))
            moments = [{"by": by, "at": int(it["done"])} for it in told[:40] if it["verdict"] == "broken"]
            self.tally.compare(f"{place_shown}: where breaches lead", tab.call("breachesGoneTo", 40), moments)

    # Differences.

    def compare_differences(self, tab, boots):
        for (old, text), (new, script) in itertools.product(boots.items(), repeat=2):
            ends = [it.count("\npublish") for it in (text, script)]
            for afters in {("", ""), ("0", str(ends[1])), (str(ends[0] // 2), "1"), (str(ends[0]), "0x0")}:
                self.compare_difference(tab, f"{old} to {new} at {afters}", text, script, afters)
        for name, text, afters in (("a line of the old", "pmp 1\nwrote\n", ("", "")),
                                   ("the old's end", SCRIPT, ("3", "")), ("the new's end", SCRIPT, ("", "3")),
                                   ("both ends", SCRIPT, ("3", "3")),
                                   ("a line and the new's end", "pmp 1\n\nreset\n", ("", "3")),
                                   ("no number", SCRIPT, ("", "x")), ("2^64", SCRIPT, (str(2 ** 64), "")),
                                   ("no line", " ", ("", "")), ("an old of another size", "pmp 2\n", ("", ""))):
            self.compare_difference(tab, name, text, SCRIPT, afters)
        fault = "pmp 1\nwrite pmpaddr64 0\n"
        status, _, _ = self.run("diff", [], SCRIPT, fault)
        self.tally.compare("a line of the new", tab.call("diffOf", SCRIPT, "0", fault, "0"), [status, 2, "", "new"])
        self.tally.compare("lines of both", tab.call("diffOf", fault, "0", fault, "0"), [status, 2, "", "old"])

    def compare_difference(self, tab, name, old, new, afters):
        options = [f"--{side}-after={after}" for side, after in zip(("old", "new"), afters) if after]
        status, place, text = self.run("diff", options, old, new)
        tab.call("type", new)
        shown = tab.call("differencesShown", old, afters)
        self.tally.compare(f"{name}: rows", shown["rows"], text)
        self.tally.compare(f"{name}: the module's", shown["answer"], [status, text])
        where = re.sub("^(old|new)", lambda it: f"{it[1].capitalize()} script", place).replace(" line", ", line")
        head = f"{where}: refused {status} " if where else f"Refused {status} "
        self.tally.has(f"{name}: {shown['fault']!r}", shown["fault"].startswith(head) if status else not shown["fault"])

    # Both.

    def compare_all(self, tab, opened, url, boots):
        policies = tab.ask("data.policies")
        self.tally.has("example policies", len(policies) > 1)
        self.compare_policies(tab, boots, policies)
        self.compare_differences(tab, boots)
        self.compare_addresses(tab, opened, url, boots, policies)

    def compare_addresses(self, tab, opened, url, boots, policies):
        """A link to a finding opens it, with examples by their names, and with texts of one's own."""
        policy = policies["smepmp-boot"]
        for names, by in ((("smepmp-boot", "first"), "write"), ((), "publication")):
            tab.call("openBoot", "smepmp-boot")
            state = tab.call("findingsSet", *(names or (None, None)), policy, boots["enclaves"], by, ["2", "3"])
            other = opened(url + state["address"])
            self.tally.compare(f"findings by the address, of {names}", other.ask("findingsShown()"), state)
            self.tally.compare("complaints", other.complaints(), [])
