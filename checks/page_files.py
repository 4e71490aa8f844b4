"""What checks/page tries of files: scripts and logs that are chosen or dropped, and a picture that is saved.

Of each log that checks/rows/import.txt has, as a log of each form, the module's script is compared with that of
`pmp import`, and so is the text that the page shows where a log is dropped."""
import pathlib
import re
import subprocess

ROWS = pathlib.Path(__file__).parent / "rows/import.txt"
SCRIPT = "pmp 1\nwrite pmpaddr0 0x200001ff\nwrite pmpcfg0 0x99\npublish\n"
ROWS_OF_HARTS = "[...byId('harts').tBodies[0].rows].map((row) => [...row.cells].map((cell) => cell.textContent))"
FORMATS = ("qemu", "gdb", "openocd", "spike", "dump")
DROPPED = {
    "qemu": "riscv_trap hart:0\npmpcfg_csr_write hart 0: write reg0, val: 0x18\n",
    "gdb": "(gdb) info registers\npmpcfg0        0x18\t24\n", "openocd": "pmpcfg0 (/64): 0x0000000000000018\r\n",
    "spike": "core   0: 3 0x0000000080000008 (0x3a0312f3) c928_pmpcfg0 0x0000000000000018\n",
    "dump": "pmpcfg0 0x0000000000000018\n",
}


def steps(words):
    """The texts of the rows' steps that begin so, which stand below them, four blanks to the right."""
    found = re.findall(rf"^(?:{words})\n((?:    .*\n|\n(?=    ))+)", ROWS.read_text(encoding="utf-8"), re.MULTILINE)
    return [re.sub(r"^    ", "", it, flags=re.MULTILINE) for it in found]


def logs():
    """The logs of the rows. In a table each line has one, before `|`, with a backslash and `n` for a line's end."""
    tables = "".join(steps("scripts .*")).splitlines()
    return steps("script|input") + [it.partition("|")[0].replace("\\n", "\n") for it in tables]


def drop(tab, *files):
    """Drops files on the page, and waits for what it does."""
    for kind in ("dragEnter", "dragOver", "drop"):
        tab.send("Input.dispatchDragEvent", type=kind, x=200, y=400,
                 data={"items": [], "files": [str(it) for it in files], "dragOperationsMask": 1})
    tab.ask("page.opened")


def choose(tab, *files):
    node = tab.send("Runtime.evaluate", expression="byId('file')")["result"]["objectId"]
    tab.send("DOM.setFileInputFiles", files=[str(it) for it in files], objectId=node)
    tab.ask("page.opened")


class Files:
    def __init__(self, tally, program, work):
        self.tally, self.program, self.work = tally, program, work
        self.file = pathlib.Path(work, "boot.log")

    def compare_all(self, browser, tab):
        self.compare_logs(tab)
        self.compare_dropped(tab)
        self.compare_scripts(tab)
        self.compare_harts(tab)
        self.compare_picture(browser, tab)

    def answer(self, log, form):
        """[status, line, text] of `pmp import`."""
        self.file.write_text(log, encoding="utf-8", newline="")
        done = subprocess.run([self.program, "import", form, self.file], capture_output=True, check=False)
        refused = re.match(rb"pmp: (?:log line (\d+): )?refused (\d+) ", done.stderr)
        if refused:
            return [int(refused[2]), int(refused[1] or 0), ""]
        return [0, 0, done.stdout.decode()]

    def compare_logs(self, tab):
        known = logs() + list(DROPPED.values()) + [""]
        self.tally.has("the logs of the rows", len(known) > 50)
        kinds = set()
        for log in known:
            for form in FORMATS:
                wanted = self.answer(log, form)
                kinds.add((form, wanted[0]))
                self.tally.compare(f"{form}: {log[:40]!r}", tab.call("importOf", log, form), wanted)
        for form in FORMATS:
            self.tally.has(f"{form}: scripts and refusals", {it[1] for it in kinds if it[0] == form} >= {0, 60, 61})

    def compare_dropped(self, tab):
        for form, log in DROPPED.items():
            wanted = self.answer(log, form)[2]
            drop(tab, self.file)
            self.tally.compare(f"a log of {form} that is dropped", tab.ask("page.editor.text"), wanted)
            self.tally.compare(f"a log of {form}: notice", tab.ask("noticeShown()"),
                               f"This is the script of boot.log, as “pmp import {form}” writes it.")
        broken = "riscv_trap hart:0\npmpcfg_csr_write hart 0: write reg99, val: 0x18\n"
        status, line, _ = self.answer(broken, "qemu")
        drop(tab, self.file)
        self.tally.compare("a log at fault: the text", tab.ask("page.editor.text"), broken)
        told = f"as a log for “pmp import qemu”: line {line}: refused {status} "
        self.tally.has("a log at fault: notice", told in tab.ask("noticeShown()"))
        self.file.write_text("no script\n", encoding="utf-8")
        drop(tab, self.file)
        self.tally.compare("neither a script nor a log", [tab.ask("page.editor.text"), tab.ask("noticeShown()")],
                           ["no script\n", ""])

    def compare_scripts(self, tab):
        file = pathlib.Path(self.work, "boot.pmp")
        file.write_bytes(SCRIPT.replace("\n", "\r\n").encode())
        for how, give in (("chosen", choose), ("dropped", drop)):
            tab.call("openBoot", "first")
            give(tab, file)
            self.tally.compare(f"a file that is {how}", tab.ask("page.editor.text"), SCRIPT)
            self.tally.compare(f"a file that is {how}: notice", tab.ask("noticeShown()"), "")

    def compare_harts(self, tab):
        """Several files are harts: the page lists them as `pmp harts` orders them, and says of each what `pmp diff` does.
        A button shows a hart's script, with that of the first as the old one."""
        folder = pathlib.Path(self.work, "harts")
        folder.mkdir()
        other, refused = SCRIPT.replace("0x99", "0x9b"), SCRIPT.replace("write", "wrote", 1)
        texts = {"hart0": SCRIPT, "hart2": other, "hart10": SCRIPT, "hart10a": refused}
        for name, text in texts.items():
            folder.joinpath(f"{name}.pmp").write_text(text, encoding="utf-8")
        rows = [[name, self.difference(folder, name) if name != "hart0" else ""] for name in texts]
        self.tally.has("harts that differ, are alike and are refused", len({row[1] for row in rows}) == 4)
        for how, give in (("chosen", choose), ("dropped", drop)):
            give(tab, *(folder / f"{name}.pmp" for name in reversed(texts)))
            self.tally.compare(f"harts that are {how}: the list", tab.ask(ROWS_OF_HARTS), rows)
            self.tally.compare(f"harts that are {how}: the first", tab.ask("page.editor.text"), SCRIPT)
        tab.ask("byId('harts').tBodies[0].rows[1].querySelector('button').click()")
        self.tally.compare("a hart that is asked for", tab.ask("[page.editor.text, byId('old-script').value]"),
                           [other, SCRIPT])
        give(tab, folder / "hart0.pmp")
        self.tally.compare("one file has no list of harts", tab.ask("byId('harts-part').hidden"), True)

    def difference(self, folder, name):
        """What the list says of a hart."""
        words = [self.program, "diff", folder / "hart0.pmp", folder / f"{name}.pmp"]
        done = subprocess.run(words, capture_output=True, check=False, text=True)
        at_fault = re.match(r"pmp: new line (\d+: refused \d+ \w+)", done.stderr)
        if at_fault:
            return f"Line {at_fault[1]}"
        count = len(done.stdout.splitlines())
        if count == 0:
            return "the same rights"
        return f"{count} range{'' if count == 1 else 's'} with other rights"

    def compare_picture(self, browser, tab):
        """What is saved of the script that is shown."""
        browser.send("Browser.setDownloadBehavior", behavior="allow", downloadPath=self.work, eventsEnabled=True)
        tab.ask("byId('save').click()")
        while not any(it.get("method") == "Browser.downloadProgress" and it["params"]["state"] != "inProgress"
                      for it in browser.messages):
            browser.messages.append(browser.receive())
        words = [self.program, "picture", "stdin"]
        drawn = subprocess.run(words, input=SCRIPT.encode(), capture_output=True, check=False)
        self.tally.compare("the picture that is saved",
                           pathlib.Path(self.work, "pmp-publication-1.svg").read_text(encoding="utf-8"),
                           drawn.stdout.decode())
