"""Runs cases on a simulator: one that runs an ELF, or a program that reads the cases itself."""
import os
import resource
import subprocess
from concurrent.futures import ThreadPoolExecutor
from dataclasses import dataclass
from functools import cached_property

from . import answers
from .blob import QUIET, blob_of, name_words, words_of

SECTION = b"conformance cases"


@dataclass(frozen=True, eq=False)
class Run:
    case: object
    part: tuple
    expected: object
    # The case as the hart took it, where it made other choices than the program.
    taken: object = None

    @property
    def understood(self):
        return self.taken or self.case

    @cached_property
    def words(self):
        return list(words_of(self.case, self.part, self.expected))

    def numbered(self, number):
        """The words of the run, which is told by this number."""
        return [self.words[0] | number << 32, *self.words[1:]]

    def named(self, number):
        """The same, with the case's name."""
        first, *others = self.numbered(number)
        return [first, *name_words(self.case.name), *others]

    @property
    def is_sticky(self):
        """Whether writes can't undo what the case leaves."""
        state = self.expected.registers[-1]
        locks = any(value & 0x8080808080808080 for name, value in state.items() if name.startswith("pmpcfg"))
        has_reset = any(it[0] == "reset" for it in self.case.events)
        return has_reset or bool(state["mseccfg"] & 3) or (locks and not state["mseccfg"] & 4)


def batches_of(runs, room, most):
    """Lists of runs for one start of the hart each: one whose state writes can't undo comes last."""
    plain = [it for it in runs if not it.is_sticky]
    sticky = [it for it in runs if it.is_sticky]
    batches, batch, size = [], [], 0
    for run in plain:
        words = len(run.words) * 8
        if batch and (size + words > room or len(batch) >= most):
            batches.append(batch)
            batch, size = [], 0
        batch.append(run)
        size += words
    batches += [batch] if batch else []
    return batches + [[it] for it in sticky]


class Plain:
    """A program that is given a file of cases, and resets itself before each."""

    is_hart, has_reset, starts = False, True, 1

    def __init__(self, words, work):
        self.words = words
        self.path = os.path.join(work, "cases.bin")

    def text(self, blob):
        with open(self.path, "wb") as it:
            it.write(blob)
        return subprocess.run([*self.words, self.path], capture_output=True, text=True, check=True).stdout

    @staticmethod
    def blob(runs):
        return blob_of([run.numbered(number) for number, run in enumerate(runs)])

    def run(self, runs, is_alone=False):
        found = answers.read(self.text(self.blob(runs)))
        return [found.get(it, []) for it in range(len(runs))]

    def texts(self, blob):
        """What is told of each run of a blob, in its order."""
        return [it.split("\n", 1)[1] for it in ("\n" + self.text(blob)).split("\nc ")[1:]]


class Board:
    """A simulator that runs an ELF. ELF stands for the file in its words, or comes last."""

    is_hart = True
    # A hart that hangs has no answer: so many seconds of a processor, and as a last resort so many by the clock.
    LIMIT, LAST_RESORT = 4, 300

    def __init__(self, words, elf, work, jobs, has_reset):
        self.words, self.work, self.jobs, self.has_reset = words, work, jobs, has_reset
        with open(elf, "rb") as it:
            self.image = it.read()
        self.place = self.image.index(SECTION)
        self.room = int.from_bytes(self.image[self.place + 24:self.place + 32], "little")
        self.starts = 0

    def write_elf(self, path, runs):
        self.put_into(path, blob_of([it.numbered(number) for number, it in enumerate(runs)]))

    def write_quiet_elf(self, path, runs):
        """One that tells nothing but the names of cases that differ."""
        self.put_into(path, blob_of([it.named(number) for number, it in enumerate(runs)], QUIET))

    def put_into(self, path, blob):
        if len(blob) > self.room:
            raise SystemExit(f"conformance: a case of {len(blob)} bytes, where the harness has room for {self.room}")
        with open(path, "wb") as it:
            it.write(self.image[:self.place] + blob + self.image[self.place + len(blob):])

    def start(self, batch):
        """The steps of each run of one start of the simulator."""
        self.starts += 1
        path = os.path.join(self.work, f"batch-{self.starts}-{id(batch):x}.elf")
        self.write_elf(path, batch)
        is_named = any("ELF" in it for it in self.words)
        words = [it.replace("ELF", path) for it in self.words] if is_named else [*self.words, path]
        try:
            done = subprocess.run(words, stdin=subprocess.DEVNULL, capture_output=True, timeout=self.LAST_RESORT,
                                  preexec_fn=self.limit, check=False)
            text = done.stdout
        except subprocess.TimeoutExpired as it:
            text = it.stdout or b""
        os.remove(path)
        found = answers.read(text.decode("ascii", "replace"))
        return [found.get(it, []) for it in range(len(batch))]

    @classmethod
    def limit(cls):
        resource.setrlimit(resource.RLIMIT_CPU, (cls.LIMIT, cls.LIMIT))

    def run(self, runs, is_alone=False):
        order = {id(run): place for place, run in enumerate(runs)}
        batches = [[it] for it in runs] if is_alone else batches_of(runs, self.room - 256, 40)
        found = [[] for _ in runs]
        with ThreadPoolExecutor(self.jobs) as pool:
            for batch, steps in zip(batches, pool.map(self.start, batches)):
                for run, these in zip(batch, steps):
                    found[order[id(run)]] = these
        return found

