"""What a simulator says of the runs of cases: lines, as harness/harness.c writes them."""
from dataclasses import dataclass, field

from .blob import FIRST_WAYS
from .case import name_of


@dataclass
class Look:
    changed: dict = field(default_factory=dict)
    # The registers whose access raised an exception.
    missing: set = field(default_factory=set)


@dataclass(frozen=True)
class Facts:
    """How many bits a register has, which values mstatus.MPP holds: a bit for each, and how many ways of access are
    known of blob.py's."""

    xlen: int
    modes: int
    ways: int = FIRST_WAYS


@dataclass(frozen=True)
class Answer:
    # None where the access is allowed.
    cause: int | None = None
    address: int = 0
    is_at_access: bool = True

    def __str__(self):
        if self.cause is None:
            return "allow"
        where = "" if self.is_at_access else ", raised elsewhere than at the access"
        return f"exception {self.cause}, mtval {self.address:#x}{where}"


ALLOWED = Answer()
# What the lines begin with that are read here; any other is passed over.
LETTERS = set("acrwxh")


def read(text):
    """The looks and answers of each run, by its number, in the order in which they came. What a run that ended before
    its time wrote last may be no whole line: there the reading ends."""
    runs, steps, look = {}, [], Look()
    for line in text.splitlines():
        if line == "a ok":
            steps.append(ALLOWED)
            continue
        letter, *words = line.split() or [""]
        if letter not in LETTERS:
            continue
        try:
            numbers = [int(it, 16) for it in words]
            if letter == "a":
                steps.append(Answer(numbers[0], numbers[1], numbers[2] == 1))
            elif letter == "r":
                look.changed[name_of(numbers[0])] = numbers[1]
            elif letter == "w":
                steps.append(look)
                look = Look()
            elif letter == "c":
                steps = runs.setdefault(numbers[0], [])
            elif letter == "x":
                look.missing.add(name_of(numbers[0]))
            elif letter == "h":
                steps.append(Facts(*numbers))
        except (IndexError, ValueError, TypeError):
            break
    return runs
