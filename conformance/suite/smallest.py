"""Makes a differing case smaller while it differs in the same way, and writes it so that one can paste it."""
from dataclasses import replace

from .blob import parts_of
from .case import TOR, Access
from .judge import differences
from .profile import Profile
from .simulator import Run


def kind_of(found):
    """What sort of difference it is, by which they are told apart."""
    run, difference = found
    if isinstance(difference.access, Access):
        access, got = difference.access, difference.got.split(",")[0]
        cause = run.expected.causes[access][0]
        return access.by, access.kind, access.mode == "M", access.is_aligned, difference.effect, got, cause
    reasons = " ".join(run.expected.reasons[difference.after - 1]) if difference.after else ""
    return (difference.access or difference.got).rstrip("0123456789"), reasons


def size_of(found):
    run, difference = found
    return difference.after, len(run.case.name), run.case.name


def cut(case, difference):
    """The case up to the difference, with the access at fault alone."""
    accesses = [difference.access] if isinstance(difference.access, Access) else []
    attempts = [it for it in case.attempts if it.after == difference.after and str(it) == difference.access]
    return replace(case, events=case.events[:difference.after], accesses=accesses, attempts=attempts)


def without(case, place):
    """The case without one event."""
    events = case.events[:place] + case.events[place + 1:]
    return replace(case, events=events, accesses=[replace(it, after=it.after - 1) for it in case.accesses],
                   attempts=[replace(it, after=it.after - 1) for it in case.attempts])


def is_kept(run, place):
    """Whether the event writes an end of a TOR entry, without which the entry would end at 0, which is another case."""
    event, state, hart = run.case.events[place], run.expected.registers[-1], run.case.hart
    if event[0] == "reset" or not event[1].startswith("pmpaddr"):
        return False
    entry = int(event[1][7:])
    return TOR in (hart.byte_of(state, it) >> 3 & 3 for it in (entry, entry + 1))


class Smaller:
    def __init__(self, oracle, simulator, profile):
        self.oracle, self.simulator, self.profile = oracle, simulator, profile

    def try_all(self, cases, kind):
        """Of each case, the run and its difference where it is of that kind."""
        cases = [it for it in cases if it.accesses or it.events]
        expected = self.oracle.answer(cases)
        runs = [Run(case, tuple(parts_of(case)[0]), it) for case, it in zip(cases, expected)]
        runs = [it for it in runs if it.expected.is_safe or not self.simulator.is_hart]
        profile = Profile(self.profile.given, hart=self.profile.hart)
        for run, difference in differences(self.oracle, profile, runs, self.simulator.run(runs, is_alone=True)):
            if kind_of((run, difference)) == kind and difference.after == len(run.case.events):
                yield run, difference

    def smallest(self, found):
        """The found run without the events that it doesn't need."""
        kind = kind_of(found)
        found = next(self.try_all([cut(found[0].case, found[1])], kind), found)
        while True:
            case = found[0].case
            if found[1].after != len(case.events):
                return found
            places = [it for it in range(len(case.events)) if not is_kept(found[0], it)]
            smaller = list(self.try_all([without(case, it) for it in places], kind))
            if not smaller:
                return found
            found = smaller[-1]


def lines_to_paste(found, program):
    """A command for the program, and what each side says. A write that the hart took otherwise stands as it took it."""
    run, difference = found
    access = difference.access
    by = ""
    if isinstance(access, Access):
        by = (f" ({access.by})" if access.by else "") + (" by the mode itself" if difference.way else "")
        what = f"{access.mode} {access.asked_kind} {access.start:#x} {access.length}"
        if access in run.expected.needs:
            by += f", at {access.start:#x}, of whose need the command asks"
            what = run.expected.needs[access].replace(",", " ")
        yield f"{program} check stdin {what} <<'END'"
    elif access and access.startswith(("pmp", "mseccfg")):
        yield f"{program} dump stdin <<'END' | grep '^{access} '"
    else:
        yield f"{program} map stdin <<'END'"
    yield from run.understood.script(difference.after).splitlines()[1:]
    yield "END"
    if access and not isinstance(access, Access) and " " in access:
        yield f"# {access}: {difference.wanted} is raised, by the simulator {difference.got}"
    elif access:
        yield f"# the program says {difference.wanted}, the simulator {difference.got}{by}"
    else:
        yield "# the program leaves machine mode its code, data and devices here; the simulator hung or ended"
