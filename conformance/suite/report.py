"""Runs all cases on a simulator, and finds which differ, and the smallest case of each kind of difference."""
from collections import Counter, defaultdict
from dataclasses import replace

from . import profile as profiles
from .blob import parts_of
from .families import RULES, SEEDED, all_cases
from .judge import differences
from .simulator import Run
from .smallest import Smaller, kind_of, lines_to_paste, size_of

NOT_SAFE = "that close the harness' own memory to it"
NO_RESET = "of a reset, which software can't ask this board for"


class Found:
    def __init__(self, rules=(*RULES, SEEDED)):
        self.rules = rules
        self.tried, self.skipped, self.reasons = Counter(), Counter(), Counter()
        # Of each rule the runs that differ, with their first differences.
        self.differing = defaultdict(list)
        # Each case, and why it wasn't asked.
        self.cases = []

    def differing_cases(self, rule):
        return len({run.case.name for run, _ in self.differing[rule]})

    def is_passed(self):
        """Whether something was tried, and nothing differs."""
        return bool(sum(self.tried.values())) and not any(self.differing.values())

    def results(self):
        """Each case with "passed", "differs", or why it wasn't asked."""
        names = {run.case.name for runs in self.differing.values() for run, _ in runs}
        for case, reason in self.cases:
            yield case, f"not asked: {reason}" if reason else "differs" if case.name in names else "passed"


def profile_of(steps, given):
    """The hart, as its answers to the probe show it, in a profile."""
    profile = profiles.Profile(given)
    profiles.note_probe(profile, steps)
    return profile


def probe(simulator, given):
    """The same, of a simulator. Where the end of memory is given, no load is tried behind it."""
    probe_run = profiles.Probe(() if "memory" in given else profiles.FAR)
    return profile_of(simulator.run([probe_run])[0], given)


class Suite:
    """Cases of one hart with what is expected of them, and a run for each part of one."""

    def __init__(self, oracle, cases):
        self.oracle, self.cases, self.expected = oracle, cases, oracle.answer(cases)
        for case, it in zip(cases, self.expected):
            case.accesses = [access for access in case.accesses if is_askable(case, access, it)]
        self.runs = [[Run(case, tuple(part), it) for part in parts_of(case)] for case, it in zip(cases, self.expected)]

    @classmethod
    def of(cls, oracle, hart, seed, random_cases, rules=(*RULES, SEEDED)):
        return cls(oracle, [it for it in all_cases(hart, seed, random_cases) if it.rule in rules])


def is_askable(case, access, expected):
    """A fetch below machine mode needs an entry that is on: without one, the cases of Deciding 5 alone try it, since a
    simulator may refuse the entry of the mode itself. An SC needs an LR before it that is allowed, and code that falls
    into an instruction one before it."""
    if access.by == "falling":
        return expected.answers.get(replace(access, start=access.start - 2, by="")) == "allow"
    if access.by == "sc":
        return expected.answers.get(replace(access, kind="load", by="lr")) == "allow"
    state = expected.registers[access.after]
    is_one_on = any(value & 0x1818181818181818 for name, value in state.items() if name.startswith("pmpcfg"))
    return case.rule == "Deciding 5" or access.mode == "M" or access.kind != "fetch" or is_one_on


def reason_to_skip(case, expected, simulator):
    """Why the hart can't be asked this case, or nothing."""
    if not simulator.has_reset and any(it[0] == "reset" for it in case.events):
        return NO_RESET
    if simulator.is_hart and not expected.is_safe:
        return NOT_SAFE
    return None


def runs_of(suite, simulator, found):
    """The runs of the cases that the hart can be asked."""
    for case, answer, runs in zip(suite.cases, suite.expected, suite.runs):
        if case.rule not in found.rules:
            continue
        reason = reason_to_skip(case, answer, simulator)
        found.cases.append((case, reason))
        if reason:
            found.skipped[case.rule] += 1
            found.reasons[reason] += 1
            continue
        found.tried[case.rule] += 1
        yield from runs


def compare(suite, simulator, profile, rules=(*RULES, SEEDED)):
    """What is found. On a hart each difference is one that shows in a run of its own too."""
    found = Found(rules)
    runs = list(runs_of(suite, simulator, found))
    suspects = list(differences(suite.oracle, profile, runs, simulator.run(runs)))
    if simulator.is_hart and suspects:
        expected = {id(case): it for case, it in zip(suite.cases, suite.expected)}
        again = [Run(it.case, it.part, expected[id(it.case)]) for it, _ in suspects]
        suspects = list(differences(suite.oracle, profile, again, simulator.run(again, is_alone=True)))
    for run, difference in suspects:
        found.differing[run.case.rule].append((run, difference))
    return found


def groups_of(differing):
    """The differences of a rule in lists of a kind, the smallest first."""
    groups = defaultdict(list)
    for it in sorted(differing, key=size_of):
        groups[kind_of(it)].append(it)
    return sorted(groups.values(), key=lambda it: size_of(it[0]))


def smallest_differences(found, profile, oracle, simulator, is_each, program):
    """Of each rule that differs, or of each kind of difference, the smallest case."""
    smaller = Smaller(oracle, simulator, profile)
    for rule in found.rules:
        for group in groups_of(found.differing[rule])[:None if is_each else 1]:
            run, difference = smaller.smallest(group[0])
            yield {"rule": rule, "case": group[0][0].case.name, "cases": len({it.case.name for it, _ in group}),
                   "runs": len(group), "effect": difference.effect, "wanted": difference.wanted, "got": difference.got,
                   "lines": list(lines_to_paste((run, difference), program))}
