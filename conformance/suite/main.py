"""What conformance/run does with its words."""
import os
import shlex
import subprocess
import sys
import tempfile

from . import elves, place, replay, report, results
from . import profile as profiles
from .families import RULES, SEEDED, all_cases
from .oracle import Oracle, dumps
from .serial import Serial
from .simulator import Board, Plain

TOP = os.path.dirname(os.path.dirname(os.path.dirname(os.path.realpath(__file__))))

BUILD = os.path.join(os.path.dirname(place.BOARDS), "build")


def build_harness(given, work):
    elf = f"{work}/harness.elf"
    address = [] if given.link is None else [f"{given.link:#x}"]
    if subprocess.run([BUILD, given.board, given.xlen, elf, *address], check=False).returncode:
        raise SystemExit("conformance: the harness isn't built; Debian has its compiler as gcc-riscv64-unknown-elf")
    return elf


def write_cases(folder, suite):
    """Writes each case with the program's answers to it alone, and compares these with those to all cases together."""
    os.makedirs(folder, exist_ok=True)
    for case, answer in zip(suite.cases, suite.expected):
        path = f"{folder}/{case.name}"
        for ending, text in (("pmp", case.script()), ("csv", case.trace())):
            with open(f"{path}.{ending}", "w", encoding="ascii") as it:
                it.write(text)
        for command in ("writes", "dump", "audit"):
            lines = suite.oracle.ask(command, f"{path}.pmp", *([f"{path}.csv"] if command == "audit" else []))
            with open(f"{path}.{command}", "w", encoding="ascii") as it:
                it.writelines(f"{line}\n" for line in lines)
            if command == "dump" and not dumps(lines, answer):
                raise SystemExit(f"conformance: {path}: `pmp dump` and `pmp writes` differ")


def simulator_of(given, work):
    if given.plain:
        return Plain(given.simulator, work)
    elf = build_harness(given, work)
    if place.takes_cases() and given.simulator:
        return Serial(given.simulator, elf, given.reset)
    return Board(given.simulator, elf, work, len(os.sched_getaffinity(0)), place.has_reset())


def cases_of(given, oracle, hart):
    if given.script:
        return [replay.case_of(oracle, hart, given.script, given.trace)]
    return [it for it in all_cases(hart, given.seed, given.random)
            if given.rule in (None, it.rule) and given.only in it.name]


def rules_of(given):
    return (replay.RULE,) if given.script else (given.rule,) if given.rule else (*RULES, SEEDED)


def tell(given, found, profile, oracle, simulator):
    """Writes the report, as text and as what else is asked for, and says whether the hart passes."""
    context = {"version": oracle.version(), "command": shlex.join(sys.argv[1:]), "seed": given.seed,
               "random cases": given.random, "hart": vars(profile.hart)}
    result = results.summary(found, profile, context)
    print(*results.text(result), sep="\n", flush=True)
    program = "./pmp" if os.path.exists(f"{TOP}/pmp") else "pmp"
    for it in report.smallest_differences(found, profile, oracle, simulator, given.each, program):
        result["differences"].append(it)
        print(*results.text_of_difference(it), sep="\n", flush=True)
    if given.json:
        results.write_json(result, given.json)
    if given.junit:
        results.write_junit(result, given.junit)
    return result["passed"]


def write_elves(given, oracle, demanded, board):
    """Writes the cases of the hart that the profile describes."""
    suite = report.Suite(oracle, cases_of(given, oracle, profiles.demanded_hart(demanded)))
    found = report.Found(rules_of(given))
    runs = list(report.runs_of(suite, board, found))
    if given.elf:
        elves.write(given.elf, board, runs, given.each)
    if given.riscof:
        elves.write_assembly(given.riscof, board, runs, given.xlen)
    for reason, count in found.reasons.items():
        print(f"{count} cases have none: {reason}")
    return 0 if runs else 1


def main(given):
    if given.rule not in (None, *RULES, SEEDED):
        raise SystemExit(f"conformance: no rule {given.rule}; they are {', '.join((*RULES, SEEDED))}")
    oracle = Oracle(given.program, not given.plain)
    demanded = profiles.read(given.profile) if given.profile else {}
    with tempfile.TemporaryDirectory() as work:
        simulator = simulator_of(given, work)
        if not given.simulator:
            return write_elves(given, oracle, demanded, simulator)
        profile = report.probe(simulator, demanded)
        suite = report.Suite(oracle, cases_of(given, oracle, profile.hart))
        if given.cases:
            write_cases(given.cases, suite)
        found = report.compare(suite, simulator, profile, rules_of(given))
        return 0 if tell(given, found, profile, oracle, simulator) else 1
