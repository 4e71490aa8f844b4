"""What was found, as one table: `summary` makes it, and it is written as text, as JSON and as JUnit's XML."""
import json
from xml.sax.saxutils import quoteattr

from .blob import EXTENSIONS
from .case import MODES


def summary(found, profile, context):
    """The table but for the smallest cases of what differs. `context` is what the run was given."""
    return {
        **context,
        "passed": found.is_passed() and not profile.unmet(),
        "rules": [{"rule": rule, "cases": found.tried[rule], "differing": found.differing_cases(rule),
                   "not asked": found.skipped[rule]} for rule in found.rules],
        "not there": [f"{it}-mode" for it in MODES if it not in profile.hart.modes]
        + [it for it in EXTENSIONS if not profile.hart.has(it)],
        "not asked": dict(found.reasons),
        "not judged": dict(profile.unjudged),
        "profile": list(profile.lines()),
        "unmet": profile.unmet(),
        "chosen in more than one way": list(profile.inconsistent()),
        "cases": [{"case": case.name, "rule": case.rule, "result": result} for case, result in found.results()],
        "differences": [],
    }


def section(title, lines):
    """Lines below a title, where there are any."""
    lines = [f"  {it}" for it in lines]
    return ["", title, *lines] if lines else []


def text(result):
    """The report's lines, up to the smallest cases."""
    yield f"{result['version']}, conformance/run {result['command']}"
    yield from ("", "| Rule | Cases | Differing | Not asked |", "|---|---|---|---|")
    for row in result["rules"]:
        if row["cases"] or row["not asked"]:
            yield f"| {row['rule']} | {row['cases']} | {row['differing']} | {row['not asked']} |"
        else:
            yield f"| {row['rule']} | not there | | |"
    if not any(row["cases"] for row in result["rules"]):
        yield from ("", "Nothing was asked, which is a failure.")
    yield from section("Not there, and so not tried:", result["not there"])
    yield from section("Cases that weren't asked:", (f"{count} {it}" for it, count in result["not asked"].items()))
    yield from section("Accesses that weren't judged:", (f"{count} {it}" for it, count in result["not judged"].items()))
    yield from section("What the manual leaves open, as this hart has it:", result["profile"])
    yield from section("Choices that were made in more than one way:", result["chosen in more than one way"])


def counted(number, word):
    return f"{number} {word}{'s' if number != 1 else ''}"


def text_of_difference(it):
    cases, runs = counted(it["cases"], "case"), counted(it["runs"], "run")
    yield from ("", f"{it['rule']}: {cases}, {runs}, with this difference; the smallest, {it['case']}:", *it["lines"])


def write_json(result, path):
    with open(path, "w", encoding="utf-8") as it:
        json.dump(result, it, indent=1)
        it.write("\n")


def write_junit(result, path):
    """A test case for each case, whose class is its rule; a failure has the smallest case of its rule."""
    lines = ['<?xml version="1.0" encoding="UTF-8"?>']
    cases, smallest = result["cases"], {}
    for it in result["differences"]:
        smallest.setdefault(it["rule"], "\n".join(it["lines"]))
    failures = sum(it["result"] == "differs" for it in cases)
    skipped = sum(it["result"] not in ("passed", "differs") for it in cases)
    lines.append(f'<testsuite name={quoteattr(result["version"])} tests="{len(cases)}" failures="{failures}"'
                 f' skipped="{skipped}">')
    for it in cases:
        head = f'<testcase classname={quoteattr(it["rule"])} name={quoteattr(it["case"])}'
        if it["result"] == "passed":
            lines.append(f"{head}/>")
        elif it["result"] == "differs":
            lines.append(f'{head}><failure message={quoteattr(smallest.get(it["rule"], ""))}/></testcase>')
        else:
            lines.append(f'{head}><skipped message={quoteattr(it["result"])}/></testcase>')
    with open(path, "w", encoding="utf-8") as it:
        it.write("\n".join([*lines, "</testsuite>"]) + "\n")
