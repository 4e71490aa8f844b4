"""A script and a trace of any hart as a case of this one: the same writes, and those accesses that can be made."""
from .case import ARENA, ARENA_SIZE, CODE, MEMORY_END, STUB, Access, Case
from .hart import PAGE

RULE = "Script"


def registers_at(oracle, script, after):
    """What `pmp dump` says there."""
    lines = (it.split() for it in oracle.ask("dump", script, "--after", str(after)))
    return {name: int(value, 16) for name, value in lines}


def events_of(oracle, script):
    """The script's events, and how many are done after each number of publications. What it sets is written first."""
    events = [("write", name, value) for name, value in sorted(registers_at(oracle, script, 0).items()) if value]
    done = [len(events)]
    for row in (it.split(",") for it in oracle.ask("writes", script)):
        if row[0]:
            done += [len(events)] * (int(row[1]) + 1 - len(done))
            events.append(("reset", ()) if row[3] == "reset" else ("write", row[3], int(row[4], 16)))
            done[-1] = len(events)
    return events, done


def moments_of(script):
    """The names of the script's moments, each with its number of publications."""
    names, count = {}, 0
    with open(script, encoding="utf-8") as it:
        for words in map(str.split, it):
            count += words[:1] == ["publish"]
            if len(words) == 2 and words[0] in ("publish", "mark"):
                names[words[1]] = count
    last = {f"last-{it}": count - it for it in range(1, count + 1)}
    return {**names, **last, "last": count}


def can_be_made(access, is_for_hart):
    """Whether the access can be made; by the harness a load of memory, and a store or a fetch where it has nothing of
    its own."""
    end = access.start + access.length
    if access.length > 8 or not is_for_hart:
        return access.length <= 8
    if access.kind == "load":
        return CODE <= access.start and end <= MEMORY_END
    first = STUB + PAGE if access.kind == "store" or access.length == 4 else ARENA
    last = MEMORY_END if first != ARENA else ARENA + ARENA_SIZE
    fits = access.length in ((2, 4) if access.kind == "fetch" else (1, 2, 4, 8)) and first <= access.start
    return fits and end <= last and (access.kind != "fetch" or access.start % 2 == 0)


def case_of(oracle, hart, script, trace):
    events, done = events_of(oracle, script)
    accesses, rows = [], []
    if trace:
        moments = moments_of(script)
        with open(trace, encoding="utf-8") as it:
            rows = [line.strip().split(",") for line in it if line.strip()][1:]
    for after, mode, kind, start, length in rows:
        moment = moments[after] if after in moments else int(after, 0)
        count = done[min(moment, len(done) - 1)]
        access = Access(count, mode, kind, int(start, 0), int(length, 0))
        if mode in hart.modes and can_be_made(access, oracle.is_for_hart) and access not in accesses:
            accesses.append(access)
    if len(accesses) < len(rows):
        print(f"{len(rows) - len(accesses)} of {len(rows)} accesses can't be made here, or stand twice")
    return Case("script", RULE, hart, events, accesses, looks=hart.entries)
