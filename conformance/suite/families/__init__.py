"""The families of cases: one for each rule of docs/RULES.md, and seeded ones on top."""
from . import causes, deciding, matching, partial, registers, seeded, writing

RULES = (
    *(f"Registers {it}" for it in range(1, 8)),
    *(f"Matching {it}" for it in range(1, 5)),
    *(f"Deciding {it}" for it in range(1, 7)),
    *(f"Writing {it}" for it in range(1, 7)),
)
SEEDED = "Seeded"


def all_cases(hart, seed, random_cases):
    """The cases of a hart. Their names are the same for every hart that has them."""
    families = (registers, matching, deciding, partial, causes, writing)
    found = [it.case for family in families for it in family.cases(hart)]
    return found + [it.case for it in seeded.cases(hart, seed, random_cases)]
