"""The program's rows for checks/page, by the names of their columns, which are those of the program's Markdown."""
import csv
import functools
import pathlib
import subprocess

TOP = pathlib.Path(__file__).resolve().parent.parent
BOOT = TOP / "examples/smepmp-boot.pmp"
# What a command is asked of besides the boot.
WORDS = {"policy": [TOP / "examples/pipeline/smepmp-boot.csv"], "diff": [BOOT], "why": ["U", "load", "0", "1"]}


@functools.lru_cache(None)
def columns_of(program, command):
    """The names of the columns of each table that a command writes."""
    words = [program, command, "--format", "markdown", BOOT, *WORDS.get(command, [])]
    text = subprocess.run(words, capture_output=True, check=False).stdout.decode()
    heads = [table.split("\n")[0] for table in text.split("\n\n")]
    return [[cell.strip() for cell in head.strip("|").split("|")] for head in heads]


def program_rows(program, command, text, *more, table=0):
    """The rows of a table of a command, as dicts. What stands behind their columns has the names `more`."""
    columns = [*columns_of(program, command)[table], *more]
    return [dict(zip(columns, cells, strict=True)) for cells in csv.reader(text.split("\n")[:-1])]
