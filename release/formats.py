"""What docs/FORMATS.md tells elsewhere too, and the refusals of crates/pmp_text/src/refusal.rt."""
import os
import re
import sys

TOP = os.path.dirname(os.path.dirname(os.path.realpath(__file__)))
FORMATS = "docs/FORMATS.md"
REFUSALS = "crates/pmp_text/src/refusal.rt"
# What no text for people has: marks of Markdown, of HTML and of roff.
MARKS = re.compile(r"\*\*|<!--|^\.[A-Z]{1,2} |\\[-&(]|\\f[BIR]|\b[BIR]{1,2} pmp\b", re.MULTILINE)


def text_of(path):
    with open(f"{TOP}/{path}", encoding="utf-8") as it:
        return it.read()


def refusals(text=None):
    """By number, in their order: the name, what was wanted, what to do, and the exit status."""
    text = re.sub(r"\\\n *", "", text or text_of(REFUSALS))
    numbers = {name: int(number) for name, number in re.findall(r"^    (\w+) = (\d+),$", text, re.MULTILINE)}
    texts = [dict(re.findall(r'Refusal::(\w+) =>\s*"([^"]*)",', it)) for it in text.split("-> &'static str")[1:]]
    third = re.findall(r"Refusal::(\w+)", "".join(re.findall(r"^.* => 3,$", text, re.MULTILINE)))
    if not numbers or not third or [[*it] for it in texts] != [[*numbers]] * 3 or [*texts[0].values()] != [*numbers]:
        sys.exit(f"{REFUSALS} isn't as known here")
    _, wanted, remedies = texts
    return {number: {"name": name, "wanted": plain(wanted[name]), "remedy": plain(remedies[name]),
                     "status": 3 if name in third else 2} for name, number in numbers.items()}


def plain(text, quote=""):
    """The text for a reader who sees no marks, with these quotes round code."""
    text = re.sub(r"\*\*(.*?)\*\*", r"\1", text).replace("`", quote)
    if MARKS.search(text):
        sys.exit(f"'{text}' has the mark '{MARKS.search(text)[0]}'")
    return text


def sections(page=None):
    """The blocks of each section of FORMATS, by its heading, but for what stands there alone."""
    text = re.sub(r"<!-- here alone -->.*?(?=^##|\Z)", "", page or text_of(FORMATS), flags=re.DOTALL | re.MULTILINE)
    parts = re.split(r"^##+ (.*)\n", re.sub(r"<!--.*?-->", "", text, flags=re.DOTALL), flags=re.MULTILINE)
    return {heading: [block_of(it) for it in re.split(r"\n{2,}", body.strip("\n")) if it]
            for heading, body in zip(parts[1::2], parts[2::2])}


def block_of(text):
    """A block's kind, and its lines, its rows of cells, its items or its words."""
    lines = text.split("\n")
    if text.startswith("```"):
        return lines[0][3:], lines[1:-1]
    if text.startswith("|"):
        return "table", [[cell.strip() for cell in line.strip("|").split("|")] for line in lines[2:]]
    if text.startswith("- "):
        return "list", [" ".join(item.split()) for item in re.split(r"^- ", text, flags=re.MULTILINE)[1:]]
    return "words", " ".join(lines)


def fields_of(blocks):
    """The plain rows of a section's tables of two columns, by their first cells."""
    return {plain(it[0]): plain(it[1]) for kind, rows in blocks if kind == "table" for it in rows if len(it) == 2}
