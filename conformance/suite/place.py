"""Where a board has its memory and its devices: a header of harness/boards/ says it, and another address of memory may
be asked for, before suite/case.py is read, which places all in it."""
import os
import re

BOARDS = os.path.join(os.path.dirname(os.path.dirname(os.path.realpath(__file__))), "harness", "boards")
# Rules of the harness are for regions of up to so many bytes.
ALIGNMENT = 0x200000
# The board; its memory, where a link address is asked for; what its header defines; and the words of its devices: one of
# 32 bits, or two where it has registers of a byte.
board, link, defined, device_words = "virt", None, {}, []


def choose(name, address=None):
    global board, link, defined, device_words
    board, link = name, address
    with open(f"{BOARDS}/{name}.h", encoding="ascii") as it:
        text = it.read()
    defined = dict(re.findall(r"^#define (BOARD_\w+) ?(.*)$", text, re.MULTILINE))
    found = [(size, int(it, 16)) for size, it in re.findall(r"uint(\d+)_t \*\)(0x[0-9a-f]+)", text)]
    device_words = sorted({at + more for size, at in found for more in ((0, 4) if size == "8" else (0,))})
    if memory() % ALIGNMENT:
        raise SystemExit(f"conformance: memory has to begin at a multiple of {ALIGNMENT:#x}")


def number(name, default):
    found = re.search(r"0x[0-9a-f]+", defined.get(name, ""))
    return int(found[0], 16) if found else default


def memory():
    return number("BOARD_MEMORY", 0x80000000) if link is None else link


def devices():
    """The region in which the board's console and what resets it lie: a start and a size."""
    return number("BOARD_DEVICES", 0), number("BOARD_DEVICES_SIZE", 0x20000000)


def has_reset():
    return "BOARD_HAS_RESET" in defined


def takes_cases():
    return "BOARD_TAKES_CASES" in defined


choose(board)
