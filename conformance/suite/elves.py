"""Writes runs for harts that aren't started here: ELFs that judge themselves, and assembly of their images for RISCOF.
Each has a signature, the words from begin_signature to end_signature as they are where all is as expected."""
import os
import struct

from . import place
from .simulator import batches_of

# As harness/harness.h has it: how many cases ended, and how much was wrong in each.
SIGNATURE_WORDS = 44
MOST = 40
WRITTEN_SYMBOLS = ("tohost", "fromhost", "begin_signature", "end_signature")
ASSEMBLY = """# {name}, which tries: {rule}. The image is the harness with the case in it, linked to {memory:#x}.
    RVTEST_ISA("{isa}")
    RVTEST_CASE(0,"//check ISA:=regex(.*{xlen}.*); check ISA:=regex(.*Smepmp.*); def TEST_CASE_1=True;",{label})
    .section .text.init, "awx"
    .globl rvtest_entry_point
rvtest_entry_point:
    .incbin "{name}.bin"
"""
SYMBOL = """    .globl {symbol}
    .type {symbol}, @object
    .size {symbol}, 8
    .set {symbol}, rvtest_entry_point + {place:#x}
"""
HEAD = """#ifndef RVTEST_ISA
#define RVTEST_ISA(IT)
#define RVTEST_CASE(NUMBER, CONDITION, NAME)
#endif
"""


def signature(count):
    """The lines of the signature of so many cases, a word each."""
    return [f"{it:08x}\n" for it in (count, *[0] * (SIGNATURE_WORDS - 1))]


def batches_with_names(board, runs, is_each):
    """Lists of runs, each with the name of its file: that of its case where it has one alone."""
    parts = {}
    for number, batch in enumerate(batches_of(runs, board.room - 256 - 72 * MOST, 1 if is_each else MOST)):
        case = batch[0].case.name
        parts[case] = parts.get(case, 0) + 1
        part = f"-part-{parts[case]}" if parts[case] > 1 else ""
        yield f"{case}{part}" if is_each else f"{number:04}", batch


def write(folder, board, runs, is_each):
    os.makedirs(folder, exist_ok=True)
    count = 0
    for count, (name, batch) in enumerate(batches_with_names(board, runs, is_each), 1):
        board.write_quiet_elf(f"{folder}/{name}.elf", batch)
        with open(f"{folder}/{name}.txt", "w", encoding="ascii") as it:
            it.writelines(f"{number} {run.case.name}: {run.case.rule}\n" for number, run in enumerate(batch, 1))
        with open(f"{folder}/{name}.signature", "w", encoding="ascii") as it:
            it.writelines(signature(len(batch)))
    room = "a run of a case" if is_each else f"up to {MOST} runs of cases"
    print(f"{folder}: {count} ELFs, each with {room}; beside it the cases' names and its signature")


def write_assembly(folder, board, runs, xlen):
    os.makedirs(folder, exist_ok=True)
    count = 0
    for count, (name, batch) in enumerate(batches_with_names(board, runs, True), 1):
        board.write_quiet_elf(f"{folder}/{name}.elf", batch)
        with open(f"{folder}/{name}.elf", "rb") as it:
            image, symbols = image_of(it.read())
        os.remove(f"{folder}/{name}.elf")
        with open(f"{folder}/{name}.bin", "wb") as it:
            it.write(image)
        with open(f"{folder}/{name}.S", "w", encoding="ascii") as it:
            isa = f"RV{xlen}IMAC_Zicsr_Zifencei_Smepmp"
            rule = batch[0].case.rule
            it.write(HEAD + ASSEMBLY.format(name=name, label=name.replace("-", "_"), rule=rule, isa=isa, xlen=xlen,
                                            memory=place.memory()))
            for symbol in WRITTEN_SYMBOLS:
                it.write(SYMBOL.format(symbol=symbol, place=symbols[symbol]))
        with open(f"{folder}/{name}.signature", "w", encoding="ascii") as it:
            it.writelines(signature(1))
    print(f"{folder}: {count} runs as assembly, each with its image and the signature of reference")


def image_of(elf):
    """The bytes that an ELF has from the start of memory on, and where its symbols lie in them."""
    is_64 = elf[4] == 2
    sections, size, count, _ = struct.unpack_from("<Q10xHHH" if is_64 else "<I10xHHH", elf, 40 if is_64 else 32)
    form = "<IIQQQQIIQQ" if is_64 else "<IIIIIIIIII"
    found = [struct.unpack_from(form, elf, sections + size * it) for it in range(count)]
    image, symbols = bytearray(), {}
    for _, kind, flags, address, offset, length, link, _, _, entry in found:
        if flags & 2 and length:
            start = address - place.memory()
            image.extend(bytes(max(start + length - len(image), 0)))
            image[start:start + length] = elf[offset:offset + length] if kind != 8 else bytes(length)
        if kind == 2:
            names = elf[found[link][4]:]
            for at in range(offset, offset + length, entry):
                name, value = struct.unpack_from("<I4xQ" if is_64 else "<II", elf, at)
                symbols[names[name:names.index(b"\0", name)].decode()] = value - place.memory()
    return bytes(image), symbols
