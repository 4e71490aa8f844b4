// harts: what registers of a hart read, and what it decides, on rows that were worked out by hand from the manual: its
// entries, its grain, its address bits, its XLEN, and Smepmp or not. The last line is 'N passed, M failed'.
#include "library.h"
#include <string.h>

static const struct {
    uint64_t hart;
    const char *writes;
    uint32_t csr;
    uint64_t value;
} READS[] = {
    // Entries that aren't there read as zero.
    {TILVENKA_PMP_HART(8, 4, 56, 1), "3b7=5 3b8=5", 0x3b7, 5},
    {TILVENKA_PMP_HART(8, 4, 56, 1), "3b7=5 3b8=5", 0x3b8, 0},
    {TILVENKA_PMP_HART(8, 4, 56, 1), "3a2=1f", 0x3a2, 0},
    {TILVENKA_PMP_HART(9, 4, 56, 1), "3a2=1f1f", 0x3a2, 0x1f},
    {TILVENKA_PMP_HART(0, 4, 56, 1), "3a0=1f", 0x3a0, 0},
    {TILVENKA_PMP_HART(64, 4, 56, 1), "3ef=5", 0x3ef, 5},
    // Two bits fewer than an address, since it is of words.
    {TILVENKA_PMP_HART(16, 4, 56, 1), "3b0=ffffffffffffffff", 0x3b0, 0x3fffffffffffff},
    {TILVENKA_PMP_HART(16, 4, 38, 1), "3b0=ffffffffffffffff", 0x3b0, 0xfffffffff},
    {TILVENKA_PMP_HART(16, 4, 34, 1), "3b0=ffffffffffffffff", 0x3b0, 0xffffffff},
    // OFF and TOR read bits G-1 to 0 as zero, NAPOT bits G-2 to 0 as one, and bit G-1 is kept.
    {TILVENKA_PMP_HART(16, 4096, 56, 1), "3b0=ffffffffffffffff", 0x3b0, 0x3ffffffffffc00},
    {TILVENKA_PMP_HART(16, 4096, 56, 1), "3b0=ffffffffffffffff 3a0=8", 0x3b0, 0x3ffffffffffc00},
    {TILVENKA_PMP_HART(16, 4096, 56, 1), "3a0=18", 0x3b0, 0x1ff},
    {TILVENKA_PMP_HART(16, 4096, 56, 1), "3b0=200", 0x3b0, 0},
    {TILVENKA_PMP_HART(16, 4096, 56, 1), "3b0=200 3a0=18", 0x3b0, 0x3ff},
    {TILVENKA_PMP_HART(16, 4096, 56, 1), "3b0=200 3a0=18 3a0=8 3a0=18", 0x3b0, 0x3ff},
    {TILVENKA_PMP_HART(16, 8, 56, 1), "3b0=7", 0x3b0, 6},
    {TILVENKA_PMP_HART(16, 8, 56, 1), "3b0=6 3a0=18", 0x3b0, 6},
    {TILVENKA_PMP_HART(16, 16, 56, 1), "3b0=4 3a0=18", 0x3b0, 5},
    // NA4 can be chosen where G is 0 alone.
    {TILVENKA_PMP_HART(16, 4, 56, 1), "3a0=17", 0x3a0, 0x17},
    {TILVENKA_PMP_HART(16, 8, 56, 1), "3a0=17", 0x3a0, 7},
    {TILVENKA_PMP_HART(16, 8, 56, 1), "3a0=1f0f17", 0x3a0, 0x1f0f07},
    {TILVENKA_PMP_HART(16, 4, 56, 1), "747=7", MSECCFG, 7},
    // RV32 has four bytes a register, the lowest entry lowest, and pmpcfg1 is of entries 4 to 7.
    {TILVENKA_PMP_HART_RV32(16, 4, 34, 1), "3a0=1f0f091b", 0x3a0, 0x1f0f091b},
    {TILVENKA_PMP_HART_RV32(16, 4, 34, 1), "3a1=1f0f091b", 0x3a1, 0x1f0f091b},
    {TILVENKA_PMP_HART_RV32(16, 4, 34, 1), "3a1=1f0f091b", 0x3a0, 0},
    {TILVENKA_PMP_HART_RV32(16, 4, 34, 1), "3a0=1f0f091b", 0x3a1, 0},
    {TILVENKA_PMP_HART_RV32(16, 4, 34, 1), "3a2=1f", 0x3a2, 0x1f},
    {TILVENKA_PMP_HART_RV32(64, 4, 34, 1), "3af=1f000000", 0x3af, 0x1f000000},
    {TILVENKA_PMP_HART_RV32(16, 4, 34, 1), "3a4=1f1f1f1f", 0x3a4, 0},
    {TILVENKA_PMP_HART_RV32(5, 4, 34, 1), "3a1=1f1f1f1f", 0x3a1, 0x1f},
    {TILVENKA_PMP_HART_RV32(16, 4, 34, 1), "3a0=1f1f1f1f00000000", 0x3a0, 0},
    {TILVENKA_PMP_HART_RV32(16, 4, 34, 1), "3a0=1f1f1f1f00000000", 0x3a1, 0},
    // pmpaddr has bits 33 to 2 of an address, or fewer.
    {TILVENKA_PMP_HART_RV32(16, 4, 34, 1), "3b0=ffffffffffffffff", 0x3b0, 0xffffffff},
    {TILVENKA_PMP_HART_RV32(16, 4, 33, 1), "3b0=ffffffff", 0x3b0, 0x7fffffff},
    {TILVENKA_PMP_HART_RV32(16, 4, 32, 1), "3b0=ffffffff", 0x3b0, 0x3fffffff},
    {TILVENKA_PMP_HART_RV32(16, 4096, 34, 1), "3b0=ffffffff", 0x3b0, 0xfffffc00},
    // A frozen range of entry 4 holds pmpaddr3, which another pmpcfg has the byte of.
    {TILVENKA_PMP_HART_RV32(16, 4, 34, 1), "3b3=5 3a1=89 3b3=6", 0x3b3, 5},
    {TILVENKA_PMP_HART_RV32(16, 4, 34, 1), "747=7", MSECCFG, 7},
    {TILVENKA_PMP_HART_RV32(16, 4, 34, 1), "747=7 757=ffffffff", MSECCFGH, 0},
    {TILVENKA_PMP_HART_RV32(16, 4, 34, 1), "747=7 757=ffffffff", MSECCFG, 7},
};

static void try_reads(void) {
    for (unsigned i = 0; i < sizeof READS / sizeof *READS; i++) {
        tilvenka_pmp_unit unit;
        reset(&unit, READS[i].hart);
        write_all(&unit, READS[i].writes);
        expect(read_csr(&unit, READS[i].csr) == READS[i].value, "register of a hart", i);
    }
}

static const struct {
    uint64_t hart;
    const char *writes;
    uint32_t mode, kind;
    uint64_t start, length;
    uint32_t answer;
} DECISIONS[] = {
    // S and U are refused where no entry matches, and free where there is none.
    {TILVENKA_PMP_HART(1, 4, 56, 1), "", U, LOAD, 0, 4, TILVENKA_PMP_FAULT * 5 + NONE},
    {TILVENKA_PMP_HART(0, 4, 56, 1), "", U, LOAD, 0, 4, NONE},
    {TILVENKA_PMP_HART(0, 4, 56, 1), "747=2", M, LOAD, 0, 4, TILVENKA_PMP_FAULT * 5 + NONE},
    {TILVENKA_PMP_HART(0, 4, 56, 0), "", M, LOAD, 0, 4, NONE},
    // NAPOT matches 2^(G+2) bytes at least.
    {TILVENKA_PMP_HART(16, 4096, 56, 1), "3b0=20000000 3a0=1f", U, LOAD, 0x80000ffc, 4, 0},
    {TILVENKA_PMP_HART(16, 4096, 56, 1), "3b0=20000000 3a0=1f", U, LOAD, 0x80001000, 4, TILVENKA_PMP_FAULT * 5 + NONE},
    {TILVENKA_PMP_HART(16, 4096, 56, 1), "3b0=20000000 3a0=1f", U, STORE, 0x80000ffc, 8,
     TILVENKA_PMP_FAULT * 7 + SPLIT},
    {TILVENKA_PMP_HART(16, 8, 56, 1), "3b0=20000000 3a0=1f", U, LOAD, 0x80000004, 4, 0},
    {TILVENKA_PMP_HART(16, 8, 56, 1), "3b0=20000000 3a0=1f", U, LOAD, 0x80000008, 4, TILVENKA_PMP_FAULT * 5 + NONE},
    // TOR passes over bits G-1 to 0 of both ends.
    {TILVENKA_PMP_HART(16, 4096, 56, 1), "3b0=200003ff 3b1=200007ff 3a0=f00", U, STORE, 0x80000000, 4, 1},
    {TILVENKA_PMP_HART(16, 4096, 56, 1), "3b0=200003ff 3b1=200007ff 3a0=f00", U, STORE, 0x80000ffc, 4, 1},
    {TILVENKA_PMP_HART(16, 4096, 56, 1), "3b0=200003ff 3b1=200007ff 3a0=f00", U, STORE, 0x80001000, 4,
     TILVENKA_PMP_FAULT * 7 + NONE},
    {TILVENKA_PMP_HART(16, 4096, 56, 1), "3b0=20000000 3b1=200003ff 3a0=f00", U, FETCH, 0x80000000, 4,
     TILVENKA_PMP_FAULT + NONE},
    // RV32: an access of 34 bits, and entry 4 by pmpcfg1.
    {TILVENKA_PMP_HART_RV32(16, 4, 34, 1), "3b4=ffffffff 3a1=1f", U, STORE, 0x3fffffffc, 4, 4},
    {TILVENKA_PMP_HART_RV32(16, 4, 34, 1), "3b4=ffffffff 3a1=0f", U, STORE, 0x3fffffffc, 4,
     TILVENKA_PMP_FAULT * 7 + NONE},
    {TILVENKA_PMP_HART_RV32(16, 4, 34, 1), "3b4=ffffffff 3a1=0f", U, STORE, 0x3fffffff8, 8,
     TILVENKA_PMP_FAULT * 7 + SPLIT + 4},
    {TILVENKA_PMP_HART_RV32(16, 4, 32, 1), "3b4=ffffffff 3a1=0f", U, LOAD, 0xfffffff8, 4, 4},
    {TILVENKA_PMP_HART_RV32(16, 4, 32, 1), "3b4=ffffffff 3a1=0f", U, LOAD, 0xfffffffc, 4,
     TILVENKA_PMP_FAULT * 5 + NONE},
    // NA4 becomes OFF.
    {TILVENKA_PMP_HART(16, 8, 56, 1), "3b0=20000000 3a0=17", U, LOAD, 0x80000000, 4, TILVENKA_PMP_FAULT * 5 + NONE},
};

static void try_decisions(void) {
    for (unsigned i = 0; i < sizeof DECISIONS / sizeof *DECISIONS; i++) {
        tilvenka_pmp_unit unit;
        reset(&unit, DECISIONS[i].hart);
        write_all(&unit, DECISIONS[i].writes);
        expect(decide(&unit, DECISIONS[i].mode, DECISIONS[i].kind, DECISIONS[i].start, DECISIONS[i].length)
                   == DECISIONS[i].answer, "decision of a hart", i);
    }
}

// A write that the grain changes says so, and one to the registers of the same hart whose grain is 4 bytes doesn't.
static void try_statuses(void) {
    static const struct {
        uint32_t csr;
        uint64_t value;
    } writes[] = {{PMPADDR0, 0x3ff}, {PMPCFG0, 0x17}};
    for (unsigned i = 0; i < sizeof writes / sizeof *writes; i++) {
        for (unsigned grain = 4; grain <= 4096; grain *= 2) {
            tilvenka_pmp_unit unit;
            reset(&unit, TILVENKA_PMP_HART(16, grain, 56, 1));
            uint32_t status = tilvenka_pmp_write(&unit, writes[i].csr, writes[i].value);
            expect(!(status & TILVENKA_PMP_GRAIN) == (grain == 4), "status of a hart", grain + i);
            expect(tilvenka_pmp_is_stored(status) == (grain == 4), "stored in a hart", grain + i);
        }
    }
}

// Without Smepmp there is no mseccfg and no mseccfgh: it is neither read nor written, and all stays.
static void try_without(uint64_t hart, uint32_t csr, bool is_there, uint32_t done) {
    tilvenka_pmp_unit unit, before;
    uint64_t value = 77, first = 78, last = 79;
    reset(&unit, hart);
    tilvenka_pmp_build(&unit);
    before = unit;
    uint32_t wanted = is_there ? TILVENKA_PMP_UNCHANGED : TILVENKA_PMP_NO_REGISTER;
    expect(tilvenka_pmp_read(&unit, csr, &value) == wanted, "it is read", csr);
    expect(value == (is_there ? 0 : 77), "what it reads", csr);
    expect(tilvenka_pmp_write(&unit, csr, 0) == wanted, "it is written", csr);
    expect(tilvenka_pmp_write_moved(&unit, csr, 0, &first, &last) == wanted, "it is moved", csr);
    expect(first == 78 && last == 79 && memcmp(&unit, &before, sizeof unit) == 0, "nothing moved", csr);
    uint32_t status = tilvenka_pmp_write(&unit, csr, 7);
    expect(status == (is_there ? done : TILVENKA_PMP_NO_REGISTER), "it is another", csr);
    bool is_changed = is_there && done == TILVENKA_PMP_CHANGED;
    expect((memcmp(&unit, &before, sizeof unit) != 0) == is_changed, "the unit is another", csr);
    expect(tilvenka_pmp_read(&unit, PMPADDR0, &value) == TILVENKA_PMP_UNCHANGED && value == 0, "pmpaddr0", csr);
}

static void try_plain_harts(void) {
    for (unsigned smepmp = 0; smepmp < 2; smepmp++) {
        uint64_t rv32 = TILVENKA_PMP_HART_RV32(16, 4, 34, smepmp);
        try_without(TILVENKA_PMP_HART(16, 4, 56, smepmp), MSECCFG, smepmp, TILVENKA_PMP_CHANGED);
        try_without(TILVENKA_PMP_HART(16, 4, 56, smepmp), MSECCFGH, false, 0);
        try_without(rv32, MSECCFG, smepmp, TILVENKA_PMP_CHANGED);
        try_without(rv32, MSECCFGH, smepmp, TILVENKA_PMP_BITS);
        try_without(rv32, MSECCFGH + 1, false, 0);
        try_without(rv32, MSECCFGH + 0x10000, false, 0);
    }
}

// A unit of other bytes than a reset leaves, which is to stay.
static void fill(tilvenka_pmp_unit *unit) {
    uint8_t *bytes = (uint8_t *)unit;
    for (size_t i = 0; i < sizeof *unit; i++)
        bytes[i] = 37 + i;
}

// Whether header and library take the number, or refuse it and leave all as it is. One that is taken is of so many
// entries, as the address registers tell, and of this XLEN, as pmpcfg1 tells.
static bool is_taken_right(uint64_t hart, bool is_hart, unsigned entries, unsigned xlen) {
    static tilvenka_pmp_unit unit, before;
    tilvenka_pmp_registers numbers;
    fill(&unit);
    before = unit;
    uint32_t wanted = is_hart ? TILVENKA_PMP_UNCHANGED : TILVENKA_PMP_NO_HART;
    bool is_right = tilvenka_pmp_is_hart(hart) == is_hart && tilvenka_pmp_reset(&unit, hart) == wanted;
    is_right &= (memcmp(&unit, &before, sizeof unit) == 0) == !is_hart;
    fill(&unit);
    numbers = unit.registers;
    numbers.entries = hart;
    is_right &= tilvenka_pmp_restore(&unit, &numbers) == wanted;
    is_right &= (memcmp(&unit, &before, sizeof unit) == 0) == !is_hart;
    if (!is_hart)
        unit = (tilvenka_pmp_unit){.registers = {.entries = hart}};
    else
        reset(&unit, hart);
    is_right &= tilvenka_pmp_count(&unit.registers) == entries && tilvenka_pmp_count(&numbers) == entries;
    is_right &= tilvenka_pmp_xlen(&unit.registers) == xlen && tilvenka_pmp_xlen(&numbers) == xlen;
    is_right &= (read_csr(&unit, PMPCFG0 + 1) == 0) == (xlen == 32);
    unsigned there = 0;
    for (unsigned entry = 0; entry < 64; entry += entry < 60 ? 5 : 1) {
        tilvenka_pmp_write(&unit, PMPADDR0 + entry, 5 << 10);
        there += (read_csr(&unit, PMPADDR0 + entry) == 5 << 10) == (entry < entries);
    }
    return is_right && there == 16;
}

// Whether a number of these parts is that of a hart, and with another of the bits that are to be 0 or 1 none.
static void try_parts(unsigned xlen, uint64_t entries, uint64_t g, uint64_t bits) {
    unsigned fewest = xlen == 32 ? 32 : 34, most = xlen == 32 ? 34 : 56;
    bool is_hart = entries <= 64 && g <= 10 && bits >= fewest && bits <= most;
    uint64_t hart = spelled(xlen, entries, g, bits, bits % 2);
    expect(is_taken_right(hart, is_hart, is_hart ? entries : 16, is_hart ? xlen : 64), "number of a hart", hart >> 16);
    if (!is_hart || entries % 13 != 0 || g % 5 != 0 || (bits != fewest && bits != most))
        return;
    for (unsigned bit = 18; bit < 64; bit++)
        if (bit < 24 || bit > 27)
            expect(is_taken_right(hart ^ UINT64_C(1) << bit, false, 16, 64), "bit of a hart", bit);
    for (unsigned bit = 14; bit < 16; bit++)
        expect(is_taken_right(hart ^ UINT64_C(1) << bit, false, 16, 64), "bit of a hart's address bits", bit);
}

// Every number of entries, G and address bits near the ranges, with every bit that is to be 0.
static void try_numbers(void) {
    for (uint64_t entries = 0; entries < 256; entries += entries < 66 ? 1 : 63)
        for (uint64_t g = 0; g < 14; g++)
            for (uint64_t bits = 30; bits < 59; bits++)
                for (unsigned xlen = 32; xlen <= 64; xlen += 32)
                    try_parts(xlen, entries, g, bits);
    for (uint64_t number = 0; number < 300; number++)
        expect(is_taken_right(number, number == 16 || number == 64, number == 64 ? 64 : 16, 64), "plain number",
               number);
    for (unsigned bit = 9; bit < 64; bit++) {
        expect(is_taken_right(16 + (UINT64_C(1) << bit), false, 16, 64), "16 and a bit", bit);
        expect(is_taken_right(64 + (UINT64_C(1) << bit), false, 16, 64), "64 and a bit", bit);
    }
}

// A constant, also in a static initializer.
static const uint64_t CONSTANT = TILVENKA_PMP_HART(8, 4096, 34, true);
static const uint64_t CONSTANT_RV32 = TILVENKA_PMP_HART_RV32(8, 4096, 34, true);

// The macros spell what their arguments say.
static void try_macros(void) {
    for (uint64_t g = 0; g <= 10; g++)
        for (unsigned entries = 0; entries <= 64; entries++)
            for (unsigned bits = 32; bits <= 56; bits++) {
                expect(TILVENKA_PMP_HART(entries, 4 << g, bits, false) == spelled(64, entries, g, bits, 0), "hart", g);
                expect(TILVENKA_PMP_HART(entries, 4 << g, bits, 2) == spelled(64, entries, g, bits, 1), "Smepmp", g);
                expect(TILVENKA_PMP_HART_RV32(entries, 4 << g, bits, 0) == spelled(32, entries, g, bits, 0), "RV32", g);
                expect(TILVENKA_PMP_HART_RV32(entries, 4 << g, bits, 2) == spelled(32, entries, g, bits, 1),
                       "RV32 with Smepmp", g);
                expect(tilvenka_pmp_is_hart(TILVENKA_PMP_HART(entries, 4 << g, bits, 1)) == (bits >= 34), "a hart",
                       bits);
                expect(tilvenka_pmp_is_hart(TILVENKA_PMP_HART_RV32(entries, 4 << g, bits, 1)) == (bits <= 34),
                       "a hart of RV32", bits);
            }
    expect(CONSTANT == spelled(64, 8, 10, 34, 1) && sizeof TILVENKA_PMP_HART(8, 4, 56, 1) == 8, "constant", 64);
    expect(CONSTANT_RV32 == spelled(32, 8, 10, 34, 1) && sizeof TILVENKA_PMP_HART_RV32(8, 4, 34, 1) == 8, "constant",
           32);
    // The whole is one, whatever operators stand beside it.
    expect(TILVENKA_PMP_HART(8, 4, 56, 1) >> 32 == 1, "a hart in parentheses", 0);
    expect(0 * TILVENKA_PMP_HART(8, 4, 56, 1) == 0, "a hart in parentheses", 1);
    expect(TILVENKA_PMP_HART_RV32(8, 4, 34, 1) >> 32 == 1, "a hart of RV32 in parentheses", 0);
    expect(0 * TILVENKA_PMP_HART_RV32(8, 4, 34, 1) == 0, "a hart of RV32 in parentheses", 1);
}

// What both have of their arguments names no hart where one is out of its range, and each is one, whatever operators it
// has.
static void try_arguments(void) {
    for (uint64_t grain = 0; grain < 10000; grain++)
        expect(tilvenka_pmp_is_hart(TILVENKA_PMP_HART(16, grain, 56, 1))
                   == (grain >= 4 && grain <= 4096 && (grain & (grain - 1)) == 0), "grain", grain);
    static const int64_t wide[] = {-1, 256, 264, 256 + 56, INT64_C(0x100000038), INT64_MIN + 56, -200, 57, 255};
    for (unsigned i = 0; i < sizeof wide / sizeof *wide; i++) {
        expect(!tilvenka_pmp_is_hart(TILVENKA_PMP_HART(i == 7 ? 65 : wide[i], 4, 56, 1)), "wide entries", i);
        expect(!tilvenka_pmp_is_hart(TILVENKA_PMP_HART(8, 4, wide[i], 1)), "wide address bits", i);
    }
    for (unsigned bit = 13; bit < 64; bit++)
        expect(!tilvenka_pmp_is_hart(TILVENKA_PMP_HART(8, (UINT64_C(1) << bit) + 4, 56, 1)), "wide grain", bit);
    expect(!tilvenka_pmp_is_hart(TILVENKA_PMP_HART(8, -4, 56, 1)), "grain below 0", 0);
    expect(TILVENKA_PMP_HART(-16 / -2, 4, 56, 1) == spelled(64, 8, 0, 56, 1), "entries in parentheses", 0);
    expect(!tilvenka_pmp_is_hart(TILVENKA_PMP_HART(256 | 8, 4, 56, 1)), "entries in parentheses", 1);
    expect(TILVENKA_PMP_HART(8, 4, -112 / -2, 1) == spelled(64, 8, 0, 56, 1), "address bits in parentheses", 0);
    expect(!tilvenka_pmp_is_hart(TILVENKA_PMP_HART(8, 4, 256 | 56, 1)), "address bits in parentheses", 1);
    for (uint64_t g = 0, grain = 4; g <= 10; g++, grain *= 2)
        expect(TILVENKA_PMP_HART(8, 8191 & grain, 56, 1) == spelled(64, 8, g, 56, 1), "grain in parentheses", g);
    uint64_t even = next_random() << 1 | 2;
    expect(TILVENKA_PMP_HART(8, 4, 56, even ? even : even) == spelled(64, 8, 0, 56, 1), "Smepmp in parentheses", 0);
}

// Entries that the hart has, and that aren't off as it stores them.
static void try_entries_on(void) {
    static const struct {
        uint64_t hart;
        unsigned on;
    } counts[] = {
        {16, 3},
        {64, 4},
        {TILVENKA_PMP_HART(64, 4, 56, 1), 4},
        {TILVENKA_PMP_HART(64, 8, 56, 1), 3},
        {TILVENKA_PMP_HART(2, 4, 56, 1), 2},
        {TILVENKA_PMP_HART(2, 4096, 56, 1), 1},
        {TILVENKA_PMP_HART(0, 4, 56, 1), 0},
        {TILVENKA_PMP_HART(64, 8192, 56, 1), 3},
        {TILVENKA_PMP_HART(256, 4, 56, 1), 3},
        {TILVENKA_PMP_HART_RV32(2, 4, 34, 1), 2},
        {TILVENKA_PMP_HART_RV32(64, 8, 32, 0), 3},
        {TILVENKA_PMP_HART_RV32(64, 8, 35, 1), 3},
    };
    for (unsigned i = 0; i < sizeof counts / sizeof *counts; i++) {
        tilvenka_pmp_unit unit = {.registers = {.configurations = {0x10, 0x18, 0x60, 0x08, 0x87}}};
        unit.registers.configurations[63] = 0x1f;
        unit.registers.entries = counts[i].hart;
        expect(tilvenka_pmp_entries_on(&unit) == counts[i].on, "entries on in a number", i);
        tilvenka_pmp_restore(&unit, &unit.registers);
        expect(tilvenka_pmp_entries_on(&unit) == counts[i].on, "entries on as they are stored", i);
    }
}

int main(void) {
    try_reads();
    try_decisions();
    try_statuses();
    try_plain_harts();
    try_numbers();
    try_macros();
    try_arguments();
    try_entries_on();
    printf("%u passed, %u failed\n", passed, failed);
    return failed != 0;
}
