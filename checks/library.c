// library: calls each function of the library on rows whose answers were worked out by hand from the manual, on numbers
// with each high bit, on the whole truth table of Smepmp, and on units of random bytes that lie beside pages which may
// not be touched. The last line is 'N passed, M failed'.
#define _GNU_SOURCE
#include "model.h"
#include <sys/mman.h>
#include <unistd.h>

enum { RANDOM_UNITS = 20000 };

static const uint32_t MODES[3] = {U, S, M};

static const struct decision {
    const char *writes;
    uint32_t mode, kind;
    uint64_t start, length;
    uint32_t answer;
} DECISIONS[] = {
    {"", M, LOAD, 0, 8, NONE},
    {"", U, LOAD, 0, 8, NONE + 5 * 1024},
    {"3b0=3 3a0=17", U, LOAD, 0x8, 8, SPLIT + 5 * 1024},
    {"3b0=3 3a0=17", M, LOAD, 0x8, 8, SPLIT + 5 * 1024},
    {"3b0=3 3a0=17", U, LOAD, 0xc, 4, 0},
    {"3b0=200001ff 3a0=19", U, LOAD, 0x80000ff8, 8, 0},
    {"3b0=200001ff 3a0=19", U, STORE, 0x80000ff8, 8, 7 * 1024},
    {"3b0=200001ff 3a0=19", U, FETCH, 0x80000ff8, 8, 1 * 1024},
    {"3b0=200001ff 3a0=19", M, STORE, 0x80000ff8, 8, 0},
    {"3b0=200001ff 3a0=19", U, LOAD, 0x80000ffc, 8, SPLIT + 5 * 1024},
    {"3b0=200001ff 3a0=19", M, LOAD, 0x80000ffc, 8, SPLIT + 5 * 1024},
    {"3b0=ffffffffffffffff 3a0=19", U, LOAD, 0xffffffffffffff, 1, 0},
    {"3b0=100 3b1=100 3a0=900", U, LOAD, 0x400, 4, NONE + 5 * 1024},
    {"747=5 3b0=200001ff 3a0=9f", U, LOAD, 0x80000000, 4, 0},
    {"747=5 3b0=200001ff 3a0=9f", M, STORE, 0x80000000, 4, 7 * 1024},
    {"747=5 3b0=200001ff 3a0=9f", M, FETCH, 0x80000000, 4, 1 * 1024},
    {"747=1", M, FETCH, 0, 4, NONE + 1 * 1024},
    {"747=1", M, LOAD, 0, 4, NONE},
    {"747=3", M, LOAD, 0, 4, NONE + 5 * 1024},
    {"3b0=10 3b1=11 3a0=1111", U, LOAD, 0x40, 8, SPLIT + 5 * 1024},
    {"3b0=20000004 3b1=200001ff 3a0=1910", U, LOAD, 0x80000010, 4, 5 * 1024},
    {"3b0=20000004 3b1=200001ff 3a0=1910", U, LOAD, 0x80000014, 4, 1},
    {"3b0=400 3b1=800 3a0=f00", U, LOAD, 0x1000, 8, 1},
    {"3b0=400 3b1=800 3a0=f00", U, LOAD, 0xff8, 8, NONE + 5 * 1024},
    {"3b0=400 3b1=800 3a0=f00", U, LOAD, 0xffc, 8, SPLIT + 1 + 5 * 1024},
    {"3b0=ffffffffffffffff 3a0=f", U, LOAD, 0, 4, 0},
    {"3b0=ffffffffffffffff 3a0=f", U, LOAD, 0xfffffffffffff8, 8, SPLIT + 5 * 1024},
    {"3b0=ffffffffffffffff 3a0=f", U, LOAD, 0xfffffffffffffc, 1, NONE + 5 * 1024},
    {"3b0=200001ff 3a0=99", M, STORE, 0x80000000, 4, 7 * 1024},
    {"3b0=200001ff 3a0=99", M, LOAD, 0x80000000, 4, 0},
    {"", U, LOAD, 0xffffffffffffff, 2, NO_ACCESS + 5 * 1024},
    {"", S, FETCH, 0xffffffffffffff, 2, NO_ACCESS + 1 * 1024},
    {"", M, STORE, 0x100000000000000, 1, NO_ACCESS + 7 * 1024},
    {"", U, LOAD, 0, 0, NO_ACCESS + 5 * 1024},
    {"", U, LOAD, 0, 4097, NO_ACCESS + 5 * 1024},
    {"", M, LOAD, UINT64_MAX, UINT64_MAX, NO_ACCESS + 5 * 1024},
    {"", M, LOAD, 0, 4096, NONE},
    {"", 2, LOAD, 0, 4, NO_ACCESS + 5 * 1024},
    {"", 4, LOAD, 0, 4, NO_ACCESS + 5 * 1024},
    {"", M, 3, 0, 4, NO_ACCESS + 5 * 1024},
    {"", UINT32_MAX, UINT32_MAX, 0, 4, NO_ACCESS + 5 * 1024},
};

static void try_decisions(void) {
    for (unsigned i = 0; i < sizeof DECISIONS / sizeof *DECISIONS; i++) {
        const struct decision *row = &DECISIONS[i];
        for (uint64_t entries = 16; entries <= 64; entries += 48) {
            tilvenka_pmp_unit unit;
            reset(&unit, entries);
            write_all(&unit, row->writes);
            uint32_t answer = decide(&unit, row->mode, row->kind, row->start, row->length);
            expect(answer == row->answer, "decision", i);
        }
    }
}

static const struct reading {
    const char *writes;
    uint32_t csr;
    uint64_t value;
} READINGS[] = {
    {"3b0=ffffffffffffffff 3a0=19", 0x3b0, 0x3fffffffffffff},
    {"3b0=10 3b1=20 3a0=8900 3b0=0", 0x3b0, 0x10},
    {"3b0=10 3b1=20 3a0=900 3b0=0", 0x3b0, 0},
    {"3a0=7f 3a0=60ff", 0x3a0, 0x9f},
    {"3a0=80 3a0=f0f", 0x3a0, 0xf80},
    {"3a2=8f00000000000019", 0x3a2, 0x8f00000000000019},
    {"3a2=8f00000000000019", 0x3a0, 0},
    {"3a0=1a", 0x3a0, 0x18},
    {"747=1 3a0=1a", 0x3a0, 0x1a},
    {"747=7 747=0", MSECCFG, 3},
    {"747=ffffffffffffffff 747=0 747=4", MSECCFG, 7},
    {"3a0=80 747=4", MSECCFG, 0},
    {"3a0=80 3b0=5", 0x3b0, 0},
    {"747=1 3a0=199c", 0x3a0, 0x1900},
    {"747=5 3a0=199c", 0x3a0, 0x199c},
    {"747=4 3a0=99 3a0=18", 0x3a0, 0x18},
    {"747=4 3a0=99 747=0 747=4", MSECCFG, 0},
    {"747=1 3a0=84", 0x3a0, 0},
    {"747=1 3a0=8c", 0x3a0, 0},
    {"747=1 3a0=8a", 0x3a0, 0},
    {"747=1 3a0=8e", 0x3a0, 0},
    {"747=1 3a0=8d", 0x3a0, 0},
    {"747=1 3a0=88", 0x3a0, 0x88},
    {"747=1 3a0=89", 0x3a0, 0x89},
    {"747=1 3a0=8b", 0x3a0, 0x8b},
    {"747=1 3a0=8f", 0x3a0, 0x8f},
    {"3a0=8c 747=1", 0x3a0, 0x8c},
};

static void try_readings(void) {
    for (unsigned i = 0; i < sizeof READINGS / sizeof *READINGS; i++) {
        tilvenka_pmp_unit unit = {0}; // zeroed memory is a unit after reset
        write_all(&unit, READINGS[i].writes);
        expect(read_csr(&unit, READINGS[i].csr) == READINGS[i].value, "reading", i);
    }
}

static void try_sizes(void) {
    for (uint64_t entries = 16; entries <= 64; entries += 48) {
        tilvenka_pmp_unit unit;
        bool is_large = entries == 64;
        reset(&unit, entries);
        write_all(&unit, "3bf=10 3c0=20 3a4=89 3bf=0");
        expect(read_csr(&unit, 0x3bf) == (is_large ? 0x10 : 0), "the last address", entries);
        expect(read_csr(&unit, 0x3a4) == (is_large ? 0x89 : 0), "the third word", entries);
        reset(&unit, entries);
        write_all(&unit, "3ef=3fffffffffffff 3ae=1900000000000000");
        uint32_t answer = decide(&unit, U, LOAD, 0xffffffffffffff, 1);
        expect(answer == (is_large ? 63 : NONE + 5 * 1024), "the last byte", entries);
    }
}

// Whether a number names the register that it should, or none. What is refused leaves the value, and what writes no new
// value or is refused leaves the unit and its map.
static bool is_named_right(tilvenka_pmp_unit *unit, uint32_t csr) {
    static tilvenka_pmp_unit before;
    uint32_t status = status_of(64, true, csr);
    uint64_t value = 77;
    bool is_right = tilvenka_pmp_read(unit, csr, &value) == status;
    is_right &= value == (status == TILVENKA_PMP_UNCHANGED ? 0 : 77);
    before = *unit;
    is_right &= tilvenka_pmp_write(unit, csr, 0) == status;
    return is_right && memcmp(unit, &before, sizeof before) == 0;
}

// Each number below 0x2000, and each register's with a bit more: one cut to sixteen bits would name a register there.
static void try_numbers(void) {
    static tilvenka_pmp_unit unit;
    tilvenka_pmp_build(&unit);
    for (uint32_t csr = 0; csr < 0x2000; csr++)
        expect(is_named_right(&unit, csr), "CSR number", csr);
    tilvenka_pmp_build(&unit);
    for (unsigned bit = 13; bit < 32; bit++)
        for (uint32_t csr = PMPCFG0; csr <= MSECCFG; csr++)
            expect(is_named_right(&unit, csr + (UINT32_C(1) << bit)), "CSR number with a bit more", csr);
}

// Numbers with high bits. A call that took fewer bits of one of them would answer as for the low bits alone.

// Only the page at 0 has an entry, by which user mode may load.
static tilvenka_pmp_unit page_at_zero(void) {
    tilvenka_pmp_unit unit;
    tilvenka_pmp_reset(&unit, 64);
    write_all(&unit, "3b0=1ff 3a0=19");
    return unit;
}

static uint32_t decide_by_page(uint32_t mode, uint32_t kind, uint64_t start, uint64_t length) {
    tilvenka_pmp_unit unit = page_at_zero();
    return decide(&unit, mode, kind, start, length);
}

// The rights without a map, where those by one are the same.
static uint32_t rights_by_page(uint32_t mode, uint64_t start, uint64_t length) {
    tilvenka_pmp_unit unit = page_at_zero();
    uint32_t rights = tilvenka_pmp_rights(&unit, mode, start, length);
    tilvenka_pmp_build(&unit);
    return tilvenka_pmp_rights(&unit, mode, start, length) == rights ? rights : UINT32_MAX;
}

// Whether it is told rightly that these numbers have a run, or none, with a map and without. Where they have none,
// nothing is written.
static bool is_told(uint32_t mode, uint64_t address, bool has_run) {
    tilvenka_pmp_unit unit = page_at_zero();
    bool is_right = true;
    for (unsigned built = 0; built < 2; built++) {
        uint64_t first = 77, last = 78;
        bool is_run = !tilvenka_pmp_is_no_access(tilvenka_pmp_run(&unit, mode, address, &first, &last));
        is_right &= is_run == has_run && (has_run ? first <= address && address <= last : first == 77 && last == 78);
        tilvenka_pmp_build(&unit);
    }
    return is_right;
}

static void try_wide_addresses(void) {
    expect(decide_by_page(U, LOAD, 0, 4) == 0 && rights_by_page(U, 0, 4096) == TILVENKA_PMP_READ, "the page at 0", 0);
    for (unsigned bit = 12; bit < 64; bit++) {
        uint64_t high = UINT64_C(1) << bit;
        bool is_address = bit < 56;
        expect(decide_by_page(U, LOAD, high, 4) == (is_address ? NONE + 5 * 1024 : NO_ACCESS + 5 * 1024), "start with bit", bit);
        expect(decide_by_page(U, LOAD, 0, high + 4) == NO_ACCESS + 5 * 1024, "length with bit", bit);
        expect(rights_by_page(U, high, 4096) == (is_address ? 0 : TILVENKA_PMP_NO_RANGE), "range at bit", bit);
        expect(rights_by_page(U, 0, high + 4096) == (is_address ? TILVENKA_PMP_MIXED : TILVENKA_PMP_NO_RANGE),
               "range of a length with bit", bit);
    }
}

static void try_wide_words(void) {
    static const uint32_t codes[3] = {1, 5, 7};
    for (unsigned bit = 2; bit < 32; bit++) {
        uint32_t high = UINT32_C(1) << bit;
        for (unsigned low = 0; low < 3; low++) {
            expect(decide_by_page(MODES[low] + high, low, 0, 4) == NO_ACCESS + codes[low] * 1024, "mode with bit", bit);
            expect(rights_by_page(MODES[low] + high, 0, 4096) == TILVENKA_PMP_NO_RANGE, "mode of a range, bit", bit);
            expect(decide_by_page(U, low + high, 0, 4) == NO_ACCESS + 5 * 1024, "kind with bit", bit);
            expect(is_told(MODES[low] + high, 0, false), "mode of a run, bit", bit);
        }
    }
    for (unsigned bit = 12; bit < 64; bit++)
        expect(is_told(U, UINT64_C(1) << bit, bit < 56), "address of a run, bit", bit);
}

// Whether the register reads this after a write of the value to a unit after reset.
static bool is_stored(uint32_t csr, uint64_t value, uint64_t stored) {
    tilvenka_pmp_unit unit = {0};
    uint32_t status = tilvenka_pmp_write(&unit, csr, value);
    return read_csr(&unit, csr) == stored && ((status & TILVENKA_PMP_CHANGED) != 0) == (stored != 0)
        && tilvenka_pmp_is_stored(status) == (stored == value);
}

// W without R, and bits 6 and 5 of a configuration byte, aren't stored.
static void try_wide_values(void) {
    for (unsigned bit = 0; bit < 64; bit++) {
        uint64_t value = UINT64_C(1) << bit;
        expect(is_stored(PMPADDR0, value, bit < 54 ? value : 0), "address of bit", bit);
        expect(is_stored(PMPCFG0, value, 0x9d >> bit % 8 & 1 ? value : 0), "configuration of bit", bit);
        expect(is_stored(MSECCFG, value, bit < 3 ? value : 0), "mseccfg of bit", bit);
    }
}

// How many entries the unit has: it has the register of the last one, or it hasn't.
static uint64_t entries_of(tilvenka_pmp_unit *unit) {
    tilvenka_pmp_registers saved;
    tilvenka_pmp_write(unit, PMPADDR0 + 63, 5);
    tilvenka_pmp_save(unit, &saved);
    return read_csr(unit, PMPADDR0 + 63) == (saved.entries == 64 ? 5 : 0) ? saved.entries : UINT64_MAX;
}

// A number that names no hart is refused, and the unit stays one of 64 entries.
static void try_wide_sizes(void) {
    tilvenka_pmp_unit unit;
    tilvenka_pmp_registers registers = {0};
    reset(&unit, 64);
    for (unsigned bit = 0; bit < 64; bit++) {
        registers.entries = 64 ^ UINT64_C(1) << bit;
        expect(tilvenka_pmp_reset(&unit, registers.entries) == TILVENKA_PMP_NO_HART && entries_of(&unit) == 64,
               "reset with bit", bit);
        expect(tilvenka_pmp_restore(&unit, &registers) == TILVENKA_PMP_NO_HART && entries_of(&unit) == 64,
               "snapshot of a size with bit", bit);
    }
    for (unsigned bit = 0; bit < 64; bit++) {
        unit.map.runs = UINT64_C(1) << bit;
        expect(tilvenka_pmp_is_built(&unit) && tilvenka_pmp_settle(&unit, 0), "map with bit", bit);
    }
    for (uint64_t entries = 16; entries <= 64; entries += 48) {
        registers.entries = entries;
        expect(tilvenka_pmp_restore(&unit, &registers) == TILVENKA_PMP_UNCHANGED && entries_of(&unit) == entries,
               "snapshot of a size", entries);
        expect(tilvenka_pmp_reset(&unit, 80 - entries) == TILVENKA_PMP_UNCHANGED && entries_of(&unit) == 80 - entries,
               "reset", entries);
    }
}

// Zeroed memory is a unit of 16, and so is one whose memory says a number that names no hart: it is saved as 16.
static void try_unnamed(void) {
    static const uint64_t numbers[] = {0, 8, 32, 65, UINT64_MAX, TILVENKA_PMP_HART(65, 4, 56, 1)};
    for (unsigned i = 0; i < sizeof numbers / sizeof *numbers; i++) {
        tilvenka_pmp_unit unit = {.registers = {.entries = numbers[i]}};
        expect(entries_of(&unit) == 16, "a number of no hart", i);
        expect(tilvenka_pmp_restore(&unit, &unit.registers) == TILVENKA_PMP_NO_HART, "it isn't restored", i);
        tilvenka_pmp_save(&unit, &unit.registers);
        expect(unit.registers.entries == 16 && tilvenka_pmp_restore(&unit, &unit.registers) == TILVENKA_PMP_UNCHANGED,
               "what is saved is restored", i);
    }
}

static void try_version(void) {
    expect(tilvenka_pmp_version() == TILVENKA_PMP_VERSION, "version", tilvenka_pmp_version());
    expect(TILVENKA_PMP_VERSION == 10000 * TILVENKA_PMP_VERSION_MAJOR + 100 * TILVENKA_PMP_VERSION_MINOR
               + TILVENKA_PMP_VERSION_PATCH, "parts of the version", TILVENKA_PMP_VERSION);
    expect(tilvenka_pmp_unit_size() == sizeof(tilvenka_pmp_unit), "size of a unit", tilvenka_pmp_unit_size());
    expect(tilvenka_pmp_is_compatible(), "a library for the header", 0);
}

static uint32_t set_of(const char *letters) {
    return (strchr(letters, 'r') ? TILVENKA_PMP_READ : 0) + (strchr(letters, 'w') ? TILVENKA_PMP_WRITE : 0)
        + (strchr(letters, 'x') ? TILVENKA_PMP_EXECUTE : 0);
}

static uint64_t byte_of(const char *bits) {
    return (strchr(bits, 'L') ? 128 : 0) + (strchr(bits, 'X') ? 4 : 0) + (strchr(bits, 'W') ? 2 : 0)
        + (strchr(bits, 'R') ? 1 : 0);
}

// Whether the mode has exactly these rights to the page at 0x80000000, by the rights of the page and by each decision.
static bool has(tilvenka_pmp_unit *unit, uint32_t mode, uint32_t rights) {
    static const uint32_t needed[3] = {TILVENKA_PMP_EXECUTE, TILVENKA_PMP_READ, TILVENKA_PMP_WRITE};
    static const uint32_t faults[3] = {1, 5, 7};
    bool is_right = tilvenka_pmp_rights(unit, mode, 0x80000000, 4096) == rights;
    for (uint32_t kind = 0; kind < 3; kind++) {
        uint32_t answer = decide(unit, mode, kind, 0x80000000, 4);
        is_right &= tilvenka_pmp_is_allowed(answer) == ((rights & needed[kind]) != 0);
        is_right &= tilvenka_pmp_fault(answer) == (rights & needed[kind] ? 0 : faults[kind]);
        is_right &= answer % TILVENKA_PMP_FAULT == 0;
    }
    return is_right && tilvenka_pmp_rights(unit, mode, 0x80000000, 4096) == rights;
}

static void try_truth_table(void) {
    for (unsigned row = 0; row < 16; row++) {
        uint64_t byte = byte_of(TRUTH[row].bits);
        bool is_locked = byte >= 128;
        for (unsigned lockdown = 0; lockdown < 2; lockdown++) {
            tilvenka_pmp_unit unit = {0};
            tilvenka_pmp_write(&unit, MSECCFG, lockdown ? 5 : 0);
            tilvenka_pmp_write(&unit, PMPADDR0, 0x200001ff);
            tilvenka_pmp_write(&unit, PMPCFG0, 0x18 | byte);
            uint32_t bits = (byte & 3) == 2 ? 0 : byte & 7; // W without R is stored as no right
            uint32_t machine = lockdown ? set_of(TRUTH[row].machine) : is_locked ? bits : 7;
            uint32_t others = lockdown ? set_of(TRUTH[row].others) : bits;
            bool is_right = has(&unit, M, machine) && has(&unit, S, others) && has(&unit, U, others);
            expect(is_right, lockdown ? "row of the truth table" : "row without lockdown", row);
        }
    }
}

static const struct {
    const char *writes;
    uint32_t mode;
    uint64_t start, length;
    uint32_t rights;
} RANGES[] = {
    {"", U, 0, UINT64_C(1) << 56, 0},
    {"", M, 0, UINT64_C(1) << 56, 7},
    {"747=1", M, 0, UINT64_C(1) << 56, 3},
    {"747=1", S, 0, UINT64_C(1) << 56, 0},
    {"747=2", M, 0, UINT64_C(1) << 56, 0},
    {"747=3", M, 0, UINT64_C(1) << 56, 0},
    {"747=3", U, 0, UINT64_C(1) << 56, 0},
    {"3b0=200001ff 3a0=19", U, 0x80000000, 4096, 1},
    {"3b0=200001ff 3a0=19", M, 0x80000000, 4096, 7},
    {"3b0=200001ff 3a0=19", U, 0x80000800, 4096, TILVENKA_PMP_MIXED},
    {"3b0=200001ff 3a0=19", U, 0x7ffff000, 4096, 0},
    {"3b0=200001ff 3a0=19", U, 0x7ffff000, 4097, TILVENKA_PMP_MIXED},
    {"3b0=10 3b1=11 3a0=1111", U, 0x40, 4, 1},
    {"3b0=10 3b1=11 3a0=1111", U, 0x40, 8, TILVENKA_PMP_MIXED},
    {"", M, 0, 0, TILVENKA_PMP_NO_RANGE},
    {"", M, 1, UINT64_C(1) << 56, TILVENKA_PMP_NO_RANGE},
    {"", M, UINT64_MAX, UINT64_MAX, TILVENKA_PMP_NO_RANGE},
    {"", 2, 0, 4096, TILVENKA_PMP_NO_RANGE},
};

static void try_ranges(void) {
    for (unsigned i = 0; i < sizeof RANGES / sizeof *RANGES; i++) {
        tilvenka_pmp_unit unit = {0};
        write_all(&unit, RANGES[i].writes);
        for (unsigned built = 0; built < 2; built++) {
            uint32_t rights = tilvenka_pmp_rights(&unit, RANGES[i].mode, RANGES[i].start, RANGES[i].length);
            expect(rights == RANGES[i].rights, "range", i);
            tilvenka_pmp_build(&unit);
        }
    }
}

static void try_snapshot(void) {
    tilvenka_pmp_unit unit = {0}, other;
    tilvenka_pmp_registers saved, again;
    write_all(&unit, "747=5 3b0=200001ff 3a0=199f 3b1=7");
    memset(&saved, 0xff, sizeof saved);
    memset(&other, 0xff, sizeof other);
    tilvenka_pmp_save(&unit, &saved);
    expect(tilvenka_pmp_restore(&other, &saved) == TILVENKA_PMP_UNCHANGED, "a snapshot is restored", 0);
    tilvenka_pmp_save(&other, &again);
    expect(memcmp(&saved, &again, sizeof saved) == 0 && !tilvenka_pmp_is_built(&other), "snapshot", 0);
    expect(saved.addresses[0] == 0x200001ff && saved.addresses[1] == 7 && saved.configurations[0] == 0x9f
               && saved.configurations[1] == 0x19 && saved.mseccfg == 5 && saved.entries == 16,
           "snapshot", 1);
}

// Each register has a value of its own, of all its bits.
static void try_full_snapshot(void) {
    tilvenka_pmp_unit unit;
    tilvenka_pmp_registers full, saved;
    memset(&full, 0, sizeof full);
    for (unsigned entry = 0; entry < TILVENKA_PMP_MAX_ENTRIES; entry++) {
        full.addresses[entry] = UINT64_C(0x3fffffffffffff) - entry * UINT64_C(0x10000000001);
        full.configurations[entry] = (uint8_t[]){0x9f, 0x1d, 0x8b, 0x11}[entry % 4];
    }
    full.mseccfg = 7;
    full.entries = 64;
    tilvenka_pmp_restore(&unit, &full);
    memset(&saved, 0xff, sizeof saved);
    tilvenka_pmp_save(&unit, &saved);
    expect(memcmp(&saved, &full, sizeof saved) == 0, "snapshot of all bits", 0);
    for (unsigned entry = 0; entry < TILVENKA_PMP_MAX_ENTRIES; entry++)
        expect(read_csr(&unit, PMPADDR0 + entry) == full.addresses[entry], "address of a snapshot", entry);
    for (unsigned word = 0; word < 16; word += 2)
        expect(read_csr(&unit, PMPCFG0 + word) == UINT64_C(0x118b1d9f118b1d9f), "configurations of a snapshot", word);
    expect(read_csr(&unit, MSECCFG) == 7, "mseccfg of a snapshot", 0);
}

// Units of random bytes, half of them of a hart that their number spells.

// A number that is often small, or near a power of two.
static uint64_t next_number(void) {
    uint64_t number = next_random() >> next_random() % 64;
    return next_random() % 2 ? number : (UINT64_C(1) << next_random() % 64) - number % 8;
}

static void fill(uint8_t *bytes, size_t length) {
    unsigned share = next_random() % 4;
    for (size_t i = 0; i < length; i++)
        bytes[i] = next_random() % 4 < share ? next_random() >> 32 : 0;
}

// Asks all that leaves the unit as it is, and whether it did.
static bool ask(const tilvenka_pmp_unit *unit) {
    static tilvenka_pmp_unit before;
    tilvenka_pmp_registers saved;
    uint64_t value;
    before = *unit;
    for (unsigned turn = 0; turn < 8; turn++) {
        uint32_t mode = next_random() % 5, kind = next_random() % 4;
        uint64_t start = next_number(), length = next_random() % 4 ? next_random() % 16 : next_number();
        tilvenka_pmp_decide(unit, mode, kind, start, length);
        tilvenka_pmp_decide_by_registers(unit, mode, kind, start, length);
        tilvenka_pmp_rights(unit, mode, start, length);
        tilvenka_pmp_run(unit, mode, start, &value, &length);
        tilvenka_pmp_read(unit, 0x3a0 + next_random() % 96, &value);
    }
    tilvenka_pmp_save(unit, &saved);
    tilvenka_pmp_is_built(unit);
    return memcmp(&before, unit, sizeof before) == 0;
}

// Whether rights and runs are the same without the unit's map, and a run goes as far as one entry has all bytes.
static bool asks_alike(const tilvenka_pmp_unit *unit, uint32_t mode, uint64_t start, uint64_t length) {
    static tilvenka_pmp_unit bare;
    uint64_t first = 1, last = 0, bare_first = 1, bare_last = 0;
    bare.registers = unit->registers;
    uint32_t answer = tilvenka_pmp_run(unit, mode, start, &first, &last);
    bool is_same = tilvenka_pmp_run(&bare, mode, start, &bare_first, &bare_last) == answer;
    is_same &= first == bare_first && last == bare_last;
    is_same &= tilvenka_pmp_rights(unit, mode, start, length) == tilvenka_pmp_rights(&bare, mode, start, length);
    if (tilvenka_pmp_is_no_access(answer))
        return is_same;
    is_same &= tilvenka_pmp_rights(&bare, mode, first, last - first + 1) == tilvenka_pmp_run_rights(answer);
    is_same &= first == 0 || tilvenka_pmp_rights(&bare, mode, first - 1, 2) == TILVENKA_PMP_MIXED;
    return is_same && (last >> 56 != 0 || last == (UINT64_C(1) << 56) - 1
                       || tilvenka_pmp_rights(&bare, mode, last, 2) == TILVENKA_PMP_MIXED);
}

// Whether random questions, most of which name an access, have the answers that each has alone. Those behind the last
// one, and all that is asked, stay.
static bool answers_all(const tilvenka_pmp_unit *unit) {
    tilvenka_pmp_question asked[16], told[16];
    size_t count = next_random() % 17;
    fill((uint8_t *)asked, sizeof asked);
    for (unsigned i = 0; i < 16; i += 1 + next_random() % 2) {
        asked[i].start = next_number() >> 8;
        asked[i].length = 1 + next_random() % 16;
        asked[i].mode = MODES[next_random() % 3];
        asked[i].kind = next_random() % 3;
    }
    memcpy(told, asked, sizeof told);
    tilvenka_pmp_decide_many(unit, told, count);
    for (size_t i = 0; i < count; i++)
        asked[i].answer = tilvenka_pmp_decide(unit, asked[i].mode, asked[i].kind, asked[i].start, asked[i].length);
    return memcmp(told, asked, sizeof told) == 0;
}

// Whether the unit decides alike by its registers and by the map that is built of them, whatever they were.
static bool agrees(tilvenka_pmp_unit *unit) {
    bool is_same = true;
    unit->map.runs = 0;
    tilvenka_pmp_build(unit);
    for (unsigned turn = 0; turn < 16; turn++) {
        uint32_t mode = MODES[next_random() % 3], kind = next_random() % 3;
        uint64_t address = unit->registers.addresses[next_random() % 64];
        uint64_t start = turn % 2 ? next_number() : address * 4 - next_random() % 8;
        uint64_t length = 1 + next_random() % 16;
        uint32_t answer = tilvenka_pmp_decide_by_registers(unit, mode, kind, start, length);
        is_same &= tilvenka_pmp_decide(unit, mode, kind, start, length) == answer;
        is_same &= asks_alike(unit, mode, start, length);
    }
    is_same &= answers_all(unit);
    return is_same;
}

// Whether the unit takes its own registers: a save puts their numbers right and leaves the map, and a restore takes
// them, as if they lay apart.
static bool takes_its_own(tilvenka_pmp_unit *unit, const tilvenka_pmp_registers *saved) {
    static tilvenka_pmp_unit before;
    before = *unit;
    tilvenka_pmp_save(unit, &unit->registers);
    bool is_right = memcmp(&unit->registers, saved, sizeof *saved) == 0;
    is_right &= memcmp(&unit->map, &before.map, sizeof before.map) == 0;
    is_right &= tilvenka_pmp_restore(unit, &unit->registers) == TILVENKA_PMP_UNCHANGED;
    is_right &= memcmp(&unit->registers, saved, sizeof *saved) == 0 && unit->map.runs == 0;
    *unit = before;
    if (!tilvenka_pmp_is_hart(unit->registers.entries))
        return is_right && tilvenka_pmp_restore(unit, &unit->registers) == TILVENKA_PMP_NO_HART
            && memcmp(unit, &before, sizeof before) == 0;
    is_right &= tilvenka_pmp_restore(unit, &unit->registers) == TILVENKA_PMP_UNCHANGED;
    return is_right && memcmp(&unit->registers, saved, sizeof *saved) == 0;
}

static bool try_random_unit(tilvenka_pmp_unit *unit) {
    static tilvenka_pmp_unit other;
    tilvenka_pmp_registers saved;
    fill((uint8_t *)unit, sizeof *unit);
    if (next_random() % 2)
        unit->registers.entries = spelled(32 << next_random() % 2, next_random() % 65, next_random() % 11,
                                          32 + next_random() % 25, next_random() % 2);
    bool is_right = ask(unit);
    uint32_t csr = next_random() % 16 ? 0x3a0 + next_random() % 80 : MSECCFG;
    uint64_t value = next_number();
    uint32_t status = tilvenka_pmp_write(unit, csr, value);
    is_right &= !(status & TILVENKA_PMP_CHANGED) || !tilvenka_pmp_is_built(unit);
    is_right &= !tilvenka_pmp_is_done(status) || tilvenka_pmp_is_stored(status) == (read_csr(unit, csr) == value);
    is_right &= ask(unit) && agrees(unit) && ask(unit);
    tilvenka_pmp_save(unit, &saved);
    is_right &= tilvenka_pmp_restore(&other, &saved) == TILVENKA_PMP_UNCHANGED;
    is_right &= memcmp(&other.registers, &saved, sizeof saved) == 0 && other.map.runs == 0;
    return is_right && takes_its_own(unit, &saved);
}

// The unit ends right before a page that may not be touched, or begins right after one.
static void try_random_units(void) {
    size_t page = sysconf(_SC_PAGESIZE), room = (sizeof(tilvenka_pmp_unit) + page - 1) / page * page;
    uint8_t *memory = mmap(NULL, room + 2 * page, PROT_NONE, MAP_PRIVATE | MAP_ANONYMOUS, -1, 0);
    if (memory == MAP_FAILED || mprotect(memory + page, room, PROT_READ | PROT_WRITE) != 0)
        abort();
    for (unsigned i = 0; i < RANDOM_UNITS; i++) {
        uint8_t *first = i % 2 ? memory + page : memory + page + room - sizeof(tilvenka_pmp_unit);
        expect(try_random_unit((tilvenka_pmp_unit *)first), "random unit", i);
    }
}

int main(void) {
    try_decisions();
    try_readings();
    try_sizes();
    try_numbers();
    try_wide_addresses();
    try_wide_words();
    try_wide_values();
    try_wide_sizes();
    try_unnamed();
    try_version();
    try_truth_table();
    try_ranges();
    try_snapshot();
    try_full_snapshot();
    try_random_units();
    printf("%u passed, %u failed\n", passed, failed);
    return failed != 0;
}
