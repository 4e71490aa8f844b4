// answers: what a write says of itself, the runs of bytes, the parts of an answer and the list of the CSRs, on rows that
// were worked out by hand from the manual. The last line is 'N passed, M failed'.
#include "library.h"
#include <string.h>

static const struct {
    const char *writes;
    uint32_t mode;
    uint64_t address, first, last;
    uint32_t entry, rights;
} RUNS[] = {
    {"", U, 5, 0, 0xffffffffffffff, NONE, 0},
    {"", M, 0xffffffffffffff, 0, 0xffffffffffffff, NONE, 7},
    {"747=1", M, 0, 0, 0xffffffffffffff, NONE, 3},
    {"3b0=200001ff 3a0=1d", U, 0x80000123, 0x80000000, 0x80000fff, 0, 5},
    {"3b0=200001ff 3a0=1d", U, 0x7fffffff, 0, 0x7fffffff, NONE, 0},
    {"3b0=200001ff 3a0=1d", M, 0x80001000, 0x80001000, 0xffffffffffffff, NONE, 7},
    {"3b0=20000004 3b1=200001ff 3a0=1910", U, 0x80000000, 0x80000000, 0x8000000f, 1, 1},
    {"3b0=20000004 3b1=200001ff 3a0=1910", U, 0x80000012, 0x80000010, 0x80000013, 0, 0},
    {"3b0=20000004 3b1=200001ff 3a0=1910", U, 0x80000fff, 0x80000014, 0x80000fff, 1, 1},
    {"3b0=10 3b1=11 3a0=1111", U, 0x42, 0x40, 0x43, 0, 1},
    {"3b0=ffffffffffffffff 3a0=f", S, 0, 0, 0xfffffffffffffb, 0, 7},
    {"3b0=ffffffffffffffff 3a0=f", S, 0xfffffffffffffc, 0xfffffffffffffc, 0xffffffffffffff, NONE, 0},
};

static void try_runs(void) {
    for (unsigned i = 0; i < sizeof RUNS / sizeof *RUNS; i++) {
        for (uint64_t entries = 16; entries <= 64; entries += 48) {
            tilvenka_pmp_unit unit;
            reset(&unit, entries);
            write_all(&unit, RUNS[i].writes);
            for (unsigned built = 0; built < 2; built++) {
                uint64_t first, last;
                uint32_t answer = tilvenka_pmp_run(&unit, RUNS[i].mode, RUNS[i].address, &first, &last);
                expect(first == RUNS[i].first && last == RUNS[i].last && answer % 1024 == RUNS[i].entry
                           && tilvenka_pmp_run_rights(answer) == RUNS[i].rights, "run", i);
                tilvenka_pmp_build(&unit);
            }
        }
    }
}

static const struct {
    const char *writes;
    uint32_t csr;
    uint64_t value;
    uint32_t status;
} WRITES[] = {
    {"", 0x3b0, 5, TILVENKA_PMP_CHANGED},
    {"3b0=5", 0x3b0, 5, TILVENKA_PMP_UNCHANGED},
    {"3b0=5", 0x3b0, 0xffc0000000000005, TILVENKA_PMP_BITS},
    {"", 0x3b0, 0x40000000000005, TILVENKA_PMP_CHANGED + TILVENKA_PMP_BITS},
    {"", 0x3c0, 5, TILVENKA_PMP_ABSENT},
    {"", 0x3c0, 0x40000000000000, TILVENKA_PMP_ABSENT + TILVENKA_PMP_BITS},
    {"3a0=80", 0x3b0, 5, TILVENKA_PMP_FROZEN},
    {"3a0=80", 0x3b0, 0, TILVENKA_PMP_UNCHANGED},
    {"3b0=5 3a0=8900", 0x3b0, 6, TILVENKA_PMP_LOW_END},
    {"3b0=5 3a0=8900", 0x3b0, 5, TILVENKA_PMP_UNCHANGED},
    {"3b0=5 3a0=900", 0x3b0, 6, TILVENKA_PMP_CHANGED},
    {"747=4 3b0=5 3a0=8900", 0x3b0, 6, TILVENKA_PMP_CHANGED},
    {"3a0=1d", 0x3a0, 0x7d, TILVENKA_PMP_BITS},
    {"3a0=98", 0x3a0, 0x18, TILVENKA_PMP_FROZEN},
    {"3a0=98", 0x3a0, 0x1898, TILVENKA_PMP_CHANGED},
    {"3a0=98", 0x3a0, 0x1899, TILVENKA_PMP_CHANGED + TILVENKA_PMP_FROZEN},
    {"", 0x3a0, 2, TILVENKA_PMP_RESERVED},
    {"747=1", 0x3a0, 2, TILVENKA_PMP_CHANGED},
    {"747=1", 0x3a0, 0x9c, TILVENKA_PMP_LOCKDOWN},
    {"747=5", 0x3a0, 0x9c, TILVENKA_PMP_CHANGED},
    {"", 0x3a4, 0x19, TILVENKA_PMP_ABSENT},
    {"747=3", MSECCFG, 0, TILVENKA_PMP_STICKY},
    {"747=3", MSECCFG, 7, TILVENKA_PMP_CHANGED},
    {"747=1", MSECCFG, 2, TILVENKA_PMP_CHANGED + TILVENKA_PMP_STICKY},
    {"3a0=80", MSECCFG, 4, TILVENKA_PMP_BYPASS},
    {"", MSECCFG, 0xfffffffffffffff8, TILVENKA_PMP_BITS},
};

// What a write says of itself: a map that is built stays where no register is another than before.
static void try_writes(void) {
    for (unsigned i = 0; i < sizeof WRITES / sizeof *WRITES; i++) {
        tilvenka_pmp_unit unit = {0};
        write_all(&unit, WRITES[i].writes);
        tilvenka_pmp_build(&unit);
        uint32_t status = tilvenka_pmp_write(&unit, WRITES[i].csr, WRITES[i].value);
        expect(status == WRITES[i].status && tilvenka_pmp_is_done(status), "write", i);
        expect(tilvenka_pmp_is_built(&unit) == !(status & TILVENKA_PMP_CHANGED), "map after a write", i);
        expect(tilvenka_pmp_is_stored(status) == (read_csr(&unit, WRITES[i].csr) == WRITES[i].value), "stored", i);
    }
}

// What a call came to: done but for three statuses.
static void try_statuses(void) {
    for (uint32_t status = 0; status < 2048; status++)
        expect(tilvenka_pmp_is_done(status)
                   == (status != TILVENKA_PMP_ODD_CONFIGURATION && status != TILVENKA_PMP_NO_REGISTER
                       && status != TILVENKA_PMP_NO_HART), "done", status);
    expect(!tilvenka_pmp_is_stored(TILVENKA_PMP_ODD_CONFIGURATION) && !tilvenka_pmp_is_stored(TILVENKA_PMP_NO_REGISTER)
               && tilvenka_pmp_is_stored(TILVENKA_PMP_CHANGED + TILVENKA_PMP_MOVED)
               && !tilvenka_pmp_is_stored(TILVENKA_PMP_CHANGED + TILVENKA_PMP_ABSENT), "stored", 0);
}

static void try_parts(void) {
    expect(tilvenka_pmp_entry(63) == 63 && tilvenka_pmp_entry(5 * 1024 + SPLIT + 9) == 9, "entry of an answer", 0);
    expect(tilvenka_pmp_entry(NONE) >= 64 && tilvenka_pmp_entry(NO_ACCESS + 1024) >= 64, "no entry of an answer", 0);
    expect(tilvenka_pmp_is_partial(5 * 1024 + SPLIT) && !tilvenka_pmp_is_partial(7 * 1024 + NONE)
               && !tilvenka_pmp_is_partial(63) && !tilvenka_pmp_is_partial(1024 + NO_ACCESS), "a part", 0);
    expect(tilvenka_pmp_is_unmatched(NONE) && tilvenka_pmp_is_unmatched(7 * 1024 + NONE)
               && !tilvenka_pmp_is_unmatched(SPLIT + 1024) && !tilvenka_pmp_is_unmatched(1024 + NO_ACCESS), "none", 0);
    expect(tilvenka_pmp_is_no_access(1024 + NO_ACCESS) && !tilvenka_pmp_is_no_access(7 * 1024 + NONE), "no access", 0);
}

// As many as aren't off, in a unit that has them.
static void try_entries_on(void) {
    tilvenka_pmp_unit unit = {0};
    write_all(&unit, "3a0=1f0000100008 3a2=9800000000000000");
    expect(tilvenka_pmp_entries_on(&unit) == 4, "entries on", 16);
    reset(&unit, 64);
    write_all(&unit, "3a0=7 3ae=800000000000000");
    expect(tilvenka_pmp_entries_on(&unit) == 1, "entries on", 64);
}

// Each register of RV64 has one name, and RV32 has names for its own beside them. No other number has one.
static void try_csrs(void) {
    static const struct {
        uint32_t number;
        const char *name;
    } csrs[] = {
#define ROW(number, name) {number, name},
        TILVENKA_PMP_CSRS(ROW)
        TILVENKA_PMP_CSRS_RV32(ROW)
    };
    static const unsigned rv64 = 0
#define ONE(number, name) + 1
        TILVENKA_PMP_CSRS(ONE);
    static unsigned named[0x800];
    for (unsigned i = 0; i < sizeof csrs / sizeof *csrs; i++) {
        uint32_t number = csrs[i].number;
        char name[16];
        if (number >= MSECCFG)
            strcpy(name, number == MSECCFG ? "mseccfg" : "mseccfgh");
        else
            snprintf(name, sizeof name, number < PMPADDR0 ? "pmpcfg%u" : "pmpaddr%u",
                     number - (number < PMPADDR0 ? PMPCFG0 : PMPADDR0));
        expect(strcmp(csrs[i].name, name) == 0, "name of a CSR", number);
        expect((i < rv64) == (status_of(64, true, number) == TILVENKA_PMP_UNCHANGED), "CSR of RV64", number);
        named[number]++;
    }
    for (uint32_t number = 0; number < 0x800; number++)
        expect(named[number] == (status_of(32, true, number) == TILVENKA_PMP_UNCHANGED), "one name for a CSR", number);
}

// CSRRS and CSRRC: what the register read before, and the status of the write.
static void try_bits(void) {
    tilvenka_pmp_unit unit = {0};
    uint64_t old = 7;
    write_all(&unit, "3a0=1f18");
    expect(tilvenka_pmp_set_bits(&unit, 0x3a0, 0x80, &old) == TILVENKA_PMP_CHANGED && old == 0x1f18, "bits set", 0);
    expect(read_csr(&unit, 0x3a0) == 0x1f98, "bits set", 1);
    expect(tilvenka_pmp_clear_bits(&unit, 0x3a0, 0x1f, &old) == TILVENKA_PMP_FROZEN && old == 0x1f98, "bits cleared", 0);
    expect(tilvenka_pmp_clear_bits(&unit, 0x3a0, 0x1f00, &old) == TILVENKA_PMP_CHANGED, "bits cleared", 1);
    expect(read_csr(&unit, 0x3a0) == 0x98, "bits cleared", 2);
    expect(tilvenka_pmp_set_bits(&unit, 0x3a1, 1, &old) == TILVENKA_PMP_ODD_CONFIGURATION && old == 0x1f98, "no bits", 0);
}

// Of a page that entry 0 lets be read, and which isn't locked for M-mode; of a half of it and what follows.
static void try_modes(void) {
    tilvenka_pmp_unit unit = {0};
    uint32_t rights[4] = {0};
    write_all(&unit, "3b0=200001ff 3a0=19");
    tilvenka_pmp_rights_of_modes(&unit, 0x80000000, 4096, rights);
    expect(rights[TILVENKA_PMP_USER] == 1 && rights[TILVENKA_PMP_SUPERVISOR] == 1 && rights[2] == TILVENKA_PMP_NO_RANGE
               && rights[TILVENKA_PMP_MACHINE] == 7, "rights of all modes", 0);
    tilvenka_pmp_rights_of_modes(&unit, 0x80000800, 4096, rights);
    expect(rights[0] == TILVENKA_PMP_MIXED && rights[1] == TILVENKA_PMP_MIXED && rights[3] == TILVENKA_PMP_MIXED,
           "rights of all modes", 1);
}

// The bytes of a snapshot are those of the layout, and give the registers back, or leave the unit.
static void try_snapshots(void) {
    static const uint8_t head[16] = {'T', 'P', 'M', 'P', 1, 0, 0, 0, 0xef, 0xcd, 0xab, 0, 0, 0, 0, 0};
    tilvenka_pmp_unit unit = {0}, other = {0};
    uint8_t bytes[TILVENKA_PMP_SNAPSHOT_SIZE + 1];
    reset(&unit, 64);
    write_all(&unit, "747=4 3b0=abcdef 3ef=3fffffffffffff 3ae=9f00000000000000");
    tilvenka_pmp_save_bytes(&unit, bytes);
    expect(memcmp(bytes, head, sizeof head) == 0 && bytes[8 + 8 * 63 + 6] == 0x3f && bytes[520 + 63] == 0x9f
               && bytes[584] == 4 && bytes[592] == 64, "bytes of a snapshot", 0);
    expect(tilvenka_pmp_restore_bytes(&other, bytes, TILVENKA_PMP_SNAPSHOT_SIZE), "a snapshot", 0);
    expect(memcmp(&unit.registers, &other.registers, sizeof unit.registers) == 0, "a snapshot", 1);
    expect(!tilvenka_pmp_restore_bytes(&other, bytes, TILVENKA_PMP_SNAPSHOT_SIZE - 1)
               && !tilvenka_pmp_restore_bytes(&other, bytes, TILVENKA_PMP_SNAPSHOT_SIZE + 1), "size of a snapshot", 0);
    for (unsigned at = 0; at < 8; at++) {
        bytes[at] ^= 1;
        expect(!tilvenka_pmp_restore_bytes(&other, bytes, TILVENKA_PMP_SNAPSHOT_SIZE), "head of a snapshot", at);
        bytes[at] ^= 1;
    }
    bytes[592] = 65;
    expect(!tilvenka_pmp_restore_bytes(&other, bytes, TILVENKA_PMP_SNAPSHOT_SIZE)
               && memcmp(&unit.registers, &other.registers, sizeof unit.registers) == 0, "hart of a snapshot", 0);
}

static const struct {
    uint32_t answer;
    const char *text;
} TEXTS[] = {
    {0, "allowed: entry 0"},
    {63, "allowed: entry 63"},
    {NONE, "allowed: no entry matches"},
    {1024 + 7, "instruction access fault: entry 7"},
    {5 * 1024 + SPLIT + 10, "load access fault: entry 10 matches some of the bytes"},
    {7 * 1024 + NONE, "store/AMO access fault: no entry matches"},
    {5 * 1024 + NO_ACCESS, "load access fault: no access"},
};

static void try_texts(void) {
    static const char *const reasons[9] = {"absent", "bits", "frozen", "tor", "reserved", "lockdown", "sticky", "bypass",
                                           "grain"};
    char text[TILVENKA_PMP_TEXT_SIZE];
    for (unsigned i = 0; i < sizeof TEXTS / sizeof *TEXTS; i++)
        expect(strcmp(tilvenka_pmp_answer_text(TEXTS[i].answer, text), TEXTS[i].text) == 0, "text of an answer", i);
    for (unsigned i = 0; i < 9; i++)
        expect(strcmp(tilvenka_pmp_reason_name(TILVENKA_PMP_ABSENT << i), reasons[i]) == 0, "name of a reason", i);
    expect(!tilvenka_pmp_reason_name(0) && !tilvenka_pmp_reason_name(TILVENKA_PMP_ABSENT | TILVENKA_PMP_BITS)
               && !tilvenka_pmp_fault_name(0) && !tilvenka_pmp_fault_name(6), "no name", 0);
    for (uint32_t number = 0; number < 0x800; number++)
        expect((tilvenka_pmp_csr_name(number) != NULL) == (status_of(32, true, number) == TILVENKA_PMP_UNCHANGED),
               "a name for a CSR", number);
    expect(strcmp(tilvenka_pmp_csr_name(0x3ba), "pmpaddr10") == 0, "name of a CSR", 0x3ba);
}

int main(void) {
    try_runs();
    try_writes();
    try_statuses();
    try_parts();
    try_entries_on();
    try_csrs();
    try_bits();
    try_snapshots();
    try_modes();
    try_texts();
    printf("%u passed, %u failed\n", passed, failed);
    return failed != 0;
}
