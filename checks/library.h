// What the programs of checks/library share: units, asked in each way that the library has.
#include "tilvenka_pmp.h"
#include <stdio.h>
#include <stdlib.h>

enum { U = TILVENKA_PMP_USER, S = TILVENKA_PMP_SUPERVISOR, M = TILVENKA_PMP_MACHINE };
enum { FETCH = TILVENKA_PMP_FETCH, LOAD = TILVENKA_PMP_LOAD, STORE = TILVENKA_PMP_STORE };
enum { SPLIT = TILVENKA_PMP_SPLIT, NONE = TILVENKA_PMP_NO_MATCH, NO_ACCESS = TILVENKA_PMP_NO_ACCESS };
enum { PMPCFG0 = TILVENKA_PMP_PMPCFG0, PMPADDR0 = TILVENKA_PMP_PMPADDR0 };
enum { MSECCFG = TILVENKA_PMP_MSECCFG, MSECCFGH = TILVENKA_PMP_MSECCFGH };

static unsigned passed, failed;

static inline void expect(bool is_right, const char *what, unsigned place) {
    if (is_right) {
        passed++;
    } else {
        failed++;
        fprintf(stderr, "FAILED: %s, number %u\n", what, place);
    }
}

// The answer of each way to decide, where they all agree, and else one that no access has.
static inline uint32_t decide(tilvenka_pmp_unit *unit, uint32_t mode, uint32_t kind, uint64_t start, uint64_t length) {
    uint32_t answer = tilvenka_pmp_decide_by_registers(unit, mode, kind, start, length);
    bool is_same = true;
    for (unsigned built = 0; built < 2; built++) {
        is_same &= tilvenka_pmp_decide(unit, mode, kind, start, length) == answer;
        tilvenka_pmp_build(unit);
        is_same &= tilvenka_pmp_is_built(unit);
    }
    return is_same ? answer : UINT32_MAX;
}

// The next write of some that are given as 'CSR=VALUE' in hexadecimal digits, if there is one.
static inline bool next_write(const char **writes, unsigned *csr, unsigned long long *value) {
    int length;
    if (**writes == 0)
        return false;
    if (sscanf(*writes, " %x=%llx%n", csr, value, &length) != 2)
        abort();
    *writes += length;
    return true;
}

static inline void write_all(tilvenka_pmp_unit *unit, const char *writes) {
    unsigned csr;
    unsigned long long value;
    while (next_write(&writes, &csr, &value))
        if (!tilvenka_pmp_is_done(tilvenka_pmp_write(unit, csr, value)))
            abort();
}

static inline uint64_t read_csr(const tilvenka_pmp_unit *unit, uint32_t csr) {
    uint64_t value = UINT64_MAX;
    return tilvenka_pmp_read(unit, csr, &value) == TILVENKA_PMP_UNCHANGED ? value : UINT64_MAX;
}

// What a call answers to the number of a register of the hart, and to one of none.
static inline uint32_t status_of(unsigned xlen, bool has_smepmp, uint32_t csr) {
    if (csr >= PMPCFG0 && csr < PMPADDR0)
        return xlen == 64 && csr % 2 == 1 ? TILVENKA_PMP_ODD_CONFIGURATION : TILVENKA_PMP_UNCHANGED;
    bool is_mseccfg = csr == MSECCFG || (csr == MSECCFGH && xlen == 32);
    bool is_there = (csr >= PMPADDR0 && csr < PMPADDR0 + 64) || (is_mseccfg && has_smepmp);
    return is_there ? TILVENKA_PMP_UNCHANGED : TILVENKA_PMP_NO_REGISTER;
}

// The number of a hart by its parts, also of one that isn't there.
static inline uint64_t spelled(unsigned xlen, uint64_t entries, uint64_t g, uint64_t bits, uint64_t smepmp) {
    return entries + (bits << 8) + (smepmp << 16) + (xlen == 32 ? UINT64_C(1) << 17 : 0) + (g << 24)
        + (UINT64_C(1) << 32);
}

// A unit after reset of a hart that is there.
static inline void reset(tilvenka_pmp_unit *unit, uint64_t hart) {
    if (tilvenka_pmp_reset(unit, hart) != TILVENKA_PMP_UNCHANGED)
        abort();
}

// A number from anywhere in the range, the same for each run.
static inline uint64_t next_random(void) {
    static uint64_t state = UINT64_C(0x9e3779b97f4a7c15);
    state ^= state >> 12;
    state ^= state << 25;
    state ^= state >> 27;
    return state * UINT64_C(0x2545f4914f6cdd1d);
}
