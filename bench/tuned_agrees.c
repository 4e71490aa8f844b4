/* Compares the unit that is tuned by hand with the library, on random harts of every kind: what each write says and
   moves, what registers read, decisions, rights and runs. Stops at a difference. */
#include "regions.h"
#include "tilvenka_pmp.h"
#include "tuned.h"
#include <stdio.h>
#include <stdlib.h>

enum { HARTS = 4000, STEPS = 60, QUESTIONS = 40 };

static struct tuned tuned;
static tilvenka_pmp_unit unit;

static void same(const char *what, unsigned long long of_tuned, unsigned long long of_library) {
    if (of_tuned == of_library)
        return;
    fprintf(stderr, "%s: the tuned unit has %llx, the library %llx, hart %llx\n", what, of_tuned, of_library,
            (unsigned long long)unit.registers.entries);
    exit(1);
}

static uint64_t any_hart(void) {
    static const unsigned grains[4] = {4, 8, 64, 4096};
    uint64_t kind = below(6), entries = below(4) ? below(65) : 16, grain = grains[below(4)];
    if (kind == 0)
        return 16;
    if (kind == 1)
        return 64;
    return kind < 4 ? TILVENKA_PMP_HART(entries, grain, 34 + below(23), below(4))
                    : TILVENKA_PMP_HART_RV32(entries, grain, 32 + below(3), below(4));
}

static uint64_t any_bits(void) {
    return next_random() ^ next_random() << 40;
}

/* Mostly near each other, so that ranges overlap. */
static uint64_t any_address(void) {
    uint64_t bits = any_bits();
    if (below(8) == 0)
        return bits;
    return below(64) << below(14) | ((UINT64_C(1) << below(12)) - 1) * below(2);
}

static void write_any(void) {
    uint64_t entries = tilvenka_pmp_count(&unit.registers), kind = below(20), value = any_address();
    unsigned csr = PMPADDR0 + below(entries + 2 < 64 ? entries + 2 : 64);
    if (kind == 0) {
        csr = MSECCFG;
        value = below(9) ? below(8) : any_bits();
    } else if (kind < 8) {
        csr = PMPCFG0 + below(entries / 4 + 3 < 16 ? entries / 4 + 3 : 16);
        value = any_bits() & (below(3) ? UINT64_C(0x1f1f1f1f1f1f1f1f) : UINT64_MAX);
        value &= below(8) ? ~UINT64_C(0x8080808080808080) : UINT64_MAX;
    }
    bool is_rv32 = tilvenka_pmp_xlen(&unit.registers) == 32;
    if (is_rv32 && below(16))
        value &= UINT32_MAX;
    uint64_t first[2] = {1, 1}, last[2] = {2, 2};
    uint32_t status = tilvenka_pmp_write_moved(&unit, csr, value, &first[1], &last[1]);
    if (!tilvenka_pmp_is_done(status))
        return;
    same("a write", tuned_write(&tuned, csr, value, &first[0], &last[0]), status);
    same("what moved first", first[0], first[1]);
    same("what moved last", last[0], last[1]);
}

static void compare_registers(void) {
    for (unsigned csr = PMPCFG0; csr <= MSECCFG; csr = csr == PMPADDR0 + 63 ? MSECCFG : csr + 1) {
        uint64_t value;
        if (tilvenka_pmp_read(&unit, csr, &value) == TILVENKA_PMP_UNCHANGED)
            same("a register", tuned_read(&tuned, csr), value);
    }
}

static unsigned number_of(unsigned answer) {
    return answer % TILVENKA_PMP_FAULT + (tilvenka_pmp_is_allowed(answer) ? ALLOWED : 0);
}

static void compare_questions(void) {
    static const tilvenka_pmp_mode modes[3] = {TILVENKA_PMP_USER, TILVENKA_PMP_SUPERVISOR, TILVENKA_PMP_MACHINE};
    for (unsigned i = 0; i < QUESTIONS; i++) {
        uint64_t start = (any_address() << 2 | below(4)) & (LAST_BYTE >> 1), length = 1 + below(below(2) ? 16 : 4096);
        tilvenka_pmp_mode mode = modes[below(3)];
        tilvenka_pmp_kind kind = (tilvenka_pmp_kind)below(3);
        uint64_t first[2], last[2];
        same("a decision", tuned_decide(&tuned, mode, kind, start, length),
             number_of(tilvenka_pmp_decide(&unit, mode, kind, start, length)));
        same("rights", tuned_rights(&tuned, mode, start, length), tilvenka_pmp_rights(&unit, mode, start, length));
        same("a run", tuned_run(&tuned, mode, start, &first[0], &last[0]),
             tilvenka_pmp_run(&unit, mode, start, &first[1], &last[1]));
        same("a run's first byte", first[0], first[1]);
        same("a run's last byte", last[0], last[1]);
    }
}

void compare_tuned(void) {
    for (unsigned hart = 0; hart < HARTS; hart++) {
        uint64_t number = any_hart();
        tuned_reset(&tuned, number);
        same("a reset", 0, tilvenka_pmp_reset(&unit, number));
        for (unsigned step = 0; step < STEPS; step++)
            write_any();
        compare_registers();
        compare_questions();
        tilvenka_pmp_build(&unit);
        compare_questions();
    }
    fprintf(stderr, "%d writes, their registers, and %d decisions, rights and runs of %d random harts agree\n",
            HARTS * STEPS, 2 * HARTS * QUESTIONS, HARTS);
}
