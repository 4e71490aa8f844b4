// Calls of the library that look at every byte of a unit or write it, to be linked in its place with examples/threads, so
// that a sanitizer of threads, which doesn't see into the library, sees what they touch. Of registers they keep pmpcfg0,
// by which entries 0 and 1 are the two pages of the example.
#include "tilvenka_pmp.h"

static void touch(tilvenka_pmp_unit *unit) {
    for (volatile unsigned char *byte = (unsigned char *)unit; byte < (unsigned char *)(unit + 1); byte++)
        *byte = *byte;
}

uint32_t tilvenka_pmp_write(tilvenka_pmp_unit *unit, uint32_t csr, uint64_t value) {
    touch(unit);
    if (csr == TILVENKA_PMP_PMPCFG0)
        unit->registers.mseccfg = value;
    return TILVENKA_PMP_CHANGED;
}

void tilvenka_pmp_build(tilvenka_pmp_unit *unit) {
    touch(unit);
}

uint32_t tilvenka_pmp_decide(const tilvenka_pmp_unit *unit, tilvenka_pmp_mode mode, tilvenka_pmp_kind kind,
                             uint64_t start, uint64_t length) {
    unsigned sum = 0;
    for (const volatile unsigned char *byte = (const unsigned char *)unit; byte < (const unsigned char *)(unit + 1); byte++)
        sum += *byte;
    (void)sum, (void)mode, (void)kind, (void)length;
    bool is_open = (unit->registers.mseccfg >> (start == 0x80000000 ? 0 : 8) & 1) != 0;
    return is_open ? 0 : 5 * TILVENKA_PMP_FAULT;
}
