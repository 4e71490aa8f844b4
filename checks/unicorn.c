// The rows of examples/against/README.md on what Unicorn does: each must be one that the library answers as the manual
// does, and Unicorn otherwise.
#include "library.h"

void peer_reset(void);
void peer_write(uint32_t csr, uint64_t value);
uint32_t peer_decide(tilvenka_pmp_mode mode, tilvenka_pmp_kind kind, uint64_t start, uint64_t length);

static const struct {
    const char *writes;
    tilvenka_pmp_kind kind;
    uint64_t start, length;
    uint32_t fault, its;
} ROWS[] = {
    {"3b0=0 3a0=f", TILVENKA_PMP_STORE, 0x80004000, 8, 7, 0},
    {"3b0=20000000 3b1=20000400 3a0=f00 3b0=20000200", TILVENKA_PMP_LOAD, 0x80000000, 8, 5, 0},
    {"3b0=200001ff 3a0=1a", TILVENKA_PMP_STORE, 0x80000000, 8, 7, 0},
    {"3b0=ffc00000200001ff 3a0=1f", TILVENKA_PMP_LOAD, 0x80000000, 8, 0, 5},
    {"3b0=20000001 3b1=ffffffffffffffff 3a0=1f10", TILVENKA_PMP_LOAD, 0x80000004, 4, 5, 0},
    {"3b0=20000001 3b1=20000002 3b2=ffffffffffffffff 3a0=1f0800", TILVENKA_PMP_LOAD, 0x80000002, 8, 5, 0},
};

int main(void) {
    for (unsigned row = 0; row < sizeof ROWS / sizeof *ROWS; row++) {
        static tilvenka_pmp_unit unit;
        tilvenka_pmp_reset(&unit, 16);
        peer_reset();
        const char *writes = ROWS[row].writes;
        unsigned csr;
        unsigned long long value;
        while (next_write(&writes, &csr, &value)) {
            tilvenka_pmp_write(&unit, csr, value);
            peer_write(csr, value);
        }
        uint32_t answer = decide(&unit, U, ROWS[row].kind, ROWS[row].start, ROWS[row].length);
        expect(tilvenka_pmp_fault(answer) == ROWS[row].fault, "the library's fault", row);
        uint32_t its = peer_decide(TILVENKA_PMP_USER, ROWS[row].kind, ROWS[row].start, ROWS[row].length);
        expect(its == ROWS[row].its, "Unicorn's fault", row);
    }
    printf("%u passed, %u failed\n", passed, failed);
    return failed > 0;
}
