// The model as the peer of examples/against/compare.c.
#include "model.h"

void peer_reset(void);
void peer_write(uint32_t csr, uint64_t value);
uint32_t peer_decide(tilvenka_pmp_mode mode, tilvenka_pmp_kind kind, uint64_t start, uint64_t length);

static struct model model;

void peer_reset(void) {
    model = (struct model){.xlen = 64, .entries = 16, .bits = 56, .has_smepmp = true};
}

void peer_write(uint32_t csr, uint64_t value) {
    model_write(&model, csr, value);
}

uint32_t peer_decide(tilvenka_pmp_mode mode, tilvenka_pmp_kind kind, uint64_t start, uint64_t length) {
    return tilvenka_pmp_fault(model_decide(&model, mode, kind, start, length));
}
