/* A PMP unit tuned by hand, with every feature of the library: RV32, the grain, narrow addresses, what a write moved and
   why it isn't stored, runs. It keeps each entry's range decoded, and takes registers only through its own calls. */
#ifndef TUNED_H
#define TUNED_H
#include "peer.h"

struct tuned {
    /* The bytes of each entry, from low up to, but not including, high, and a bit for each that has any. */
    uint64_t low[64], high[64], matching;
    uint64_t address[64];
    uint8_t configuration[64];
    unsigned entries, grain, mseccfg;
    /* The number of word addresses. */
    uint64_t words;
    bool has_smepmp, is_rv32;
};

/* The hart by its number, as the library names it. */
void tuned_reset(struct tuned *unit, uint64_t hart);
/* The status that the library returns, and what moved, if TILVENKA_PMP_MOVED is set. */
uint32_t tuned_write(struct tuned *unit, unsigned csr, uint64_t value, uint64_t *first, uint64_t *last);
uint64_t tuned_read(const struct tuned *unit, unsigned csr);
/* As the peers' numbers in peer.h. */
unsigned tuned_decide(const struct tuned *unit, unsigned mode, unsigned kind, uint64_t start, uint64_t length);
unsigned tuned_rights(const struct tuned *unit, unsigned mode, uint64_t start, uint64_t length);
/* The entry, or NO_MATCH, and 1024 times the rights. */
unsigned tuned_run(const struct tuned *unit, unsigned mode, uint64_t byte, uint64_t *first, uint64_t *last);
#endif
