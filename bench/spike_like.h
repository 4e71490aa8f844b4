/* A unit with Smepmp in plain C as Spike's is: it keeps the registers as they are read, and decodes entries at each
   check. Its rules are those of docs/RULES.md, for addresses of 56 bits and a grain of four bytes. */
#ifndef SPIKE_LIKE_H
#define SPIKE_LIKE_H
#include "peer.h"

enum { MAX_ENTRIES = 64 };

struct spike_like {
    uint64_t address[MAX_ENTRIES];
    uint8_t configuration[MAX_ENTRIES];
    uint8_t mseccfg;
    unsigned entries; /* 16 or 64 */
};

void spike_like_reset(struct spike_like *unit, unsigned entries);

/* A number that is no register's is ignored, and reads as zero. */
void spike_like_write(struct spike_like *unit, unsigned number, uint64_t value);
uint64_t spike_like_read(const struct spike_like *unit, unsigned number);

/* A decision, and the rights in a range, as peer.h numbers them. */
unsigned spike_like_decide(const struct spike_like *unit, unsigned mode, unsigned kind, uint64_t start,
                           uint64_t length);
unsigned spike_like_rights(const struct spike_like *unit, unsigned mode, uint64_t start, uint64_t length);

#endif
