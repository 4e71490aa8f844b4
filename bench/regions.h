/* The regions that accesses go to, and random numbers, the same ones in each run. */
#ifndef REGIONS_H
#define REGIONS_H
#include <stdint.h>

static inline uint64_t region(uint64_t index) {
    return UINT64_C(0x80000000) + index * 0x10000;
}

static inline uint64_t napot_of_page(uint64_t base) {
    return base >> 2 | 0x1ff;
}

static inline uint64_t next_random(void) {
    static uint64_t state = UINT64_C(0x9e3779b97f4a7c15);
    state ^= state >> 12;
    state ^= state << 25;
    state ^= state >> 27;
    return state * UINT64_C(0x2545f4914f6cdd1d) >> 16;
}

static inline uint64_t below(uint64_t limit) {
    return next_random() % limit;
}

#endif
