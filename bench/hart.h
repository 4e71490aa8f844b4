/* An RV64I hart with M, S and U, Zicsr and a small TLB, whose PMP unit is a peer's. All traps go to machine mode. */
#ifndef HART_H
#define HART_H
#include "peer.h"

#define RAM_START UINT64_C(0x80000000)
enum { RAM_SIZE = 16 << 20, PAGE = 4096, TLB_SIZE = 64, PARTS = 4, MODES = 4 };

/* The rights of a page, which are those of peer.h. The tag is the page's address and the TLB's generation. */
struct translation {
    uint64_t tag;
    uint64_t rights;
};

/* From the first byte to the last; none where the last is below the first. */
struct span {
    uint64_t first;
    uint64_t last;
};

/* Memory with the same rights, which may be less than a page, or more. */
struct part {
    struct span span;
    uint64_t rights;
};

/* What the hart holds of a mode, pages and parts, all between these bounds. It forgets what moved before it goes to the
   mode. */
struct tlb {
    struct translation pages[TLB_SIZE];
    struct span bounds;
    struct span moved;
    struct part parts[PARTS];
    unsigned next_part;
};

struct hart {
    const struct peer *peer;
    uint64_t x[32];
    uint64_t pc;
    unsigned mode;
    uint64_t mtvec, mscratch, mepc, mcause, mtval, mpp;
    bool is_stopped;
    uint64_t generation;
    struct tlb tlbs[MODES];
    /* How often the unit was asked: for a page, for a part, for an access. */
    uint64_t fills, runs, decisions;
    uint8_t *ram;
};

/* A hart in machine mode at the start of its memory. The unit stays as it is. */
void reset_hart(struct hart *hart, const struct peer *peer, uint8_t *ram);

/* Until an ebreak. */
void run_hart(struct hart *hart);

#endif
