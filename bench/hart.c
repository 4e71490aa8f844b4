#include "hart.h"
#include <string.h>

enum { MTVEC = 0x305, MSTATUS = 0x300, MSCRATCH = 0x340, MEPC = 0x341, MCAUSE = 0x342, MTVAL = 0x343 };
enum { ILLEGAL_INSTRUCTION = 2, CALL_FROM_USER = 8 };
enum { MRET = 0x30200073, ECALL = 0x73, EBREAK = 0x100073 };

static const uint8_t faults[3] = {[FETCH] = 1, [LOAD] = 5, [STORE] = 7};
static const uint8_t needed[3] = {[FETCH] = EXECUTABLE, [LOAD] = READABLE, [STORE] = WRITABLE};

/* The TLB. */

static const struct span NOTHING = {UINT64_MAX, 0};

static uint64_t page_of(uint64_t address) {
    return address & ~(uint64_t)(PAGE - 1);
}

/* Whether they have a byte in common. */
static bool is_common(struct span one, struct span other) {
    return one.first <= other.last && other.first <= one.last;
}

static void include(struct span *span, uint64_t first, uint64_t last) {
    span->first = first < span->first ? first : span->first;
    span->last = last > span->last ? last : span->last;
}

/* Generations are the numbers below a page's, but 0, so that mostly nothing has to be cleared. */
static void forget_all(struct hart *hart) {
    for (unsigned mode = 0; mode < MODES; mode++) {
        struct tlb *tlb = &hart->tlbs[mode];
        tlb->bounds = tlb->moved = NOTHING;
        for (unsigned i = 0; i < PARTS; i++)
            tlb->parts[i].span = NOTHING;
        if (hart->generation == PAGE - 1)
            memset(tlb->pages, 0, sizeof tlb->pages);
    }
    hart->generation = hart->generation % (PAGE - 1) + 1;
}

static void forget_moved(struct tlb *tlb, uint64_t generation) {
    struct span moved = {page_of(tlb->moved.first), tlb->moved.last};
    tlb->moved = NOTHING;
    if (!is_common(moved, tlb->bounds))
        return;
    tlb->bounds = NOTHING;
    for (unsigned i = 0; i < PARTS; i++) {
        struct span *span = &tlb->parts[i].span;
        if (is_common(moved, *span))
            *span = NOTHING;
        include(&tlb->bounds, span->first, span->last);
    }
    for (unsigned i = 0; i < TLB_SIZE; i++) {
        uint64_t page = tlb->pages[i].tag - generation;
        if (page - moved.first <= moved.last - moved.first)
            tlb->pages[i].tag = 0;
        else if (page % PAGE == 0)
            include(&tlb->bounds, page, page);
    }
}

/* Other modes are asked for nothing until the hart goes there. */
static void forget(struct hart *hart, struct span moved) {
    if (moved.first == 0 && moved.last == LAST_BYTE) {
        forget_all(hart);
        return;
    }
    for (unsigned mode = 0; mode < MODES; mode++)
        include(&hart->tlbs[mode].moved, moved.first, moved.last);
    forget_moved(&hart->tlbs[hart->mode], hart->generation);
}

static void go_to(struct hart *hart, unsigned mode) {
    hart->mode = mode;
    if (hart->tlbs[mode].moved.last != 0)
        forget_moved(&hart->tlbs[mode], hart->generation);
}

static bool is_decided(struct hart *hart, unsigned kind, uint64_t address, uint64_t length) {
    struct request request = {address, length, hart->mode, kind};
    uint16_t answer;
    hart->decisions++;
    hart->peer->decide(&request, 1, &answer, FREE);
    return (hart->peer->number_of ? hart->peer->number_of(answer) : answer) >= ALLOWED;
}

static bool has(const struct part *part, uint64_t address, uint64_t length) {
    return address >= part->span.first && address + length - 1 <= part->span.last;
}

/* The part that the access is in, or NULL where it is in none. */
static const struct part *part_of(struct hart *hart, uint64_t address, uint64_t length) {
    struct tlb *tlb = &hart->tlbs[hart->mode];
    for (unsigned i = 0; i < PARTS; i++)
        if (has(&tlb->parts[i], address, length))
            return &tlb->parts[i];
    struct part *part = &tlb->parts[tlb->next_part++ % PARTS];
    hart->runs++;
    part->rights = hart->peer->run(hart->mode, address, &part->span.first, &part->span.last);
    include(&tlb->bounds, part->span.first, part->span.last);
    return has(part, address, length) ? part : NULL;
}

/* An access that the rights of a page don't decide. */
static bool is_allowed(struct hart *hart, unsigned kind, uint64_t address, uint64_t length) {
    const struct part *part = hart->peer->run ? part_of(hart, address, length) : NULL;
    return part ? (part->rights & needed[kind]) != 0 : is_decided(hart, kind, address, length);
}

/* Rights that are mixed are kept too. */
static __attribute__((noinline)) bool asks(struct hart *hart, struct translation *kept, unsigned kind, uint64_t address,
                                           uint64_t length) {
    uint64_t page = page_of(address);
    if (length > page + PAGE - address)
        return is_allowed(hart, kind, address, length);
    if (kept->tag != page + hart->generation) {
        struct request request = {page, PAGE, hart->mode, kind};
        uint16_t rights;
        hart->fills++;
        hart->peer->fill(&request, 1, &rights, FREE);
        *kept = (struct translation){page + hart->generation, rights};
        include(&hart->tlbs[hart->mode].bounds, page, page);
    }
    return kept->rights == MIXED ? is_allowed(hart, kind, address, length) : (kept->rights & needed[kind]) != 0;
}

static inline bool may(struct hart *hart, unsigned kind, uint64_t address, uint64_t length) {
    struct translation *kept = &hart->tlbs[hart->mode].pages[address / PAGE % TLB_SIZE];
    if (kept->tag == page_of(address) + hart->generation && kept->rights & needed[kind]
        && address % PAGE + length <= PAGE)
        return true;
    return asks(hart, kept, kind, address, length);
}

/* Traps and CSRs. */

static void trap(struct hart *hart, uint64_t cause, uint64_t value) {
    hart->mepc = hart->pc;
    hart->mcause = cause;
    hart->mtval = value;
    hart->mpp = hart->mode;
    hart->pc = hart->mtvec;
    go_to(hart, MACHINE);
}

static uint64_t *csr_of(struct hart *hart, unsigned number) {
    switch (number) {
    case MTVEC: return &hart->mtvec;
    case MSCRATCH: return &hart->mscratch;
    case MEPC: return &hart->mepc;
    case MCAUSE: return &hart->mcause;
    case MTVAL: return &hart->mtval;
    default: return NULL;
    }
}

static bool is_of_unit(unsigned number) {
    return (number >= PMPCFG0 && number < PMPADDR0 + 64) || number == MSECCFG;
}

/* Of mstatus there is MPP. */
static bool read_csr(struct hart *hart, unsigned number, uint64_t *value) {
    struct write which = {number, 0};
    if (is_of_unit(number))
        hart->peer->read(&which, 1, value);
    else if (number == MSTATUS)
        *value = hart->mpp << 11;
    else if (csr_of(hart, number))
        *value = *csr_of(hart, number);
    else
        return false;
    return true;
}

static void write_csr(struct hart *hart, unsigned number, uint64_t value) {
    struct span moved;
    if (!is_of_unit(number)) {
        if (number == MSTATUS)
            hart->mpp = value >> 11 & 3;
        else if (csr_of(hart, number))
            *csr_of(hart, number) = value;
    } else if (hart->peer->moves((struct write){number, value}, &moved.first, &moved.last)) {
        forget(hart, moved);
    }
}

/* The instructions. */

static int64_t signed_bits(uint64_t value, unsigned bits) {
    return (int64_t)(value << (64 - bits)) >> (64 - bits);
}

static uint64_t compute(unsigned function, bool is_other, uint64_t a, uint64_t b) {
    switch (function) {
    case 0: return is_other ? a - b : a + b;
    case 1: return a << (b & 63);
    case 2: return (int64_t)a < (int64_t)b;
    case 3: return a < b;
    case 4: return a ^ b;
    case 5: return is_other ? (uint64_t)((int64_t)a >> (b & 63)) : a >> (b & 63);
    case 6: return a | b;
    default: return a & b;
    }
}

static uint64_t compute_word(unsigned function, bool is_other, uint32_t a, uint32_t b) {
    uint32_t word = function == 1 ? a << (b & 31) : function == 0 ? is_other ? a - b : a + b
        : is_other ? (uint32_t)((int32_t)a >> (b & 31)) : a >> (b & 31);
    return (int32_t)word;
}

static bool is_taken(unsigned function, uint64_t a, uint64_t b) {
    bool is = function < 4 ? a == b : function < 6 ? (int64_t)a < (int64_t)b : a < b;
    return is != (function & 1);
}

static uint64_t branch_offset(uint32_t code) {
    uint32_t high = (code >> 31 & 1) << 12 | (code >> 7 & 1) << 11;
    return signed_bits(high | (code >> 25 & 63) << 5 | (code >> 8 & 15) << 1, 13);
}

static uint64_t jump_offset(uint32_t code) {
    uint32_t high = (code >> 31 & 1) << 20 | (code & 0xff000);
    return signed_bits(high | (code >> 20 & 1) << 11 | (code >> 21 & 1023) << 1, 21);
}

/* All memory that the guests have rights to is there. */
static uint8_t *memory_of(struct hart *hart, uint64_t address) {
    return hart->ram + (address - RAM_START) % RAM_SIZE;
}

static bool load(struct hart *hart, uint32_t code, uint64_t *value) {
    unsigned function = code >> 12 & 7, length = 1 << (function & 3);
    uint64_t address = hart->x[code >> 15 & 31] + signed_bits(code >> 20, 12);
    if (!may(hart, LOAD, address, length)) {
        trap(hart, faults[LOAD], address);
        return false;
    }
    *value = 0;
    memcpy(value, memory_of(hart, address), length);
    if (function < 4)
        *value = signed_bits(*value, 8 * length);
    return true;
}

static bool store(struct hart *hart, uint32_t code) {
    unsigned length = 1 << (code >> 12 & 3);
    uint64_t address = hart->x[code >> 15 & 31] + signed_bits(code >> 25 << 5 | (code >> 7 & 31), 12);
    if (!may(hart, STORE, address, length)) {
        trap(hart, faults[STORE], address);
        return false;
    }
    memcpy(memory_of(hart, address), &hart->x[code >> 20 & 31], length);
    return true;
}

/* Whether it goes on behind the instruction. */
static bool run_system(struct hart *hart, uint32_t code, uint64_t *value) {
    unsigned function = code >> 12 & 7, source = code >> 15 & 31;
    uint64_t operand = function & 4 ? source : hart->x[source], old = 0;
    if (code == ECALL) {
        trap(hart, CALL_FROM_USER + hart->mode, 0);
    } else if (hart->mode == MACHINE && code == MRET) {
        hart->pc = hart->mepc;
        go_to(hart, hart->mpp);
        hart->mpp = USER;
    } else if (hart->mode == MACHINE && code == EBREAK) {
        hart->is_stopped = true;
    } else if (hart->mode != MACHINE || function % 4 == 0
               || ((function % 4 != 1 || code >> 7 & 31) && !read_csr(hart, code >> 20, &old))) {
        trap(hart, ILLEGAL_INSTRUCTION, code);
    } else {
        uint64_t next = function % 4 == 1 ? operand : function % 4 == 2 ? old | operand : old & ~operand;
        *value = old;
        if (function % 4 == 1 || source != 0)
            write_csr(hart, code >> 20, next);
        return true;
    }
    return false;
}

static void step(struct hart *hart) {
    if (!may(hart, FETCH, hart->pc, 4)) {
        trap(hart, faults[FETCH], hart->pc);
        return;
    }
    uint32_t code;
    memcpy(&code, memory_of(hart, hart->pc), 4);
    unsigned function = code >> 12 & 7;
    uint64_t a = hart->x[code >> 15 & 31], b = hart->x[code >> 20 & 31], next = hart->pc + 4, value = 0;
    uint64_t immediate = signed_bits(code >> 20, 12);
    bool has_value = true, is_other = code >> 30 & 1, goes_on = true;
    switch (code & 127) {
    case 0x37: value = signed_bits(code & ~4095u, 32); break;
    case 0x17: value = hart->pc + signed_bits(code & ~4095u, 32); break;
    case 0x6f: value = next; next = hart->pc + jump_offset(code); break;
    case 0x67: value = next; next = (a + immediate) & ~UINT64_C(1); break;
    case 0x63: has_value = false; next = is_taken(function, a, b) ? hart->pc + branch_offset(code) : next; break;
    case 0x03: goes_on = load(hart, code, &value); break;
    case 0x23: has_value = false; goes_on = store(hart, code); break;
    case 0x13: value = compute(function, is_other && function == 5, a, immediate); break;
    case 0x33: value = compute(function, is_other, a, b); break;
    case 0x1b: value = compute_word(function, is_other && function == 5, a, immediate); break;
    case 0x3b: value = compute_word(function, is_other, a, b); break;
    case 0x0f: has_value = false; break;
    case 0x73: goes_on = run_system(hart, code, &value); break;
    default: trap(hart, ILLEGAL_INSTRUCTION, code); return;
    }
    if (!goes_on)
        return;
    hart->pc = next;
    if (has_value && (code >> 7 & 31))
        hart->x[code >> 7 & 31] = value;
}

void reset_hart(struct hart *hart, const struct peer *peer, uint8_t *ram) {
    memset(hart, 0, sizeof *hart);
    hart->peer = peer;
    hart->ram = ram;
    hart->pc = RAM_START;
    hart->mode = MACHINE;
    forget_all(hart);
}

void run_hart(struct hart *hart) {
    while (!hart->is_stopped)
        step(hart);
}
