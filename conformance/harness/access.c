/* Makes the accesses of the cases, and tells how each ends. */
#include "harness.h"

enum { UNJUDGED, ALLOW, FAULT, EITHER };
enum { FETCH, LOAD, STORE };
enum { PLAIN, UNSIGNED, RESERVED_LOAD, CONDITIONAL, LAST_ATOMIC = 12, FALLING, FLOAT, VECTOR, BLOCK, HYPERVISOR, WALK,
    CLEAN, FLUSH, UPDATE, INVALIDATE, EXECUTABLE, GUEST, BY_MPRV, MASKED };
/* Indices of operations, as start.S has them. */
enum { FLW = 11, FLD, VLE = 15, CBO_ZERO = 17, CBO_CLEAN, CBO_FLUSH, CBO_INVAL, HLV, HLVX = 25, ATOMICS = 27 };

/* A leaf with V, R, W, X, A and D, one without the last two, and one of a guest's second stage, which has U. */
#define LEAF 0xcf
#define FRESH_LEAF 0x0f
#define GUEST_LEAF 0xdf
/* The memory's gigabyte in a leaf. */
#define GIGABYTE (BOARD_MEMORY >> 30 << 28)
#define SV39 (UINT64_C(8) << 60)
#define SPVP 0x100
/* PMM of mseccfg by which seven bits are masked, and what these are. */
#define PMM_SEVEN (UINT64_C(2) << 32)
#define TAG (UINT64_C(0x55) << 57)

uint64_t read_mtval(void) {
    uintptr_t value;
    __asm__ volatile("csrr %0, mtval" : "=r"(value));
    return value;
}

uint64_t read_mepc(void) {
    uintptr_t value;
    __asm__ volatile("csrr %0, mepc" : "=r"(value));
    return value;
}

static unsigned operation_of(unsigned kind, unsigned by, unsigned length) {
    unsigned power = length == 8 ? 3 : length / 2, is_store = kind - LOAD;
    switch (by) {
    case PLAIN:
    case WALK:
    case UPDATE:
    case BY_MPRV:
    case MASKED: return 4 * is_store + power;
    case UNSIGNED: return 8 + power;
    case FLOAT: return FLW + 2 * is_store + (power == 3);
    case VECTOR: return VLE + is_store;
    case BLOCK: return CBO_ZERO;
    case CLEAN: return CBO_CLEAN;
    case FLUSH: return CBO_FLUSH;
    case INVALIDATE: return CBO_INVAL;
    case HYPERVISOR:
    case GUEST: return HLV + 2 * is_store + (power == 3);
    case EXECUTABLE: return HLVX + (power == 2);
    default: return ATOMICS + by - RESERVED_LOAD + (power == 3 ? LAST_ATOMIC - RESERVED_LOAD + 1 : 0);
    }
}

static struct outcome operate(unsigned operation, uint64_t start) {
    uintptr_t target = (uintptr_t)machine_operations + OPERATION_SIZE * operation;
    return attempt(target, start, 0, (uintptr_t)MACHINE << 11, 0);
}

/* What lies in the arena, from an even or an odd byte on, so that a store changes nothing. */
static uint64_t pattern_at(uint64_t start) {
    return start & 1 ? COMPRESSED_EBREAKS >> 8 | COMPRESSED_EBREAKS << 56 : COMPRESSED_EBREAKS;
}

static void judge(unsigned expected, int is_allowed, int is_fault) {
    if (expected == ALLOW)
        failed += !is_allowed;
    if (expected == FAULT)
        failed += !is_fault;
    if (expected == EITHER)
        failed += !is_allowed && !is_fault;
}

void put_answer(int is_allowed, uint64_t cause, uint64_t address, int is_here) {
    put('a');
    if (is_allowed) {
        put(' ');
        put('o');
        put('k');
    } else {
        put_number(cause);
        put_number(address);
        put_number(is_here);
    }
    put('\n');
}

static void tell(uint64_t word, uint64_t start, uint64_t cause, uint64_t target, int is_allowed) {
    static const uint8_t faults[3] = {1, 5, 7};
    uint64_t address = read_mtval(), is_here = read_mepc() == target, length = word >> 40 & 0xff;
    unsigned kind = word >> 8 & 15;
    if ((word >> 32 & 0xff) == MASKED)
        address &= ~TAG;
    /* A misaligned access may raise an exception of its own. */
    if ((start & (length - 1)) == 0 || cause != (kind == LOAD ? 4 : 6))
        judge(word >> 24 & 3, is_allowed,
              cause == faults[kind] && is_here && (address == 0 || address - start < length));
    put_answer(is_allowed, cause, address, is_here);
}

/* Whether cbo.zero cleared 64 bytes; they are filled again. */
static int is_block_of_64(uint64_t start) {
    volatile uint32_t *block = (volatile uint32_t *)(uintptr_t)start;
    int is_cleared = block[-1] != 0 && block[16] != 0;
    for (unsigned it = 0; it < 16; it++)
        is_cleared &= block[it] == 0;
    fill(start - 256, start + 256);
    return is_cleared;
}

/* Whether the last vector had 64 elements, of vl. */
static int is_vector_of_64(void) {
    uintptr_t length;
    __asm__ volatile("csrr %0, 0xc20" : "=r"(length));
    return length == 64;
}

/* The leaf by which S-mode reaches this board's memory. */
static void set_leaf(uint64_t bits) {
    ((volatile uint64_t *)TABLE)[BOARD_MEMORY >> 30] = GIGABYTE | bits;
    in_machine_mode(fence_addresses, 0, 0);
}

/* The page tables map the memory's gigabyte to itself. */
void begin_tables(void) {
    for (unsigned entry = 0; entry < 512; entry++)
        ((volatile uint64_t *)TABLE)[entry] = 0;
    for (unsigned entry = 0; entry < 2048; entry++)
        ((volatile uint64_t *)GUEST_TABLE)[entry] = 0;
    ((volatile uint64_t *)GUEST_TABLE)[BOARD_MEMORY >> 30] = GIGABYTE | GUEST_LEAF;
    set_leaf(LEAF);
}

/* Sets a register that the hart may not have, and says whether it has the value. */
static int set_register(const char *place, const char *read, uint64_t value) {
    if (XLEN != 64 || in_machine_mode(place, 0, (uintptr_t)value).cause != ECALL + MACHINE)
        return 0;
    in_machine_mode(fence_addresses, 0, 0);
    return in_machine_mode(read, 0, 0).value == value;
}

/* Lets S-mode's loads and stores of guests go by no table, or by tables of two stages. */
static int set_guest(unsigned mode, int is_by_tables) {
    if (in_machine_mode(set_hstatus, 0, mode == 1 ? SPVP : 0).cause != ECALL + MACHINE)
        return 0;
    if (!is_by_tables)
        return 1;
    return set_register(set_vsatp, read_vsatp, SV39 | TABLE >> 12)
        && set_register(set_hgatp, read_hgatp, SV39 | GUEST_TABLE >> 12)
        && in_machine_mode(fence_guests, 0, 0).cause == ECALL + MACHINE;
}

/* What an access needs beside its instruction: whether the hart has it. */
static int set_up(unsigned by, unsigned mode, uint64_t start) {
    switch (by) {
    case HYPERVISOR:
    case EXECUTABLE: return set_guest(mode, 0);
    case GUEST: return set_guest(mode, 1);
    case UPDATE: set_leaf(FRESH_LEAF); /* fall through */
    case WALK: return set_register(set_satp, read_satp, SV39 | TABLE >> 12);
    /* What memory has is what a lost block has. Where this is refused, so is what is tried. */
    case INVALIDATE: return operate(CBO_FLUSH, start).cause != ILLEGAL;
    case MASKED: return change_security(PMM_SEVEN, 1);
    default: return 1;
    }
}

static void clear_up(unsigned by) {
    switch (by) {
    case WALK:
    case UPDATE: set_register(set_satp, read_satp, 0); set_leaf(LEAF); break;
    case GUEST: set_guest(0, 0); in_machine_mode(fence_guests, 0, 0); break;
    case MASKED: change_security(PMM_SEVEN, 0); break;
    }
}

/* What a store of an extension stores is loaded from the arena, so that it changes nothing. */
void load_extensions(void) {
    operate(FLW, ARENA);
    operate(FLD, ARENA);
    operate(VLE, ARENA);
}

static void fetch(uint64_t word, uint64_t start) {
    unsigned mode = word >> 12 & 3, by = word >> 32 & 0xff;
    uint64_t status = (uint64_t)mode << 11;
    struct outcome outcome = attempt(start - (by == FALLING ? 2 : 0), 0, 0, status, mode != MACHINE);
    tell(word, start, outcome.cause, start, outcome.cause == BREAKPOINT && read_mepc() == start);
}

void perform(uint64_t word, uint64_t start) {
    unsigned kind = word >> 8 & 15, mode = word >> 12 & 3, is_stub = word >> 16 & 1, length = word >> 40 & 0xff;
    unsigned by = word >> 32 & 0xff;
    uint64_t status = (uint64_t)mode << 11;
    if (kind == FETCH) {
        fetch(word, start);
        return;
    }
    uint64_t target = (uint64_t)(uintptr_t)(is_stub ? stub_operations : machine_operations);
    target += OPERATION_SIZE * operation_of(kind, by, length);
    if ((!is_stub && mode != MACHINE) || by == BY_MPRV)
        status |= MPRV;
    if (!set_up(by, mode, start)) {
        clear_up(by);
        put_answer(0, ILLEGAL, 0, 1);
        return;
    }
    struct outcome outcome = attempt(target, by == MASKED ? start | TAG : start, pattern_at(start), status, is_stub);
    target += by == CONDITIONAL ? 4 : by == VECTOR ? 8 : 0;
    int is_allowed = outcome.cause == ECALL + (is_stub ? mode : MACHINE) && read_mepc() == target + 4;
    if (is_allowed && ((by == BLOCK && !is_block_of_64(start)) || (by == VECTOR && !is_vector_of_64())))
        outcome.cause = ILLEGAL, is_allowed = 0;
    tell(word, start, outcome.cause, target, is_allowed);
    clear_up(by);
}
