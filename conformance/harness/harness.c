/* Performs the cases that are put into `cases`, and tells what the hart does. The words are those of suite/blob.py, and
   the lines that are told are those that suite/answers.py reads. */
#include "harness.h"

enum { END, CASE, WRITE, LOOK, EXPECT, ACCESS, RESET, SPOT, HART, ATTEMPT, NAME };
enum { MSECCFG = 0x747, MSECCFGH = 0x757, PMPCFG0 = 0x3a0, PMPADDR0 = 0x3b0 };
/* How many of suite/blob.py's ways of access are known here. */
#define WAYS 27

#define MARK 0x7069636b65642075
#define KEPT ((volatile struct kept *)(BOARD_MEMORY + KEPT_PLACE))
#define EBREAK 0x00100073
#define COMPRESSED_NOP 1
#define SPOTS 64
/* In the first word of the cases: nothing is told, and a reset has to follow. */
#define RESETS 2

uint64_t failed;
static uint64_t is_quiet, count;
/* The case: its number, its name where it has one, and what was wrong before it. */
static uint64_t number, failed_before, first_failed;
static const char *name;
static unsigned name_length, is_case;
/* Where the arena has something else than what it was filled with. */
static uint64_t spots[SPOTS];
static unsigned spot_count;
static uint64_t shown[CSR_COUNT], wanted[CSR_COUNT], mask[CSR_COUNT];
static uint64_t is_first_look;

void put(char letter) {
    if (!is_quiet)
        board_put(letter);
}

void put_number(uint64_t number) {
    char digits[16];
    unsigned count = 0;
    do {
        digits[count++] = "0123456789abcdef"[number & 15];
        number >>= 4;
    } while (number != 0);
    put(' ');
    while (count > 0)
        put(digits[--count]);
}

static void put_line(char letter, uint64_t first) {
    put(letter);
    put_number(first);
    put('\n');
}

static unsigned index_of(unsigned number) {
    return number == MSECCFG ? CSR_COUNT - 2 : number == MSECCFGH ? CSR_COUNT - 1 : number - PMPCFG0;
}

struct outcome in_machine_mode(const char *place, unsigned index, uintptr_t argument) {
    return attempt((uintptr_t)place + 8 * index, argument, 0, MACHINE << 11, 0);
}

/* By how a register is read or written. */
static const char *const csr_lists[4] = {csr_writes, csr_sets, csr_clears, csr_reads};

static void write_csr(unsigned how, unsigned number, uint64_t value) {
    struct outcome outcome = in_machine_mode(csr_lists[how], index_of(number), value);
    if (outcome.cause != ECALL + MACHINE)
        put_line('t', outcome.cause);
    in_machine_mode(fence_addresses, 0, 0);
}

/* Sets bits of mseccfg, or clears them, and says whether they are so. */
int change_security(uint64_t bits, int is_set) {
    unsigned index = index_of(MSECCFG);
    if (XLEN != 64
        || in_machine_mode(is_set ? csr_sets : csr_clears, index, (uintptr_t)bits).cause != ECALL + MACHINE)
        return 0;
    return (in_machine_mode(csr_reads, index, 0).value & bits) == (is_set ? bits : 0);
}

/* Reads a register, tells it where it has changed, and judges it. */
static void look_at(unsigned number) {
    unsigned index = index_of(number);
    struct outcome outcome = in_machine_mode(csr_reads, index, 0);
    uint64_t value = outcome.cause == ECALL + MACHINE ? outcome.value : 0;
    if (is_first_look && outcome.cause != ECALL + MACHINE)
        put_line('x', number);
    if (value != shown[index]) {
        put('r');
        put_number(number);
        put_number(value);
        put('\n');
        shown[index] = value;
    }
    failed += ((value ^ wanted[index]) & mask[index]) != 0;
}

static void look(void) {
    for (unsigned entry = 0; entry < count; entry += XLEN / 8)
        look_at(PMPCFG0 + entry / 4);
    for (unsigned entry = 0; entry < count; entry++)
        look_at(PMPADDR0 + entry);
    look_at(MSECCFG);
    if (XLEN == 32)
        look_at(MSECCFGH);
    put('w');
    put('\n');
    is_first_look = 0;
}

static void forget(void) {
    for (unsigned index = 0; index < CSR_COUNT; index++) {
        shown[index] = wanted[index] = 0;
        mask[index] = ~UINT64_C(0);
    }
}

/* Unlocked rules first, so that machine mode is free while addresses are cleared. */
static void clear_registers(void) {
    for (unsigned index = 0; index < CSR_COUNT; index++)
        in_machine_mode(csr_writes, index, 0);
    in_machine_mode(fence_addresses, 0, 0);
}

/* By four bytes, as a rule of four may lie there. */
void fill(uint64_t from, uint64_t to) {
    for (uint64_t at = from; at < to; at += 4)
        *(volatile uint32_t *)(uintptr_t)at = (uint32_t)COMPRESSED_EBREAKS;
}

static void fill_spots(void) {
    while (spot_count > 0) {
        spot_count--;
        fill(spots[spot_count] & ~UINT64_C(7), spots[spot_count] + 8);
    }
    in_machine_mode(fence_code, 0, 0);
}

/* How many words an operation has behind its first. */
static unsigned arguments_of(uint64_t word) {
    switch (word & 0xff) {
    case WRITE:
    case ACCESS:
    case SPOT: return 1;
    case EXPECT: return 2;
    case NAME: return ((word >> 8 & 0xff) + 7) / 8;
    default: return 0;
    }
}

/* What ends with a case: how much was wrong in it, and its name where something was. */
static void end_case(void) {
    if (!is_case)
        return;
    is_case = 0;
    begin_signature[0]++;
    if (number + 1 < SIGNATURE_WORDS)
        begin_signature[number + 1] = failed - failed_before;
    if (failed == failed_before)
        return;
    first_failed = first_failed ? first_failed : number + 1;
    for (unsigned it = 0; it < name_length; it++)
        board_put(name[it]);
    if (name_length)
        board_put('\n');
    failed_before = failed;
}

/* Which case it is, whether it begins or goes on behind a reset. */
static void take_case(uint64_t word) {
    count = word >> 8 & 0xff;
    number = word >> 32;
    is_case = 1;
    name_length = 0;
}

static void take_name(const uint64_t *at) {
    name = (const char *)(at + 1);
    name_length = *at >> 8 & 0xff;
}

static void begin_case(uint64_t word) {
    end_case();
    take_case(word);
    forget();
    if (!(word >> 16 & 1))
        clear_registers();
    fill_spots();
    put_line('c', word >> 32);
    is_first_look = 1;
}

/* An instruction of four bytes, or one of two by which what is behind it is reached. */
static void put_spot(int is_before, uint64_t at) {
    *(volatile uint16_t *)(uintptr_t)at = is_before ? COMPRESSED_NOP : EBREAK & 0xffff;
    if (!is_before)
        *(volatile uint16_t *)(uintptr_t)(at + 2) = EBREAK >> 16;
    spots[spot_count++] = at;
    in_machine_mode(fence_code, 0, 0);
}

/* An access to a register that has to be an illegal instruction, or is there. */
static void try_csr(unsigned how, unsigned mode, unsigned number, int is_there) {
    uintptr_t target = (uintptr_t)csr_lists[how] + 8 * index_of(number);
    struct outcome outcome = attempt(target, 1, 0, (uintptr_t)mode << 11, mode != MACHINE);
    int is_here = read_mepc() == target;
    failed += is_there ? outcome.cause != ECALL + mode : outcome.cause != ILLEGAL || !is_here;
    put_answer(outcome.cause == ECALL + mode, outcome.cause, read_mtval(), is_here);
}

/* Tells XLEN, and which modes mstatus.MPP holds. */
static void tell_hart(void) {
    uintptr_t modes = 0, status, mask = MPP;
    for (uintptr_t mode = 0; mode < 4; mode++) {
        __asm__ volatile("csrc mstatus, %1\n csrs mstatus, %2\n csrr %0, mstatus"
                         : "=r"(status) : "r"(mask), "r"(mode << 11));
        modes |= (uintptr_t)((status & MPP) == mode << 11) << mode;
    }
    put('h');
    put_number(XLEN);
    put_number(modes);
    put_number(WAYS);
    put('\n');
}

/* After a reset the hart goes on behind it, by what memory kept. */
static const uint64_t *reset_behind(const uint64_t *at) {
    KEPT->place = at + 1 - cases;
    KEPT->failed = failed;
    KEPT->mark = MARK ^ KEPT->place;
    board_reset();
    return at;
}

static const uint64_t *go_on(void) {
    is_quiet = cases[0] & 1;
    KEPT->mark = 0;
    failed = KEPT->failed;
    for (const uint64_t *at = cases + 1; at < cases + KEPT->place; at += 1 + arguments_of(*at)) {
        if ((*at & 0xff) == CASE)
            take_case(*at);
        if ((*at & 0xff) == NAME)
            take_name(at);
    }
    return cases + KEPT->place;
}

#ifdef BOARD_TAKES_CASES
static uint32_t take_word(void) {
    uint32_t word = 0;
    for (unsigned byte = 0; byte < 4; byte++)
        word |= (uint32_t)board_get() << 8 * byte;
    return word;
}

/* Asks for cases: their length, the sum of their words of 32 bits, and these, until the sum is right. */
static void take_cases(void) {
    volatile uint32_t *words = (volatile uint32_t *)cases;
    board_begin();
    for (uint32_t sum = 1, told = 0; sum != told;) {
        put_line('g', CASES_SIZE);
        uint32_t length = take_word();
        told = take_word();
        sum = 0;
        for (uint32_t it = 0; it < length / 4 && it < CASES_SIZE / 4; it++)
            sum += words[it] = take_word();
    }
}
#endif

static const uint64_t *beginning(void) {
    forget();
    in_machine_mode(clear_supervisor, 0, 0);
    if (KEPT->mark == (MARK ^ KEPT->place))
        return go_on();
#ifdef BOARD_TAKES_CASES
    take_cases();
#endif
    is_quiet = cases[0] & 1;
    failed = failed_before = first_failed = 0;
    for (unsigned it = 0; it < SIGNATURE_WORDS; it++)
        begin_signature[it] = 0;
    fill(ARENA - 256, ARENA + ARENA_SIZE + 256);
    begin_tables();
    in_machine_mode(fence_code, 0, 0);
    load_extensions();
    return cases + 1;
}

/* An exception that nothing asked for: the rest can't be told. */
void lost(void) {
    board_settle();
    tohost = 3;
    board_end(1);
    for (;;)
        ;
}

static void run(const uint64_t *at) {
    for (; (*at & 0xff) != END; at++) {
        uint64_t word = *at;
        switch ((unsigned)word & 0xff) {
        case CASE: begin_case(word); break;
        case NAME: take_name(at); at += arguments_of(word); break;
        case SPOT: put_spot(word >> 8 & 0xff, *++at); break;
        case ATTEMPT: try_csr(word >> 8 & 3, word >> 12 & 3, word >> 16 & 0xfff, word >> 28 & 1); break;
        case WRITE: write_csr(word >> 8 & 0xff, word >> 16 & 0xfff, *++at); break;
        case EXPECT:
            mask[index_of(word >> 16 & 0xfff)] = *++at;
            wanted[index_of(word >> 16 & 0xfff)] = *++at;
            break;
        case LOOK: look(); break;
        case ACCESS: perform(word, *++at); break;
        case RESET: at = reset_behind(at); break;
        case HART: tell_hart(); break;
        }
    }
    end_case();
}

void harness(void) {
#ifdef BOARD_TAKES_CASES
    for (;;) {
        run(beginning());
        put_line('z', failed);
        if (cases[0] & RESETS)
            board_reset();
    }
#else
    run(beginning());
    put_line('z', failed);
    board_settle();
    tohost = first_failed << 1 | 1;
    board_end(failed != 0);
    for (;;)
        ;
#endif
}
