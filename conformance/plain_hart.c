/* plain_hart OPTION.. CASES: performs cases as the harness does on a hart, by a plain unit that may be turned one way.
   plain_hart --list: the turns, each with the rule whose cases find it, and the options of the hart on which they do.

   --turn NAME       or NAME=WAY, where there is more than one way: plain/turns.h has them
   --xlen N --entries N --grain N --bits N                 the hart: 64, 16, 4 and 56 without these
   --no-smepmp --no-supervisor --no-user --no-extensions   what it doesn't have
   --reset-mseccfg N                                       what a reset leaves in mseccfg */
#include "plain/deciding.h"
#include "plain/security.h"
#include <stdio.h>
#include <stdlib.h>
#include <string.h>

enum { END, CASE, WRITE, LOOK, EXPECT, ACCESS, RESET, SPOT, HART, ATTEMPT };
/* How a register is written. */
enum { WHOLE, SET_BITS, CLEAR_BITS, READ };
enum { MSECCFG = 0x747, MSECCFGH = 0x757, PMPCFG0 = 0x3a0, PMPADDR0 = 0x3b0 };

#define ROW_OF(NAME, COUNT, RULE, HART) {#NAME, COUNT, RULE, HART},
static const struct {
    const char *name;
    unsigned count;
    const char *rule, *hart;
} turns[] = {TURNS(ROW_OF)};

/* Whether the number is that of a register of bytes, and the first entry of those. */
static int is_byte_register(unsigned number, unsigned *first) {
    *first = 4 * (number - PMPCFG0);
    return number >= PMPCFG0 && number < PMPADDR0;
}

/* RV64 has no odd registers of bytes. */
static int is_odd(unsigned number) {
    return number < PMPADDR0 && number % 2 == 1 && hart.xlen == 64;
}

static int is_there(unsigned number) {
    if (number == MSECCFG || number == MSECCFGH)
        return hart.has_smepmp && (number == MSECCFG || hart.xlen == 32);
    unsigned first = number < PMPADDR0 ? 4 * (number - PMPCFG0) : number - PMPADDR0;
    return !is_odd(number) && (first < hart.entries || turn == absent_entry_is_stored);
}

static void write_register(unsigned number, uint64_t value) {
    unsigned first;
    value &= ones(hart.xlen);
    if (turn == absent_address_is_another && number >= PMPADDR0 + hart.entries && number < PMPADDR0 + 64)
        number = PMPADDR0 + (number - PMPADDR0) % hart.entries;
    if (turn == absent_address_is_the_last && number >= PMPADDR0 + hart.entries && number < PMPADDR0 + 64)
        number = PMPADDR0 + hart.entries - 1;
    if (turn == absent_register_is_another && number < PMPADDR0 && !is_odd(number) && !is_there(number))
        number = PMPCFG0;
    if (turn == second_byte_register_is_the_first && number == PMPCFG0 + 2)
        number = PMPCFG0;
    if (!is_there(number)) {
        if (turn == absent_register_traps || number == MSECCFG || number == MSECCFGH || is_odd(number))
            puts("t 2");
    } else if (number == MSECCFGH) {
        unit.upper_security = turn == upper_security_is_stored ? value : 0;
    } else if (is_byte_register(number, &first)) {
        write_bytes(first, value);
    } else if (number == MSECCFG) {
        write_security(value);
    } else {
        write_address(number - PMPADDR0, value);
    }
}

/* An address as it reads, with the ones or the zeros of a coarser grain. */
static uint64_t grained(const struct unit *from, unsigned entry) {
    uint64_t address = from->address[entry];
    if ((from->byte[entry] >> 3 & 3) == NAPOT)
        return turn == power_reads_bits_below_grain ? address
            : turn == power_reads_half_its_ones ? address | low_bits() >> 2 : address | low_bits() >> 1;
    return turn == range_reads_bits_below_grain ? address : address & ~low_bits();
}

static uint64_t read_address(const struct unit *from, unsigned entry) {
    uint64_t address = grained(from, entry);
    if (turn == address_reads_its_sign && address >> (hart.bits - 3) & 1)
        return address | ~ones(hart.bits - 2);
    return turn == address_reads_in_bytes ? address << 2 : address;
}

static uint64_t read_bytes(const struct unit *from, unsigned first) {
    uint64_t value = 0;
    for (unsigned place = 0; place < bytes_in(); place++) {
        uint64_t byte = turn == lock_is_not_read ? from->byte[first + place] & 0x7f : from->byte[first + place];
        unsigned at = turn == halves_swapped ? place ^ 4 : place;
        value |= byte << 8 * (turn == bytes_in_reverse ? bytes_in() - 1 - at : at);
    }
    return value;
}

static uint64_t read_register(const struct unit *from, unsigned number) {
    unsigned first;
    if (!is_there(number))
        return 0;
    if (number == MSECCFGH)
        return from->upper_security;
    if (number == MSECCFG)
        return ordered_security(from->security);
    if (turn == second_byte_register_is_the_first && number == PMPCFG0 + 2)
        number = PMPCFG0;
    return is_byte_register(number, &first) ? read_bytes(from, first) : read_address(from, number - PMPADDR0);
}

static void write_bits(unsigned how, unsigned number, uint64_t value) {
    uint64_t before = read_register(&unit, number), mask = value;
    struct unit kept = unit;
    if (turn == bits_swapped && (how == SET_BITS || how == CLEAR_BITS))
        how = how == SET_BITS ? CLEAR_BITS : SET_BITS;
    if (how == SET_BITS)
        value = turn == set_bits_write_the_mask ? value : before | value;
    if (how == CLEAR_BITS)
        value = turn == clear_bits_write_the_mask ? value : before & ~value;
    if ((how == SET_BITS && turn == set_bits_ignore_locks) || (how == CLEAR_BITS && turn == clear_bits_ignore_locks))
        unit.security |= RLB;
    write_register(number, value);
    if (number != MSECCFG && (turn == set_bits_ignore_locks || turn == clear_bits_ignore_locks))
        unit.security = kept.security;
    if (how == CLEAR_BITS && turn == clear_bits_clear_sticky && number == MSECCFG)
        unit.security &= ~mask;
    if ((how == SET_BITS && turn == set_bits_are_ignored) || (how == CLEAR_BITS && turn == clear_bits_are_ignored))
        unit = kept;
}

/* An access to a register that has to be an illegal instruction. */
static void try_register(unsigned how, unsigned mode, unsigned number) {
    int is_open = number == MSECCFGH ? is_there(number) && turn != upper_security_is_missing
        : mode == MACHINE ? turn == odd_register_is_there
        : (how == READ
           && (turn == lower_modes_read || (turn == supervisor_reads && mode == SUPERVISOR)
               || (turn == lower_modes_read_addresses && number >= PMPADDR0 && number < MSECCFG)
               || (turn == lower_modes_read_security && number == MSECCFG)))
            || turned(lower_modes_write, how);
    if (is_open && how != READ && mode != MACHINE)
        write_bits(how, number, 1);
    puts(is_open ? "a ok" : "a 2 0 1");
}

static void look_at(unsigned number, int is_first) {
    uint64_t value = read_register(&unit, number);
    if (value != read_register(&shown, number))
        printf("r %x %llx\n", number, (unsigned long long)value);
    if (is_first && !is_there(number) && (turn == absent_register_traps || number >= MSECCFG))
        printf("x %x\n", number);
}

static void look(unsigned count, int *is_first) {
    for (unsigned entry = 0; entry < count; entry += bytes_in())
        look_at(PMPCFG0 + entry / 4, *is_first);
    for (unsigned entry = 0; entry < count; entry++)
        look_at(PMPADDR0 + entry, *is_first);
    look_at(MSECCFG, *is_first);
    if (hart.xlen == 32)
        look_at(MSECCFGH, *is_first);
    puts("w");
    shown = unit;
    *is_first = 0;
}

static void perform(uint64_t word, uint64_t start) {
    struct access access = {word >> 12 & 3, word >> 8 & 15, word >> 32 & 255, start, word >> 40 & 255};
    int is_plain = access.by < RESERVED_LOAD || access.by == FALLING || access.by == BY_MPRV;
    if (!is_plain && (!hart.has_extensions || (access.by == MASKED && hart.xlen == 32))) {
        puts("a 2 0 1");
        return;
    }
    int answer = answer_to(&access);
    if (answer == ALLOWED)
        puts("a ok");
    else
        printf("a %x %llx 1\n", answer, (unsigned long long)address_of_fault(&access));
}

static void begin(void) {
    memset(&unit, 0, sizeof unit);
    shown = unit;
    old_end = 0;
    unit.security = hart.reset_security;
}

static void run(const uint64_t *at) {
    unsigned count = 16;
    int is_first = 0;
    for (at++; (*at & 0xff) != END; at++) {
        uint64_t word = *at;
        switch (word & 0xff) {
        case CASE:
            begin();
            count = word >> 8 & 0xff;
            printf("c %llx\n", (unsigned long long)(word >> 32));
            is_first = 1;
            break;
        case WRITE: write_bits(word >> 8 & 0xff, word >> 16 & 0xfff, *++at); break;
        case ATTEMPT: try_register(word >> 8 & 3, word >> 12 & 3, word >> 16 & 0xfff); break;
        case LOOK: look(count, &is_first); break;
        case EXPECT: at += 2; break;
        case ACCESS: perform(word, *++at); break;
        case RESET:
            reset();
            memset(&shown, 0, sizeof shown);
            break;
        case HART: printf("h %x %x %x\n", hart.xlen, 8 | hart.has_supervisor << 1 | hart.has_user, WAYS); break;
        default: at++;
        }
    }
    puts("z 0");
}

static void turn_to(const char *name) {
    size_t length = strcspn(name, "=");
    for (unsigned it = 0; it < sizeof turns / sizeof *turns; it++)
        if (strlen(turns[it].name) == length && strncmp(turns[it].name, name, length) == 0) {
            turn = it;
            way = name[length] == '=' ? strtoul(name + length + 1, NULL, 10) : 0;
            return;
        }
    fprintf(stderr, "plain_hart: no turn %s\n", name);
    exit(2);
}

static void list(void) {
    for (unsigned it = 0; it < sizeof turns / sizeof *turns; it++)
        printf("%s,%u,%s,%s\n", turns[it].name, turns[it].count, turns[it].rule, turns[it].hart);
}

/* Takes an option, and gives how many words it has: 0 where it is none. */
static int take_option(char **words) {
    static const struct {
        const char *name;
        unsigned *field;
    } numbers[] = {{"--xlen", &hart.xlen}, {"--entries", &hart.entries}, {"--grain", &hart.grain},
        {"--bits", &hart.bits}}, lacks[] = {{"--no-smepmp", &hart.has_smepmp},
        {"--no-supervisor", &hart.has_supervisor}, {"--no-user", &hart.has_user},
        {"--no-extensions", &hart.has_extensions}};
    for (unsigned it = 0; it < 4; it++)
        if (strcmp(words[0], lacks[it].name) == 0)
            return *lacks[it].field = 0, 1;
    if (words[1] == NULL)
        return 0;
    for (unsigned it = 0; it < 4; it++)
        if (strcmp(words[0], numbers[it].name) == 0)
            return *numbers[it].field = strtoul(words[1], NULL, 0), 2;
    if (strcmp(words[0], "--reset-mseccfg") == 0)
        return hart.reset_security = strtoul(words[1], NULL, 0), 2;
    if (strcmp(words[0], "--turn") == 0)
        return turn_to(words[1]), 2;
    return 0;
}

/* The words of a file of cases, and an END behind them. */
static uint64_t *read_cases(const char *path) {
    FILE *file = fopen(path, "rb");
    if (!file || fseek(file, 0, SEEK_END) != 0)
        return NULL;
    long size = ftell(file);
    uint64_t *cases = calloc(size / 8 + 1, 8);
    rewind(file);
    return cases && fread(cases, 8, size / 8, file) == (size_t)size / 8 ? cases : NULL;
}

int main(int count, char **words) {
    int at = 1;
    if (count == 2 && strcmp(words[1], "--list") == 0)
        return list(), 0;
    while (at < count - 1) {
        int taken = take_option(words + at);
        if (taken == 0)
            return fprintf(stderr, "plain_hart: no option %s\n", words[at]), 2;
        at += taken;
    }
    if (hart.xlen == 32 && hart.bits > 34)
        hart.bits = 34;
    uint64_t *cases = at == count - 1 ? read_cases(words[at]) : NULL;
    if (!cases)
        return fputs("plain_hart: there is no file of cases\n", stderr), 2;
    run(cases);
    return 0;
}
