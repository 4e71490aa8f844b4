/* emulator ROUNDS: times an RV64I hart whose PMP unit is the library's, the Spike-like one, or QEMU's where it is
   linked, over guests that switch between domains, or whose accesses the TLB can't answer. Prints a table of Markdown:
   of each guest and unit the fewest nanoseconds of a switch, or of an access, in so many rounds of all of them. */
#define _POSIX_C_SOURCE 199309L
#include "guest.h"
#include "regions.h"
#include <stdio.h>
#include <stdlib.h>
#include <time.h>

enum { DOMAINS = 8, ROW_COUNT = 64, MAX_UNITS = 8 };

/* So far lie pages from each other: seventeen pages, so that a TLB has a place for each. */
#define PAGE_STRIDE UINT64_C(0x11000)
#define FIRST_PAGE (RAM_START + 0x100000)

/* Of the entries behind those of a domain, which are on in every guest. */
enum { FIRMWARE_ENTRY = 8, CUT_ENTRY = ENTRIES - 4, PAIR_ENTRY = ENTRIES - 2, CODE_ENTRY = ENTRIES - 1 };

extern const struct peer with_runs, settled, unbuilt, all_moved, built, spike_like, qemu_10;

static const struct {
    const struct peer *peer;
    const char *head;
} units[] = {
    {&with_runs, "settled, runs kept"},
    {&settled, "settled"},
    {&unbuilt, "no map"},
    {&all_moved, "no map, all forgotten"},
    {&built, "a map at each change"},
    {&spike_like, "Spike-like"},
#ifdef HAS_QEMU
    {&qemu_10, "QEMU 10"},
#endif
};
enum { UNITS = sizeof units / sizeof units[0] };

struct guest {
    const char *name;
    uint64_t switches;
    /* In each switch: so many pages, or so many times eight loads, at two distances in turn. */
    unsigned pages;
    unsigned times;
    int offsets[2];
    bool is_pair;            /* from a page's end, and not from where the entries cut the other page */
    bool is_loaded_first;    /* the values of all nine writes before the first of them */
    bool is_firmware_listed; /* by the first entry behind those of the domain, which gives nobody else a right */
};

#define SWITCH(PAGES) .switches = 40000, .pages = PAGES
#define LOADS(TIMES, ...) .times = TIMES, .offsets = __VA_ARGS__
#define OF_CUT_PAGE {-PAGE / 2, 0}

static const struct guest guests[] = {
    {"a switch, 8 pages", SWITCH(8)},
    {"a switch, 1 page", SWITCH(1)},
    {"8 pages, values loaded first", SWITCH(8), .is_loaded_first = true},
    {"1 page, values loaded first", SWITCH(1), .is_loaded_first = true},
    {"8 pages, firmware's entry is early", SWITCH(8), .is_loaded_first = true, .is_firmware_listed = true},
    {"1 page, firmware's entry is early", SWITCH(1), .is_loaded_first = true, .is_firmware_listed = true},
    {"a switch, 8 loads from a cut page", 10000, LOADS(1, OF_CUT_PAGE)},
    {"a switch, 16 loads from it", 10000, LOADS(2, OF_CUT_PAGE)},
    {"a switch, 24 loads from it", 10000, LOADS(3, OF_CUT_PAGE)},
    {"a switch, 40 loads from it", 10000, LOADS(5, OF_CUT_PAGE)},
    {"a switch, 80 loads from it", 10000, LOADS(10, OF_CUT_PAGE)},
    {"a load from a cut page", 10, LOADS(10000, OF_CUT_PAGE)},
    {"a misaligned load in a page", 10, LOADS(10000, {1, 1033}), .is_pair = true},
    {"a load across a page's end", 10, LOADS(10000, {-4, -4}), .is_pair = true},
};

static _Alignas(8) uint8_t ram[RAM_SIZE];
static struct write writes[3 * ENTRIES];
static size_t write_count;
static uint64_t handler;

static uint64_t page_of(unsigned index) {
    return FIRST_PAGE + index * PAGE_STRIDE;
}

static uint64_t cut_page(void) {
    return page_of(ENTRIES + SWITCHED * DOMAINS);
}

static uint64_t pair_page(void) {
    return cut_page() + 16 * PAGE;
}

static void put_word(uint64_t address, uint64_t word) {
    memcpy(ram + (address - RAM_START), &word, 8);
}

/* The unit at the start. */

static void set_entry(unsigned entry, uint64_t address, uint8_t configuration, uint8_t *configurations) {
    writes[write_count++] = (struct write){PMPADDR0 + entry, address};
    configurations[entry] = configuration;
}

static void set_unit(const struct guest *guest) {
    uint8_t configurations[ENTRIES];
    write_count = 0;
    for (unsigned entry = 0; entry < ENTRIES; entry++)
        set_entry(entry, napot_of_page(page_of(entry)), 0x1b, configurations);
    if (guest->is_firmware_listed)
        set_entry(FIRMWARE_ENTRY, FIRMWARE >> 2 | 0xfff, 0x18, configurations);
    set_entry(CUT_ENTRY, cut_page() >> 2 | 0xff, 0x1b, configurations);
    set_entry(CUT_ENTRY + 1, (cut_page() + PAGE / 2) >> 2 | 0xff, 0x19, configurations);
    set_entry(PAIR_ENTRY, pair_page() >> 2 | 0x3ff, 0x1b, configurations);
    set_entry(CODE_ENTRY, napot_of_page(USER_CODE), 0x1d, configurations);
    for (unsigned first = 0; first < ENTRIES; first += 8) {
        writes[write_count].number = PMPCFG0 + first / 4;
        memcpy(&writes[write_count++].value, configurations + first, 8);
    }
}

/* Rows of domains in any order, whose pages may be read, with random other rights. Answers how often the first page of
   so many switches may not be written. */
static uint64_t set_rows(uint64_t switches) {
    uint64_t refused = 0;
    for (unsigned row = 0, domain = 0; row < ROW_COUNT; row++) {
        uint64_t at = ROWS + 8 * ROW_WORDS * row, configurations = UINT64_C(0x1919191919191919);
        domain = (domain + 1 + below(DOMAINS - 1)) % DOMAINS;
        for (unsigned entry = 0; entry < SWITCHED; entry++) {
            put_word(at + 8 * entry, napot_of_page(page_of(ENTRIES + SWITCHED * domain + entry)));
            configurations |= (below(4) << 1) << 8 * entry;
        }
        put_word(at + 8 * SWITCHED, configurations);
        put_word(at + 8 * SWITCHED + 8, page_of(ENTRIES + SWITCHED * domain));
        if (!(configurations & WRITABLE))
            refused += (switches + ROW_COUNT - 1 - row) / ROW_COUNT;
    }
    return refused;
}

/* The memory at the start. Answers how many faults there will be. */
static uint64_t set_memory(const struct guest *guest) {
    struct code firmware = {(uint32_t *)(void *)ram, 0};
    struct code user = {(uint32_t *)(void *)(ram + (USER_CODE - RAM_START)), 0};
    for (uint64_t at = FIRST_PAGE; at < RAM_START + RAM_SIZE; at += 8)
        put_word(at, at * UINT64_C(0x9e3779b97f4a7c15));
    handler = emit_firmware(&firmware, guest->is_loaded_first);
    uint64_t refused = set_rows(guest->switches);
    if (guest->pages) {
        emit_touches(&user, guest->pages);
        return refused;
    }
    emit_loads(&user, STRIDE, guest->offsets);
    return 0;
}

static void set_hart(struct hart *hart, const struct guest *guest, const struct peer *peer) {
    peer->prepare(writes, write_count);
    reset_hart(hart, peer, ram);
    hart->x[TABLE] = hart->x[TABLE_START] = ROWS;
    hart->x[TABLE_END] = ROWS + 8 * ROW_WORDS * ROW_COUNT;
    hart->x[STRIDE] = guest->pages ? PAGE_STRIDE : guest->is_pair ? pair_page() + PAGE : cut_page() + PAGE / 2;
    hart->x[LEFT] = guest->switches;
    hart->x[PROGRAM] = USER_CODE;
    hart->x[HANDLER] = handler;
    hart->x[TIMES] = guest->times;
    hart->x[STATUS] = (uint64_t)USER << 11;
}

/* What a run came to. */
struct outcome {
    uint64_t sum;
    uint64_t faults;
    double time;
    uint64_t fills, runs, decisions;
};

static double nanoseconds(void) {
    struct timespec time;
    clock_gettime(CLOCK_MONOTONIC, &time);
    return 1e9 * time.tv_sec + time.tv_nsec;
}

static struct outcome run(const struct guest *guest, const struct peer *peer) {
    static struct hart hart;
    set_hart(&hart, guest, peer);
    double before = nanoseconds();
    run_hart(&hart);
    struct outcome outcome = {0, hart.x[FAULTS], nanoseconds() - before, hart.fills, hart.runs, hart.decisions};
    for (unsigned i = 1; i < 32; i++)
        outcome.sum = outcome.sum * UINT64_C(0x100000001b3) + hart.x[i];
    return outcome;
}

/* Stops where a run comes to another end than the first unit's, or has other faults than its rows say. */
static void compare(const struct guest *guest, uint64_t faults) {
    struct outcome wanted = {0};
    for (unsigned i = 0; i < UNITS; i++) {
        struct outcome told = run(guest, units[i].peer);
        wanted = i == 0 ? told : wanted;
        fprintf(stderr, "%s, %s: %.2f pages, %.2f runs and %.2f accesses are asked for\n", guest->name, units[i].head,
                (double)told.fills / guest->switches, (double)told.runs / guest->switches,
                (double)told.decisions / guest->switches);
        if (told.sum == wanted.sum && told.faults == faults)
            continue;
        fprintf(stderr, "%s: %s ends with %llx and %llu faults, where %llx and %llu are wanted\n", guest->name,
                units[i].head, (unsigned long long)told.sum, (unsigned long long)told.faults,
                (unsigned long long)wanted.sum, (unsigned long long)faults);
        exit(1);
    }
}

static void measure(const struct guest *guest, unsigned rounds) {
    double best[UNITS];
    uint64_t calls = guest->times < 100 ? guest->switches : guest->switches * guest->times * 8;
    set_unit(guest);
    compare(guest, set_memory(guest));
    for (unsigned round = 0; round < rounds; round++) {
        for (unsigned i = 0; i < UNITS; i++) {
            double time = run(guest, units[i].peer).time;
            best[i] = round == 0 || time < best[i] ? time : best[i];
        }
    }
    printf("| %s |", guest->name);
    for (unsigned i = 0; i < UNITS; i++)
        printf(" %.*f |", calls < 1000000 && best[i] / calls >= 1000 ? 0 : 1, best[i] / calls);
    printf("\n");
    fflush(stdout);
}

int main(int count, char **words) {
    unsigned rounds = count == 2 ? atoi(words[1]) : 0;
    if (rounds == 0) {
        fprintf(stderr, "usage: emulator ROUNDS\n");
        return 2;
    }
    printf("| %d entries |", ENTRIES);
    for (unsigned i = 0; i < UNITS; i++)
        printf(" %s |", units[i].head);
    printf("\n|---|");
    for (unsigned i = 0; i < UNITS; i++)
        printf("---|");
    printf("\n");
    for (unsigned i = 0; i < sizeof guests / sizeof guests[0]; i++)
        measure(&guests[i], rounds);
    return 0;
}
