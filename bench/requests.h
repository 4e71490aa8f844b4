/* The writes and the requests that all peers are given. */
#ifndef REQUESTS_H
#define REQUESTS_H
#include "peer.h"
#include "regions.h"

_Static_assert(ENTRIES == 16 || ENTRIES == 64, "the units that are timed have 16 or 64 entries");

enum { COUNT = 100000, WRITES = 10000, SMALL_COUNT = 200 };

/* A switch to another domain: its pages have the first entries. */
enum { PAGES = 8, SWITCH_WRITES = PAGES + 1, SWITCHES = 10000, DOMAINS = 8 };

static struct write writes[SWITCHES * SWITCH_WRITES + 3 * ENTRIES];
static struct request requests[COUNT];
static size_t write_count, request_count;

static void add_write(uint16_t number, uint64_t value) {
    writes[write_count++] = (struct write){number, value};
}

/* A load of eight bytes by user mode, somewhere in the page. */
static void add_load(uint64_t page) {
    requests[request_count++] = (struct request){page + 8 * below(512), 8, USER, LOAD};
}

/* The same configuration of the first entries. */
static void configure(unsigned entries, uint64_t eight) {
    for (unsigned first = 0; first < entries; first += 8)
        add_write(PMPCFG0 + first / 4, entries - first < 8 ? eight >> 8 * (8 - (entries - first)) : eight);
}

static void set_regions(unsigned regions) {
    write_count = 0;
    for (unsigned entry = 0; entry < regions; entry++)
        add_write(PMPADDR0 + entry, napot_of_page(region(entry)));
    configure(regions, UINT64_C(0x1b1b1b1b1b1b1b1b));
}

/* This far from the start of a region's page. */
static void set_loads(unsigned regions, uint64_t distance) {
    request_count = 0;
    while (request_count < COUNT)
        add_load(region(below(regions)) + distance);
}

/* What OpenSBI writes at its boot, as in examples/opensbi-1.1-virt.pmp, where it looks for the entries first: the clock
   and itself are closed, and then comes everything. */
static void set_opensbi(void) {
    write_count = 0;
    for (unsigned entry = 0; entry < ENTRIES; entry++) {
        add_write(PMPADDR0 + entry, (UINT64_C(1) << 54) - 1);
        add_write(PMPADDR0 + entry, 0);
    }
    add_write(PMPADDR0, 0x801fff);
    add_write(PMPADDR0 + 1, 0x2000ffff);
    add_write(PMPADDR0 + 2, UINT64_MAX);
    add_write(PMPCFG0, 0x1f1818);
}

/* Loads from the memory above OpenSBI. */
static void set_kernel_loads(void) {
    request_count = 0;
    while (request_count < COUNT)
        add_load(UINT64_C(0x80200000) + 4096 * below(32768));
}

/* Words of four bytes with a word between each: the most runs, one more than twice as many. */
static void set_comb(void) {
    write_count = 0;
    for (unsigned entry = 0; entry < ENTRIES; entry++)
        add_write(PMPADDR0 + entry, 2 * entry + 1);
    configure(ENTRIES, UINT64_C(0x1111111111111111));
}

/* Loads of four bytes by user mode, each inside a run of the comb. */
static void set_words(void) {
    request_count = COUNT;
    for (size_t i = 0; i < COUNT; i++)
        requests[i] = (struct request){4 * below(2 * ENTRIES + 1), 4, USER, LOAD};
}

/* Loads that begin anywhere in the comb and go on over a few words. */
static void set_long_words(void) {
    request_count = COUNT;
    for (size_t i = 0; i < COUNT; i++)
        requests[i] = (struct request){below(8 * ENTRIES - 4), 5 + below(28), USER, LOAD};
}

static void mix_modes_and_kinds(void) {
    static const uint8_t modes[3] = {USER, SUPERVISOR, MACHINE};
    for (size_t i = 0; i < request_count; i++) {
        requests[i].mode = modes[below(3)];
        requests[i].kind = below(3);
    }
}

static void set_address_writes(void) {
    set_regions(ENTRIES);
    for (size_t i = 0; i < WRITES; i++)
        add_write(PMPADDR0 + below(ENTRIES), napot_of_page(region(below(ENTRIES))));
}

/* Random bits of these in each of eight bytes. */
static uint64_t random_bytes(uint8_t mask) {
    return (next_random() ^ next_random() << 32) & UINT64_C(0x0101010101010101) * mask;
}

static void add_configurations(uint8_t mask) {
    add_write(PMPCFG0 + 2 * below(ENTRIES / 8), random_bytes(mask));
}

static void set_configuration_writes(uint8_t mask) {
    set_regions(ENTRIES);
    for (size_t i = 0; i < WRITES; i++)
        add_configurations(mask);
}

/* As OpenSBI finds out which entries there are. */
static void set_ones_and_zeros(void) {
    set_regions(0);
    for (size_t i = 0; i < WRITES; i++)
        add_write(PMPADDR0 + i / 2 % ENTRIES, i % 2 ? 0 : UINT64_MAX);
}

/* To registers of which all entries are locked, by a value that none of them has. */
static void set_frozen_writes(bool is_configuration) {
    set_regions(ENTRIES);
    configure(ENTRIES, UINT64_C(0x9b9b9b9b9b9b9b9b));
    for (size_t i = 0; i < WRITES; i++) {
        if (is_configuration)
            add_write(PMPCFG0 + 2 * below(ENTRIES / 8), UINT64_C(0x1818181818181818) | random_bytes(5));
        else
            add_write(PMPADDR0 + below(ENTRIES), napot_of_page(region(ENTRIES + below(ENTRIES))));
    }
}

/* The allow-list policy again and again. */
static void set_policy_writes(void) {
    set_regions(ENTRIES);
    for (size_t i = 0; i <= WRITES; i++)
        add_write(MSECCFG, 2);
}

/* Readable pages of its own, with random other rights, which are loaded from in any order. */
static void add_switch(unsigned domain) {
    uint64_t first = below(PAGES), step = 1 + 2 * below(PAGES / 2), base = ENTRIES + PAGES * domain;
    for (unsigned page = 0; page < PAGES; page++)
        add_write(PMPADDR0 + page, napot_of_page(region(base + page)));
    add_write(PMPCFG0, UINT64_C(0x1919191919191919) | random_bytes(6));
    for (unsigned page = 0; page < PAGES; page++)
        add_load(region(base + (first + step * page) % PAGES));
}

/* Between domains, while entries from the first on have a region each. */
static void set_switches(unsigned regions) {
    set_regions(regions);
    request_count = 0;
    for (unsigned domain = 0, i = 0; i < SWITCHES; i++) {
        domain = (domain + 1 + below(DOMAINS - 1)) % DOMAINS;
        add_switch(domain);
    }
}

/* Ranges of every kind in 64 units of 4 bytes, or of so many times as many, which overlap, some of them locked; and
   accesses there. */
static void set_small_file(uint64_t times) {
    write_count = 0;
    for (unsigned i = 0; i < 40; i++) {
        if (below(16) == 0)
            add_write(MSECCFG, below(8));
        else if (below(4) == 0)
            add_configurations(below(8) ? 0x7f : 0xff);
        else if (below(16) == 0)
            add_write(PMPADDR0 + below(ENTRIES), next_random() << 16);
        else
            add_write(PMPADDR0 + below(ENTRIES), times * below(64) + below(2) * ((times - 1) / 2));
    }
    request_count = SMALL_COUNT;
    for (size_t i = 0; i < SMALL_COUNT; i++)
        requests[i] = (struct request){times * below(256) + below(2) * below(times), 1 + below(24), USER, LOAD};
    mix_modes_and_kinds();
}

#endif
