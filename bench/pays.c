/* pays ROUNDS: times what a map costs and saves, by how many entries are on. Prints a table of Markdown: the fewest
   nanoseconds in so many rounds, and from how many questions since a change on a build takes less than it saves. */
#define _POSIX_C_SOURCE 199309L
#include "regions.h"
#include "tilvenka_pmp.h"
#include <stdio.h>
#include <stdlib.h>
#include <time.h>

enum { COUNT = 512, BUILDS = 20, PAGE = 4096 };

static tilvenka_pmp_unit unit;
static uint64_t addresses[COUNT];
static volatile uint32_t told;

static double nanoseconds(void) {
    struct timespec time;
    clock_gettime(CLOCK_MONOTONIC, &time);
    return 1e9 * time.tv_sec + time.tv_nsec;
}

/* The first entries have a page each. */
static void set_unit(unsigned entries, unsigned on) {
    tilvenka_pmp_reset(&unit, entries);
    for (unsigned entry = 0; entry < on; entry++)
        tilvenka_pmp_write(&unit, TILVENKA_PMP_PMPADDR0 + entry, napot_of_page(region(entry)));
    for (unsigned first = 0; first < on; first += 8) {
        unsigned count = on - first < 8 ? on - first : 8;
        tilvenka_pmp_write(&unit, TILVENKA_PMP_PMPCFG0 + first / 4, UINT64_C(0x1b1b1b1b1b1b1b1b) >> 8 * (8 - count));
    }
}

/* So far from the pages that are on. */
static void set_addresses(unsigned on, uint64_t distance) {
    for (unsigned i = 0; i < COUNT; i++)
        addresses[i] = region(below(on == 0 ? 1 : on)) + distance + 8 * below(512);
}

static void decide_all(void) {
    uint32_t sum = 0;
    for (unsigned i = 0; i < COUNT; i++)
        sum += tilvenka_pmp_decide(&unit, TILVENKA_PMP_USER, TILVENKA_PMP_LOAD, addresses[i], 8);
    told = sum;
}

static void take_rights(void) {
    uint32_t sum = 0;
    for (unsigned i = 0; i < COUNT; i++)
        sum += tilvenka_pmp_rights(&unit, TILVENKA_PMP_USER, addresses[i] / PAGE * PAGE, PAGE);
    told = sum;
}

static void build_anew(void) {
    for (unsigned i = 0; i < BUILDS; i++) {
        unit.map.runs = 0;
        tilvenka_pmp_build(&unit);
    }
}

static void lessen(double *best, void (*work)(void), unsigned calls) {
    double before = nanoseconds();
    work();
    double time = (nanoseconds() - before) / calls;
    *best = *best == 0 || time < *best ? time : *best;
}

/* A decision, and the rights of a page, without a map and with it. */
struct costs {
    double decision[2];
    double rights[2];
};

static void measure_questions(struct costs *costs) {
    for (unsigned has_map = 0; has_map < 2; has_map++) {
        unit.map.runs = 0;
        if (has_map)
            tilvenka_pmp_build(&unit);
        lessen(&costs->decision[has_map], decide_all, COUNT);
        lessen(&costs->rights[has_map], take_rights, COUNT);
    }
}

static void measure(unsigned entries, unsigned on, unsigned rounds) {
    double build = 0;
    struct costs hit = {{0}, {0}}, miss = {{0}, {0}};
    for (unsigned round = 0; round < rounds; round++) {
        set_unit(entries, on);
        lessen(&build, build_anew, BUILDS);
        set_addresses(on, 0);
        measure_questions(&hit);
        set_addresses(on, 0x2000);
        measure_questions(&miss);
    }
    if (on == 0)
        hit = miss;
    printf("| %u of %u | %.0f | %.1f | %.1f | %.1f | %.1f | %.1f | %.1f | %.0f | %.0f |\n", on, entries, build,
           hit.decision[0], hit.decision[1], hit.rights[0], hit.rights[1], miss.rights[0], miss.rights[1],
           build / (hit.rights[0] - hit.rights[1]), build / (miss.rights[0] - miss.rights[1]));
}

int main(int count, char **words) {
    static const unsigned ons[] = {0, 1, 3, 8, 16, 32, 64};
    unsigned rounds = count == 2 ? atoi(words[1]) : 0;
    if (rounds == 0) {
        fprintf(stderr, "usage: pays ROUNDS\n");
        return 2;
    }
    printf("| Entries on | a build | a decision | by the map | rights | by the map | rights without a match "
           "| by the map | pays from | without a match |\n|---|---|---|---|---|---|---|---|---|---|\n");
    for (unsigned entries = 16; entries <= 64; entries += 48)
        for (unsigned i = 0; i < sizeof ons / sizeof ons[0] && ons[i] <= entries; i++)
            measure(entries, ons[i], rounds);
    return 0;
}
