/* decide ROUNDS: times the library, the Spike-like unit, the one tuned by hand, and QEMU's where they are linked, on the
   same writes and requests.
   In each round all of them take turns. A line for each row and peer has the table, the row, the peer, how many calls a
   round has, and the fewest nanoseconds of a call. */
#define _POSIX_C_SOURCE 199309L
#include "requests.h"
#include <stdio.h>
#include <stdlib.h>
#include <time.h>

enum { BUILDS = 1000, SMALL_FILES = 6000, MAX_PEERS = 6 };

extern const struct peer tilvenka_map, tilvenka_registers, spike_like, tuned, qemu_10, qemu_10_2;
void compare_tuned(void);

#ifdef HAS_QEMU_10
#define QEMU_10 &qemu_10,
#else
#define QEMU_10
#endif
#ifdef HAS_QEMU_10_2
#define QEMU_10_2 &qemu_10_2,
#else
#define QEMU_10_2
#endif
#define QEMU QEMU_10 QEMU_10_2

static const struct peer *const all[] = {&tilvenka_map, &tilvenka_registers, &spike_like, &tuned, QEMU NULL};
static const struct peer *const exact[] = {&tilvenka_map, &tilvenka_registers, &spike_like, &tuned, NULL};
static const struct peer *const writers[] = {&tilvenka_registers, &spike_like, &tuned, QEMU NULL};
static const struct peer *const runners[] = {&tilvenka_map, &tilvenka_registers, &tuned, NULL};
static const struct peer *const builders[] = {&tilvenka_map, NULL};

static unsigned rounds;
static enum pace pace;
static uint16_t answers[2][COUNT];
static uint64_t values[WRITES];

/* What a row times. */

struct work {
    const char *table;
    const struct peer *const *peers;
    /* One round, over all requests or over the last of the writes. Those before are made before it. */
    void (*run)(const struct peer *peer, uint16_t *answers);
    size_t last_writes;
    size_t calls;
};

static void run_decisions(const struct peer *peer, uint16_t *told) {
    peer->decide(requests, request_count, told, pace);
}

static void run_fills(const struct peer *peer, uint16_t *told) {
    peer->fill(requests, request_count, told, FREE);
}

static void run_switches(const struct peer *peer, uint16_t *told) {
    const struct write *next = writes + write_count - SWITCHES * SWITCH_WRITES;
    for (size_t i = 0; i < SWITCHES; i++) {
        peer->change(next + i * SWITCH_WRITES, SWITCH_WRITES);
        peer->fill(requests + i * PAGES, PAGES, told + i * PAGES, FREE);
    }
}

static void run_moved_switches(const struct peer *peer, uint16_t *told) {
    const struct write *next = writes + write_count - SWITCHES * SWITCH_WRITES;
    uint64_t first, last;
    for (size_t i = 0; i < SWITCHES; i++) {
        for (size_t j = 0; j < SWITCH_WRITES; j++)
            peer->moves(next[i * SWITCH_WRITES + j], &first, &last);
        peer->fill(requests + i * PAGES, PAGES, told + i * PAGES, FREE);
    }
}

static void run_writes(const struct peer *peer, uint16_t *told) {
    (void)told;
    peer->write(writes + write_count - WRITES, WRITES);
}

static void run_moves(const struct peer *peer, uint16_t *told) {
    const struct write *next = writes + write_count - WRITES;
    uint64_t first, last;
    for (size_t i = 0; i < WRITES; i++)
        told[i] = peer->moves(next[i], &first, &last);
}

static void run_reads(const struct peer *peer, uint16_t *told) {
    (void)told;
    peer->read(writes + write_count - WRITES, WRITES, values);
}

static void run_runs(const struct peer *peer, uint16_t *told) {
    uint64_t first, last;
    for (size_t i = 0; i < request_count; i++)
        told[i] = peer->run(requests[i].mode, requests[i].start, &first, &last);
}

static void run_builds(const struct peer *peer, uint16_t *told) {
    (void)told;
    peer->build(BUILDS);
}

static const struct work decisions = {"asking", all, run_decisions, 0, COUNT};
static const struct work fills = {"asking", all, run_fills, 0, COUNT};
static const struct work runs = {"asking", runners, run_runs, 0, COUNT};
static const struct work switches = {"asking", all, run_switches, SWITCHES * SWITCH_WRITES, SWITCHES};
static const struct work moved_switches = {"asking", writers, run_moved_switches, SWITCHES * SWITCH_WRITES, SWITCHES};
static const struct work changes = {"registers", writers, run_writes, WRITES, WRITES};
static const struct work moves = {"registers", writers, run_moves, WRITES, WRITES};
static const struct work reads = {"registers", writers, run_reads, WRITES, WRITES};
static const struct work builds = {"maps", builders, run_builds, 0, BUILDS};

/* Comparing. */

static void prepare_for(const struct work *work, const struct peer *peer) {
    peer->prepare(writes, write_count - work->last_writes);
}

static void stop(const char *name, const struct peer *peer, const char *what, size_t number, unsigned long long told,
                 unsigned long long wanted) {
    fprintf(stderr, "%s: %s has %llu for %s %zu, and %s %llu\n", name, peer->name, told, what, number, all[0]->name,
            wanted);
    exit(1);
}

/* A decision of a peer that tells no entry is what is allowed. */
static bool is_same(const struct work *work, const struct peer *peer, unsigned told, unsigned wanted) {
    if (work != &decisions)
        return told == wanted;
    wanted = all[0]->number_of(wanted);
    return peer->number_of ? peer->number_of(told) == wanted : (told != 0) == (wanted >= ALLOWED);
}

/* Stops where a peer answers otherwise than the library by its map. */
static void compare_answers(const char *name, const struct work *work, const struct peer *const *peers) {
    prepare_for(work, all[0]);
    work->run(all[0], answers[0]);
    for (; *peers != NULL; peers++) {
        prepare_for(work, *peers);
        work->run(*peers, answers[1]);
        for (size_t i = 0; i < request_count; i++)
            if (!is_same(work, *peers, answers[1][i], answers[0][i]))
                stop(name, *peers, "request", i, answers[1][i], answers[0][i]);
    }
}

/* All registers of a unit, as writes that read them. */
static size_t list_registers(struct write *list) {
    size_t count = 0;
    for (unsigned first = 0; first < ENTRIES; first += 8)
        list[count++].number = PMPCFG0 + first / 4;
    for (unsigned entry = 0; entry < ENTRIES; entry++)
        list[count++].number = PMPADDR0 + entry;
    list[count++].number = MSECCFG;
    return count;
}

static void compare_registers(const char *name) {
    struct write list[2 * ENTRIES];
    uint64_t wanted[2 * ENTRIES], told[2 * ENTRIES];
    size_t count = list_registers(list);
    tilvenka_registers.prepare(writes, write_count);
    spike_like.prepare(writes, write_count);
    tilvenka_registers.read(list, count, wanted);
    spike_like.read(list, count, told);
    for (size_t i = 0; i < count; i++)
        if (told[i] != wanted[i])
            stop(name, &spike_like, "register", list[i].number, told[i], wanted[i]);
}

/* QEMU's isn't compared here, since its rules are others at the edges. */
static void compare_small_files(void) {
    for (unsigned i = 0; i < SMALL_FILES; i++) {
        set_small_file(i % 2 == 0 ? 1 : 1024);
        compare_answers("small files", &decisions, exact);
        compare_answers("small files", &fills, exact);
        compare_registers("small files");
    }
    fprintf(stderr, "%d decisions and as many rights of %d small random files agree, and all registers\n",
            SMALL_FILES * SMALL_COUNT, SMALL_FILES);
}

/* Timing. */

static double nanoseconds(void) {
    struct timespec time;
    clock_gettime(CLOCK_MONOTONIC, &time);
    return 1e9 * time.tv_sec + time.tv_nsec;
}

/* Not inlined, since instructions are counted in the function of this name. */
__attribute__((noinline)) void run_round(const struct work *work, const struct peer *peer) {
    work->run(peer, answers[1]);
    __asm__ volatile("" ::: "memory");
}

static double time_of(const struct work *work, const struct peer *peer) {
    prepare_for(work, peer);
    double before = nanoseconds();
    run_round(work, peer);
    return nanoseconds() - before;
}

static void measure(const char *name, const struct work *work) {
    double best[MAX_PEERS] = {0};
    if (work->peers == all || work->peers == runners)
        compare_answers(name, work, work->peers);
    else
        compare_registers(name);
    for (unsigned round = 0; round < rounds; round++) {
        for (unsigned i = 0; work->peers[i] != NULL; i++) {
            double time = time_of(work, work->peers[i]);
            best[i] = round == 0 || time < best[i] ? time : best[i];
        }
    }
    for (unsigned i = 0; work->peers[i] != NULL; i++)
        printf("%s\t%s\t%s\t%zu\t%.2f\n", work->table, name, work->peers[i]->name, work->calls, best[i] / work->calls);
}

/* The rows. */

static void measure_in_turn(const char *name) {
    pace = IN_TURN;
    measure(name, &decisions);
    pace = FREE;
}

static void measure_decisions(void) {
    set_opensbi();
    set_kernel_loads();
    measure("OpenSBI's boot", &decisions);
    set_regions(1);
    set_loads(1, 0);
    measure("one region", &decisions);
    set_regions(ENTRIES);
    set_loads(ENTRIES, 0);
    measure("a region each", &decisions);
    measure_in_turn("the same, in turn");
    mix_modes_and_kinds();
    measure_in_turn("every mode and kind, in turn");
    set_loads(ENTRIES, 0x2000);
    measure("no match", &decisions);
    set_regions(1);
    measure("no match, one on", &decisions);
    set_regions(ENTRIES);
    set_loads(ENTRIES, 0);
    for (size_t i = 0; i < COUNT; i++)
        requests[i].start = (requests[i].start & ~UINT64_C(4095)) + 4092;
    measure("across a region's end", &decisions);
    set_comb();
    set_words();
    measure("one word of the comb", &decisions);
    set_long_words();
    measure("across words of the comb", &decisions);
}

static void measure_fills(void) {
    set_opensbi();
    set_kernel_loads();
    measure("rights of a page, OpenSBI's boot", &fills);
    set_regions(ENTRIES);
    set_loads(ENTRIES, 0);
    measure("rights of a page, a region each", &fills);
    measure("a run, a region each", &runs);
    set_regions(1);
    set_loads(ENTRIES, 0x2000);
    measure("rights of a page, no match, one on", &fills);
    measure("a run, no match, one on", &runs);
    set_switches(PAGES);
    measure("a switch, 8 on", &switches);
    measure("a switch, 8 on, and what it moved", &moved_switches);
    set_switches(ENTRIES);
    measure("a switch, all on", &switches);
    measure("a switch, all on, and what it moved", &moved_switches);
}

static void measure_registers(void) {
    set_address_writes();
    measure("write of `pmpaddr`", &changes);
    measure("write of `pmpaddr`, and what it moved", &moves);
    set_ones_and_zeros();
    measure("write of `pmpaddr`, all ones and zeros in turn", &changes);
    set_frozen_writes(false);
    measure("write of `pmpaddr`, frozen", &changes);
    set_address_writes();
    measure("read of `pmpaddr`", &reads);
    set_configuration_writes(0x1d);
    measure("write of `pmpcfg`", &changes);
    measure("write of `pmpcfg`, and what it moved", &moves);
    measure("read of `pmpcfg`", &reads);
    set_configuration_writes(0x1f);
    measure("write of `pmpcfg`, mostly not stored as written", &changes);
    set_configuration_writes(0);
    measure("write of `pmpcfg`, unchanged", &changes);
    set_frozen_writes(true);
    measure("write of `pmpcfg`, frozen", &changes);
    set_policy_writes();
    measure("write of `mseccfg`, unchanged", &changes);
}

static void measure_builds(void) {
    write_count = 0;
    measure("nothing on", &builds);
    set_opensbi();
    measure("OpenSBI's boot", &builds);
    set_regions(16);
    measure("16 regions", &builds);
    set_comb();
    measure("the comb", &builds);
    if (ENTRIES == 64) {
        set_regions(64);
        measure("64 regions", &builds);
    }
}

int main(int count, char **words) {
    if (count != 2 || (rounds = atoi(words[1])) == 0) {
        fprintf(stderr, "usage: decide ROUNDS\n");
        return 2;
    }
    compare_tuned();
    compare_small_files();
    measure_decisions();
    measure_fills();
    measure_registers();
    measure_builds();
    return 0;
}
