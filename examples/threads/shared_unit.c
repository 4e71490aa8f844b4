/* Threads that query a hart's unit while its firmware writes. There are two units: readers query the live one; the
 * writer waits until no reader is in the other, makes its writes there, and then makes that one live. So a reader sees
 * all writes of a publication or none, and never waits for another thread.
 *
 *     cc -O2 -pthread shared_unit.c $(pkg-config --cflags --libs tilvenka_pmp) -o shared_unit && ./shared_unit 10000
 *
 * The program publishes that many times, switching between two domains, while two threads query which one is open. */
#include <pthread.h>
#include <sched.h>
#include <stdatomic.h>
#include <stdio.h>
#include <stdlib.h>
#include <tilvenka_pmp.h>

struct shared_unit {
    tilvenka_pmp_unit units[2];
    atomic_uint live;       /* the index of the unit that readers query */
    atomic_uint readers[2]; /* how many are in each unit */
};

/* For readers: the unit with the index returned doesn't change until leave(). */
static unsigned enter(struct shared_unit *shared) {
    for (;;) {
        unsigned place = atomic_load(&shared->live);
        atomic_fetch_add(&shared->readers[place], 1);
        if (atomic_load(&shared->live) == place)
            return place;
        atomic_fetch_sub(&shared->readers[place], 1); /* the writer published in between */
    }
}

static void leave(struct shared_unit *shared, unsigned place) {
    atomic_fetch_sub(&shared->readers[place], 1);
}

struct write {
    uint32_t csr;
    uint64_t value;
};

/* For the only writer: these writes take effect together. */
static void publish(struct shared_unit *shared, const struct write *writes, size_t count) {
    unsigned live = atomic_load(&shared->live), other = 1 - live;
    while (atomic_load(&shared->readers[other]) != 0)
        sched_yield();
    shared->units[other] = shared->units[live];
    for (size_t i = 0; i < count; i++)
        tilvenka_pmp_write(&shared->units[other], writes[i].csr, writes[i].value);
    tilvenka_pmp_build(&shared->units[other]);
    atomic_store(&shared->live, other);
}

/* Two pages, each a domain. To switch, firmware first closes both. */
static const struct write set_up[] = {{0x3b0, 0x200001ff}, {0x3b1, 0x200005ff}, {0x3a0, 0x1819}};
static const struct write to_second[] = {{0x3a0, 0x1818}, {0x3a0, 0x1918}};
static const struct write to_first[] = {{0x3a0, 0x1818}, {0x3a0, 0x1819}};

static struct shared_unit shared;
static atomic_bool is_over;
static atomic_ulong questions, torn;

static bool may_load(const tilvenka_pmp_unit *unit, uint64_t start) {
    return tilvenka_pmp_is_allowed(tilvenka_pmp_decide(unit, TILVENKA_PMP_USER, TILVENKA_PMP_LOAD, start, 8));
}

/* After each publication exactly one of the domains is open. */
static void *ask(void *unused) {
    while (!atomic_load(&is_over)) {
        unsigned place = enter(&shared);
        const tilvenka_pmp_unit *unit = &shared.units[place];
        bool is_first = may_load(unit, 0x80000000), is_second = may_load(unit, 0x80001000);
        leave(&shared, place);
        atomic_fetch_add(&questions, 1);
        atomic_fetch_add(&torn, is_first == is_second);
    }
    return unused;
}

int main(int count, char **words) {
    long publications = count > 1 ? atol(words[1]) : 10000;
    pthread_t readers[2];
    publish(&shared, set_up, 3);
    for (int i = 0; i < 2; i++)
        if (pthread_create(&readers[i], NULL, ask, NULL) != 0)
            return 2;
    while (atomic_load(&questions) == 0)
        sched_yield();
    for (long i = 0; i < publications; i++)
        publish(&shared, i % 2 ? to_first : to_second, 2);
    atomic_store(&is_over, true);
    for (int i = 0; i < 2; i++)
        pthread_join(readers[i], NULL);
    printf("%ld publications, %s, %lu torn\n", publications, atomic_load(&questions) ? "questions" : "no question",
           atomic_load(&torn));
    return atomic_load(&torn) != 0;
}
