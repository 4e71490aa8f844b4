/* Times decisions by threads that share a Spike-like unit behind a lock, without and beside a thread that writes to it. */
#define _GNU_SOURCE
#include "regions.h"
#include "spike_like.h"
#include <pthread.h>
#include <stdio.h>
#include <stdlib.h>
#include <time.h>

enum { ENTRIES = 16, DECISIONS = 500000, WRITES = 200000, ROUNDS = 15, MAX_THREADS = 4 };

/* The unit, on cache lines of its own, behind one of the locks. */
static _Alignas(64) struct spike_like unit;
static _Alignas(64) pthread_rwlock_t rwlock = PTHREAD_RWLOCK_INITIALIZER;
static _Alignas(64) pthread_mutex_t mutex = PTHREAD_MUTEX_INITIALIZER;
static _Alignas(64) unsigned deciding;
static pthread_barrier_t begin;

static void set_regions(void) {
    spike_like_reset(&unit, ENTRIES);
    for (unsigned entry = 0; entry < ENTRIES; entry++)
        spike_like_write(&unit, PMPADDR0 + entry, napot_of_page(region(entry)));
    for (unsigned first = 0; first < ENTRIES; first += 8)
        spike_like_write(&unit, PMPCFG0 + first / 4, UINT64_C(0x1b1b1b1b1b1b1b1b));
}

/* The locks. */

static unsigned decide(const struct request *it) {
    return spike_like_decide(&unit, it->mode, it->kind, it->start, it->length);
}

static unsigned decide_by_rwlock(const struct request *request) {
    pthread_rwlock_rdlock(&rwlock);
    unsigned answer = decide(request);
    pthread_rwlock_unlock(&rwlock);
    return answer;
}

static void write_again(void) {
    spike_like_write(&unit, PMPADDR0, napot_of_page(region(0)));
}

static void write_by_rwlock(void) {
    pthread_rwlock_wrlock(&rwlock);
    write_again();
    pthread_rwlock_unlock(&rwlock);
}

static unsigned decide_by_mutex(const struct request *request) {
    pthread_mutex_lock(&mutex);
    unsigned answer = decide(request);
    pthread_mutex_unlock(&mutex);
    return answer;
}

static void write_by_mutex(void) {
    pthread_mutex_lock(&mutex);
    write_again();
    pthread_mutex_unlock(&mutex);
}

struct lock {
    const char *name;
    unsigned (*decide)(const struct request *);
    void (*write)(void);
};

static const struct lock locks[] = {
    {"rwlock", decide_by_rwlock, write_by_rwlock},
    {"mutex", decide_by_mutex, write_by_mutex},
};

/* The rounds. */

static double nanoseconds(void) {
    struct timespec time;
    clock_gettime(CLOCK_MONOTONIC, &time);
    return 1e9 * time.tv_sec + time.tv_nsec;
}

struct span {
    double from;
    double to;
};

/* How long many loads by user mode from each region in turn take, which all have to be allowed. */
static struct span time_decisions(unsigned (*by)(const struct request *)) {
    struct request requests[ENTRIES];
    unsigned allowed = 0;
    for (unsigned entry = 0; entry < ENTRIES; entry++)
        requests[entry] = (struct request){region(entry), 8, USER, LOAD};
    struct span span = {nanoseconds(), 0};
    for (unsigned i = 0; i < DECISIONS; i++)
        allowed += by(&requests[i % ENTRIES]) >= ALLOWED;
    span.to = nanoseconds();
    if (allowed != DECISIONS) {
        fprintf(stderr, "a refused load\n");
        exit(1);
    }
    return span;
}

struct part {
    const struct lock *lock;
    struct span span;
};

static void *run_part(void *argument) {
    struct part *part = argument;
    pthread_barrier_wait(&begin);
    part->span = time_decisions(part->lock->decide);
    __atomic_fetch_sub(&deciding, 1, __ATOMIC_SEQ_CST);
    return NULL;
}

/* Nanoseconds for each write, as fast as they go, until all threads have decided. */
static double time_writes(const struct lock *lock) {
    unsigned long writes = 0;
    double before = nanoseconds();
    for (; __atomic_load_n(&deciding, __ATOMIC_SEQ_CST) != 0; writes++)
        lock->write();
    return (nanoseconds() - before) / (writes == 0 ? 1 : writes);
}

struct round {
    double decision; /* of each thread, from the first one's start to the last one's end */
    double write;
};

static struct round run_round(const struct lock *lock, unsigned threads, int writes) {
    pthread_t thread[MAX_THREADS];
    struct part part[MAX_THREADS];
    struct round round = {0, 1e18};
    struct span whole = {1e18, 0};
    deciding = threads;
    pthread_barrier_init(&begin, NULL, threads + 1);
    for (unsigned i = 0; i < threads; i++) {
        part[i].lock = lock;
        if (pthread_create(&thread[i], NULL, run_part, &part[i]) != 0) {
            fprintf(stderr, "no thread\n");
            exit(2);
        }
    }
    pthread_barrier_wait(&begin);
    if (writes)
        round.write = time_writes(lock);
    for (unsigned i = 0; i < threads; i++) {
        pthread_join(thread[i], NULL);
        if (part[i].span.from < whole.from)
            whole.from = part[i].span.from;
        if (part[i].span.to > whole.to)
            whole.to = part[i].span.to;
    }
    round.decision = (whole.to - whole.from) / DECISIONS;
    pthread_barrier_destroy(&begin);
    return round;
}

static struct round best_of_rounds(const struct lock *lock, unsigned threads, int writes) {
    struct round best = {1e18, 1e18};
    for (unsigned i = 0; i < ROUNDS; i++) {
        struct round round = run_round(lock, threads, writes);
        if (round.decision < best.decision)
            best.decision = round.decision;
        if (round.write < best.write)
            best.write = round.write;
    }
    return best;
}

static double best_alone(unsigned (*by)(const struct request *)) {
    double best = 1e18;
    for (unsigned i = 0; i < ROUNDS; i++) {
        struct span span = time_decisions(by);
        double time = (span.to - span.from) / DECISIONS;
        if (time < best)
            best = time;
    }
    return best;
}

static double best_write_alone(const struct lock *lock) {
    double best = 1e18;
    for (unsigned i = 0; i < ROUNDS; i++) {
        double before = nanoseconds();
        for (unsigned write = 0; write < WRITES; write++)
            lock->write();
        double time = (nanoseconds() - before) / WRITES;
        if (time < best)
            best = time;
    }
    return best;
}

int main(void) {
    set_regions();
    printf("Spike-like: a decision with no lock %.1f ns\n", best_alone(decide));
    for (unsigned i = 0; i < sizeof locks / sizeof *locks; i++) {
        const struct lock *lock = &locks[i];
        printf("%s: a decision on one thread %.1f ns, a write %.1f ns\n", lock->name, best_alone(lock->decide),
               best_write_alone(lock));
        for (unsigned threads = 1; threads <= MAX_THREADS; threads++) {
            struct round quiet = best_of_rounds(lock, threads, 0), busy = best_of_rounds(lock, threads, 1);
            printf("%s: %u at once: a decision %.1f ns; beside a writer %.1f ns, a write %.1f ns\n", lock->name,
                   threads, quiet.decision, busy.decision, busy.write);
        }
    }
    return 0;
}
