// An object for LD_PRELOAD, which refuses the thread whose number is in REFUSE of the environment, from 1. Descriptor 3
// gets a letter for each thread that the program asks for.
#define _GNU_SOURCE
#include <dlfcn.h>
#include <errno.h>
#include <pthread.h>
#include <stdatomic.h>
#include <stdlib.h>
#include <unistd.h>

typedef int create_thread(pthread_t *, const pthread_attr_t *, void *(*)(void *), void *);

static atomic_long asked;
static long refused;
static create_thread *create;

__attribute__((constructor)) static void begin(void) {
    const char *text = getenv("REFUSE");
    refused = text == NULL ? 0 : atol(text);
    create = (create_thread *)dlsym(RTLD_NEXT, "pthread_create");
}

int pthread_create(pthread_t *thread, const pthread_attr_t *attributes, void *(*run)(void *), void *argument) {
    if (write(3, "t", 1) != 1)
        abort();
    return atomic_fetch_add(&asked, 1) + 1 == refused ? EAGAIN : create(thread, attributes, run, argument);
}
