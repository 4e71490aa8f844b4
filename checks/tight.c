// Loaded before a program, it lets descriptor TIGHT, or standard error without it, take ROOM bytes in all and then none.
// Descriptor 3 gets a letter for each write to it.
#define _GNU_SOURCE
#include <dlfcn.h>
#include <stdlib.h>
#include <unistd.h>

static size_t room;
static int tight = STDERR_FILENO;

__attribute__((constructor)) static void begin(void) {
    const char *given = getenv("ROOM");
    room = given ? strtoul(given, NULL, 10) : 0;
    given = getenv("TIGHT");
    tight = given ? atoi(given) : STDERR_FILENO;
}

ssize_t write(int file, const void *bytes, size_t length) {
    ssize_t (*real)(int, const void *, size_t) = (ssize_t (*)(int, const void *, size_t))dlsym(RTLD_NEXT, "write");
    if (file != tight) {
        return real(file, bytes, length);
    }
    size_t taken = length < room ? length : room;
    room -= taken;
    return real(3, "w", 1) == 1 && taken > 0 ? real(file, bytes, taken) : 0;
}
