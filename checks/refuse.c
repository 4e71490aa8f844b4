// An object for LD_PRELOAD, by which a program meets a want of memory. In the program's place it runs a child that is
// refused nothing, then one whose first request for memory is refused, one whose second is, and so on, until a child
// makes no such request; a new thread is a request too. A child whose request was refused has to end as the first one
// did, or with status 3, 'refused 40 Memory' on standard error and a beginning of the first one's output. Each has to
// free its blocks, but for those that joined threads keep, and to leave no thread.
// In the end it writes what the first child wrote, and ends as that did; where another child ended wrongly it writes
// what that one wrote, and ends with status 99. Descriptor 3 gets a line for each refused request: standard error's
// first, or 'answered', or 'answered with a thread less'. Descriptor 4, where it is open, is a file of the sizes of
// another run's requests, or an empty one, which gets this run's: the most requests in a row that both have aren't
// refused anew, if they are many.
#define _GNU_SOURCE
#include <dirent.h>
#include <dlfcn.h>
#include <errno.h>
#include <pthread.h>
#include <stdatomic.h>
#include <stdint.h>
#include <stdio.h>
#include <stdlib.h>
#include <string.h>
#include <sys/mman.h>
#include <sys/syscall.h>
#include <sys/wait.h>
#include <unistd.h>

enum { WRONG = 99, NO_MEMORY = 3, SECONDS = 600, TURNS = 600000, ROOM = 1 << 20, SIZES = 1 << 16, MANY = 64 };

// The C library's own.
extern void *__libc_malloc(size_t size);
extern void *__libc_calloc(size_t count, size_t size);
extern void *__libc_realloc(void *block, size_t size);
extern void *__libc_memalign(size_t alignment, size_t size);
extern void __libc_free(void *block);

// What a child tells: how many requests it made, how many of them were refused, how many blocks it holds at its end,
// how many threads it made, how many of them are left, and that it told so.
struct counts {
    atomic_long requests, refused, held, made;
    long left, told;
};

// How a child ended, and what it wrote.
struct end {
    int status;
    long made;
    char out[ROOM], err[ROOM];
};

static atomic_int counting;
static long number;
static struct counts *counts;
static size_t *sizes, others[SIZES];
static int out, err;
static struct end right, got;

typedef int create_thread(pthread_t *, const pthread_attr_t *, void *(*)(void *), void *);
static create_thread *create;

static long other_threads(void) {
    DIR *tasks = opendir("/proc/self/task");
    long count = -1;
    if (tasks == NULL) {
        return count;
    }
    for (struct dirent *task; (task = readdir(tasks)) != NULL;) {
        count += task->d_name[0] != '.';
    }
    closedir(tasks);
    return count;
}

// A thread that was joined may be listed for a moment more, and on a busy machine for longer.
__attribute__((destructor)) static void tell(void) {
    if (!counting) {
        return;
    }
    counting = 0;
    counts->left = counts->made == 0 ? 0 : other_threads();
    for (int turn = 0; counts->left != 0 && turn < TURNS; turn++) {
        usleep(1000);
        counts->left = other_threads();
    }
    counts->told = 1;
}

// A program ends by this, or by main.
void _exit(int status) {
    tell();
    syscall(SYS_exit_group, status);
    abort();
}

static int is_refused(size_t size) {
    if (!counting) {
        return 0;
    }
    long request = atomic_fetch_add(&counts->requests, 1) + 1;
    if (number == 0 && request <= SIZES) {
        sizes[request - 1] = size;
    }
    if (request != number) {
        return 0;
    }
    counts->refused++;
    errno = ENOMEM;
    return 1;
}

// What a request gave.
static void *given(void *block) {
    if (counting && block != NULL) {
        counts->held++;
    }
    return block;
}

void *malloc(size_t size) {
    return is_refused(size) ? NULL : given(__libc_malloc(size));
}

void *calloc(size_t count, size_t size) {
    return is_refused(count * size) ? NULL : given(__libc_calloc(count, size));
}

void *realloc(void *block, size_t size) {
    if (is_refused(size)) {
        return NULL;
    }
    return block == NULL ? given(__libc_realloc(block, size)) : __libc_realloc(block, size);
}

void *aligned_alloc(size_t alignment, size_t size) {
    return is_refused(size) ? NULL : given(__libc_memalign(alignment, size));
}

int posix_memalign(void **block, size_t alignment, size_t size) {
    *block = aligned_alloc(alignment, size);
    return *block == NULL ? ENOMEM : 0;
}

void free(void *block) {
    if (counting && block != NULL) {
        counts->held--;
    }
    __libc_free(block);
}

int pthread_create(pthread_t *thread, const pthread_attr_t *attributes, void *(*run)(void *), void *argument) {
    int error = is_refused(0) ? EAGAIN : create(thread, attributes, run, argument);
    counts->made += error == 0;
    return error;
}

// Takes the text of a file, which is empty again then.
static void take(int file, char *text) {
    ssize_t length = pread(file, text, ROOM, 0);
    if (length < 0 || length == ROOM || ftruncate(file, 0) != 0 || lseek(file, 0, SEEK_SET) != 0) {
        abort();
    }
    text[length] = 0;
}

// Whether this is the child, which has to run the program now. The parent waits for its end.
static int is_child(long refused, struct end *end) {
    memset(counts, 0, sizeof *counts);
    lseek(0, 0, SEEK_SET);
    pid_t child = fork();
    if (child == 0) {
        dup2(out, 1);
        dup2(err, 2);
        alarm(SECONDS);
        number = refused;
        counting = 1;
        return 1;
    }
    if (child < 0 || waitpid(child, &end->status, 0) != child) {
        abort();
    }
    end->made = counts->made;
    take(out, end->out);
    take(err, end->err);
    return 0;
}

static int ends_well(void) {
    return WIFEXITED(got.status) && counts->told && counts->left == 0 && (right.made != 0 || counts->held == 0);
}

static size_t first_line(const struct end *end) {
    return strcspn(end->err, "\n") + 1;
}

// An explanation behind the first line may lack something.
static int is_same(void) {
    return got.status == right.status && strcmp(got.out, right.out) == 0
        && strncmp(got.err, right.err, first_line(&right)) == 0;
}

static int lacks_memory(void) {
    static const char text[] = "refused 40 Memory\n";
    const char *place = strstr(got.err, text);
    return WEXITSTATUS(got.status) == NO_MEMORY && place != NULL && place + strlen(text) == got.err + first_line(&got)
        && strncmp(got.out, right.out, strlen(got.out)) == 0;
}

// How many requests in a row this run has at most in common with the other one, and the first of them.
static long shared(long count, long *first) {
    ssize_t length = read(4, others, sizeof others);
    long other = length / (long)sizeof *others, most = 0;
    count = count < SIZES ? count : SIZES;
    if (length == 0 && write(4, sizes, (size_t)count * sizeof *sizes) < 0) {
        abort();
    }
    for (long i = 0; i < count; i++) {
        for (long j = 0; j < other; j++) {
            long same = 0;
            while (i + same < count && j + same < other && sizes[i + same] == others[j + same]) {
                same++;
            }
            if (same > most) {
                most = same;
                *first = i + 1;
            }
        }
    }
    return most;
}

static _Noreturn void leave(const struct end *end, int status) {
    dprintf(1, "%s", end->out);
    dprintf(2, "%s", end->err);
    _exit(status);
}

// The loader calls it when the C library has begun; the requests behind it are the program's.
__attribute__((constructor)) static void begin(void) {
    create = (create_thread *)dlsym(RTLD_NEXT, "pthread_create");
    counts = mmap(NULL, sizeof *counts, PROT_READ | PROT_WRITE, MAP_SHARED | MAP_ANONYMOUS, -1, 0);
    sizes = mmap(NULL, sizeof others, PROT_READ | PROT_WRITE, MAP_SHARED | MAP_ANONYMOUS, -1, 0);
    out = memfd_create("out", 0);
    err = memfd_create("err", 0);
    if (is_child(0, &right)) {
        return;
    }
    long first = 0, many = shared(counts->requests, &first);
    for (long refused = 1;; refused++) {
        if (refused == first && many >= MANY) {
            refused += many;
        }
        if (is_child(refused, &got)) {
            return;
        }
        int is_last = counts->refused == 0, same = is_same();
        if (!ends_well() || !(same || (!is_last && lacks_memory()))) {
            dprintf(2, "request %ld: wait status %#x, %ld blocks held, %ld threads left\n", refused, got.status,
                counts->held, counts->left);
            leave(&got, WRONG);
        }
        if (is_last) {
            leave(&right, WEXITSTATUS(right.status));
        }
        if (same) {
            dprintf(3, "answered%s\n", got.made < right.made ? " with a thread less" : "");
        } else {
            dprintf(3, "%.*s", (int)first_line(&got), got.err);
        }
    }
}
