// hostile PROGRAM check SCRIPT, hostile PROGRAM audit SCRIPT TRACE, hostile PROGRAM policy SCRIPT POLICY, hostile PROGRAM
// diff OLD NEW, each of these three with an option before SCRIPT where one is given: runs the program on the last text
// with each byte changed, in three of nine ways that take turns: to one of eight others, or the text ends before it. It
// has to answer or to refuse with a numbered line, behind which an explanation stands exactly with the option --explain,
// and not both. The last line is how many texts were answered and how many refused.
#define _GNU_SOURCE
#include <fcntl.h>
#include <spawn.h>
#include <stdio.h>
#include <stdlib.h>
#include <string.h>
#include <sys/mman.h>
#include <sys/wait.h>
#include <unistd.h>

enum { WORKERS = 4, TURNS = 3, MOST = 65536 };

static const char CHANGES[] = {0x00, '\n', '\r', ',', '"', '#', 0x7f, (char)0xff};

extern char **environ;

static void stop(const char *what) {
    perror(what);
    exit(2);
}

// What the program left of a run.
struct run {
    int status;
    char out[MOST], err[MOST];
};

static void take(int file, char *text) {
    ssize_t length = pread(file, text, MOST - 1, 0);
    if (length < 0 || ftruncate(file, 0) != 0 || lseek(file, 0, SEEK_SET) != 0) {
        stop("output");
    }
    text[length] = 0;
}

static void run(char **words, int out, int err, struct run *run) {
    posix_spawn_file_actions_t actions;
    posix_spawn_file_actions_init(&actions);
    posix_spawn_file_actions_adddup2(&actions, out, 1);
    posix_spawn_file_actions_adddup2(&actions, err, 2);
    pid_t child;
    int status;
    if (posix_spawn(&child, words[0], &actions, NULL, words, environ) != 0 || waitpid(child, &status, 0) != child) {
        stop("program");
    }
    posix_spawn_file_actions_destroy(&actions);
    run->status = WIFEXITED(status) ? WEXITSTATUS(status) : -1;
    take(out, run->out);
    take(err, run->err);
}

// Whether the text is a line's end and lines of ASCII signs, the last two with what was wanted and what to do.
static int is_explanation(const char *text) {
    const char *wanted = strstr(text, "\nwanted: ");
    const char *remedy = wanted == NULL ? NULL : strchr(wanted + 1, '\n');
    for (const char *sign = text; *sign != 0; sign++) {
        if ((*sign < ' ' && *sign != '\n') || *sign > '~') {
            return 0;
        }
    }
    return remedy != NULL && strncmp(remedy, "\nto do: ", 8) == 0 && strchr(remedy + 1, '\n') == strrchr(text, '\n') &&
           text[strlen(text) - 1] == '\n';
}

// Whether the text is one line that a refusal is told by: 'pmp: [script line N: |trace row N: |new line N: ]refused N
// NAME'.
static int is_refusal(const char *text, int is_explained) {
    unsigned long place;
    unsigned number;
    char name[32];
    int end = 0;
    if (sscanf(text, "pmp: script line %lu: refused %u %31[A-Za-z]%n", &place, &number, name, &end) != 3 &&
        sscanf(text, "pmp: trace row %lu: refused %u %31[A-Za-z]%n", &place, &number, name, &end) != 3 &&
        sscanf(text, "pmp: policy row %lu: refused %u %31[A-Za-z]%n", &place, &number, name, &end) != 3 &&
        sscanf(text, "pmp: new line %lu: refused %u %31[A-Za-z]%n", &place, &number, name, &end) != 3 &&
        sscanf(text, "pmp: refused %u %31[A-Za-z]%n", &number, name, &end) != 2) {
        return 0;
    }
    return is_explained ? is_explanation(text + end) : strcmp(text + end, "\n") == 0;
}

static int is_right(const struct run *run, int may_be_silent, int is_explained) {
    if (run->status == 2) {
        return run->out[0] == 0 && is_refusal(run->err, is_explained);
    }
    return (run->status == 0 || run->status == 1) && run->err[0] == 0 && (may_be_silent || run->out[0] != 0);
}

// The texts of one worker. Each text is a place and a change: the last of nine changes cuts the text there.
static int work(int worker, char **words, int last, const char *text, size_t length, long counts[3]) {
    int file = memfd_create("text", 0), out = memfd_create("out", 0), err = memfd_create("err", 0);
    static char path[64], changed[MOST];
    static struct run left;
    if (file < 0 || out < 0 || err < 0) {
        stop("memfd_create");
    }
    snprintf(path, sizeof path, "/proc/%d/fd/%d", (int)getpid(), file);
    words[last] = path;
    for (size_t text_number = (size_t)worker; text_number < length * TURNS; text_number += WORKERS) {
        size_t place = text_number / TURNS, change = place % TURNS + text_number % TURNS * TURNS;
        size_t size = change < 8 ? length : place;
        memcpy(changed, text, length);
        if (change < 8) {
            changed[place] = CHANGES[change];
        }
        if (ftruncate(file, 0) != 0 || pwrite(file, changed, size, 0) != (ssize_t)size) {
            stop("text");
        }
        run(words, out, err, &left);
        int right = is_right(&left, last > 2, strcmp(words[2], "--explain") == 0);
        if (!right) {
            printf("failed: byte %zu, change %zu: status %d, '%s', '%s'\n", place, change, left.status, left.out,
                   left.err);
        }
        counts[right ? left.status == 2 : 2]++;
    }
    return 0;
}

int main(int count, char **arguments) {
    if (count < 4 || count > 6) {
        fprintf(stderr, "usage: hostile PROGRAM check SCRIPT | hostile PROGRAM audit|policy|diff [OPTION] SCRIPT TEXT\n");
        return 2;
    }
    char *check[] = {arguments[1], "check", arguments[3], "U", "load", "0x80000000", "4", NULL};
    char **words = count > 4 ? arguments + 1 : check;
    char text[MOST];
    FILE *source = fopen(arguments[count - 1], "rb");
    if (source == NULL) {
        stop(arguments[count - 1]);
    }
    size_t length = fread(text, 1, sizeof text, source);
    fclose(source);
    long(*counts)[3] = mmap(NULL, sizeof(long[WORKERS][3]), PROT_READ | PROT_WRITE, MAP_SHARED | MAP_ANONYMOUS, -1, 0);
    if (counts == MAP_FAILED || length == 0 || length == sizeof text) {
        stop("length");
    }
    for (int worker = 0; worker < WORKERS; worker++) {
        pid_t child = fork();
        if (child == 0) {
            return work(worker, words, count > 4 ? count - 2 : 2, text, length, counts[worker]);
        }
        if (child < 0) {
            stop("fork");
        }
    }
    int status, well = 1;
    while (wait(&status) > 0) {
        well &= status == 0;
    }
    long sums[3] = {0, 0, 0};
    for (int worker = 0; worker < WORKERS; worker++) {
        for (int kind = 0; kind < 3; kind++) {
            sums[kind] += counts[worker][kind];
        }
    }
    printf("%s: %ld answered, %ld refused, %ld failed\n", arguments[count - 1], sums[0], sums[1], sums[2]);
    return !well || sums[2] != 0 || sums[0] + sums[1] != (long)length * TURNS;
}
