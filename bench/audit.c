/* Times `pmp audit` on a trace of the most bytes, with and without checkers, and then `pmp audit --long` on one of 1 GiB
   by one, two and four jobs, each beside two audits of the same files in C, by a Spike-like unit: a plain one by fgets,
   sscanf and printf, and one that is tuned, which has the whole trace in memory and reads and writes its own numbers. */
#define _GNU_SOURCE
#include "regions.h"
#include "spike_like.h"
#include <fcntl.h>
#include <inttypes.h>
#include <stdio.h>
#include <stdlib.h>
#include <string.h>
#include <sys/resource.h>
#include <sys/stat.h>
#include <sys/wait.h>
#include <time.h>
#include <unistd.h>

enum { MAX_TRACE = 16777216, LONG_TRACE = 1073741824, PUBLICATIONS = 10, ROUNDS = 7, LONG_ROUNDS = 3, MAX_EVENTS = 64 };

#define SCRIPT "bench/out/audit.pmp"
#define TRACE "bench/out/audit.csv"
#define PROVED_REPORT "bench/out/audit.proved"
#define REPORT_OF_1 PROVED_REPORT "1"
#define REPORT_OF_2 PROVED_REPORT "2"
#define REPORT_OF_4 PROVED_REPORT "4"
#define PLAIN_REPORT "bench/out/audit.plain"
#define TUNED_REPORT "bench/out/audit.tuned"

static void *checked(void *pointer, const char *what) {
    if (pointer == NULL) {
        perror(what);
        exit(2);
    }
    return pointer;
}

/* What both are given. */

/* Each publication sets one more region of 4 KiB, 64 KiB apart, readable, writable or both. */
static void write_script(void) {
    FILE *file = checked(fopen(SCRIPT, "w"), SCRIPT);
    uint64_t low = 0, high = 0;
    fprintf(file, "pmp 1\n");
    for (unsigned i = 0; i < PUBLICATIONS; i++) {
        uint64_t byte = 0x19 + 2 * (i % 2);
        *(i < 8 ? &low : &high) |= byte << (8 * (i % 8));
        fprintf(file, "write pmpaddr%u 0x%" PRIx64 "\n", i, napot_of_page(region(i)));
        fprintf(file, "write pmpcfg%u 0x%" PRIx64 "\npublish\n", i < 8 ? 0 : 2, i < 8 ? low : high);
    }
    fclose(file);
}

/* As many rows as fit, in order of their publications; most hit a region. */
static size_t write_trace(size_t most) {
    static const char *modes = "MSU", *kinds[3] = {"fetch", "load", "store"};
    FILE *file = checked(fopen(TRACE, "w"), TRACE);
    size_t size = fprintf(file, "after,mode,kind,start,length\n"), rows = 0;
    for (;;) {
        char row[64];
        unsigned after = size * (PUBLICATIONS + 1) / most;
        uint64_t start = region(below(PUBLICATIONS)) + below(0x1100);
        int length = snprintf(row, sizeof row, "%u,%c,%s,0x%" PRIx64 ",8\n", after, modes[below(3)], kinds[below(3)], start);
        if (size + length >= most)
            break;
        fputs(row, file);
        size += length;
        rows++;
    }
    fclose(file);
    return rows;
}

/* The audits in C. */

static char *read_all(const char *path, size_t *size) {
    FILE *file = checked(fopen(path, "r"), path);
    struct stat about;
    fstat(fileno(file), &about);
    char *bytes = checked(malloc(about.st_size + 1), "malloc");
    *size = fread(bytes, 1, about.st_size, file);
    bytes[*size] = '\0';
    fclose(file);
    return bytes;
}

struct publication {
    size_t count;
    struct write writes[MAX_EVENTS];
};

static size_t read_publications(char *text, struct publication *publications) {
    size_t done = 0;
    for (char *line = strtok(text, "\n"); line != NULL; line = strtok(NULL, "\n")) {
        unsigned number;
        uint64_t value;
        struct publication *batch = &publications[done];
        if (sscanf(line, "write pmpaddr%u 0x%" SCNx64, &number, &value) == 2)
            batch->writes[batch->count++] = (struct write){PMPADDR0 + number, value};
        else if (sscanf(line, "write pmpcfg%u 0x%" SCNx64, &number, &value) == 2)
            batch->writes[batch->count++] = (struct write){PMPCFG0 + number, value};
        else if (strcmp(line, "publish") == 0)
            done++;
    }
    return done;
}

/* A number in decimal, or in hexadecimal after 0x, and the place behind the byte that ends it. */
static uint64_t read_number(char **at) {
    uint64_t number = 0;
    char *here = *at;
    if (here[0] == '0' && here[1] == 'x') {
        for (here += 2; *here != ',' && *here != '\n'; here++)
            number = number << 4 | (*here <= '9' ? *here - '0' : (*here | 32) - 'a' + 10);
    } else {
        for (; *here != ',' && *here != '\n'; here++)
            number = 10 * number + (*here - '0');
    }
    *at = here + 1;
    return number;
}

static struct request read_access(char **at) {
    struct request request;
    request.mode = **at == 'M' ? MACHINE : **at == 'S' ? SUPERVISOR : USER;
    *at += 2;
    request.kind = **at == 'f' ? FETCH : **at == 'l' ? LOAD : STORE;
    *at = strchr(*at, ',') + 1;
    request.start = read_number(at);
    request.length = read_number(at);
    return request;
}

/* The report, which is written when it is whole, as the proved one is. */
static char *report, *report_end;

static void add_text(const char *text) {
    while (*text != '\0')
        *report_end++ = *text++;
}

static void add_number(uint64_t number) {
    char digits[20], *at = digits + sizeof digits;
    do {
        *--at = '0' + number % 10;
        number /= 10;
    } while (number != 0);
    while (at < digits + sizeof digits)
        *report_end++ = *at++;
}

static void add_answer(size_t row, unsigned answer, uint8_t kind) {
    static const char *const faults[3] = {",fault,1,", ",fault,5,", ",fault,7,"};
    add_number(row);
    add_text(answer & ALLOWED ? ",allow,," : faults[kind]);
    add_text(answer & SPLIT ? "split," : answer & NO_MATCH ? "none," : "rule,");
    if (!(answer & NO_MATCH))
        add_number(answer & 255);
    *report_end++ = '\n';
}

static unsigned answer_to(const struct spike_like *unit, const struct request *it) {
    return spike_like_decide(unit, it->mode, it->kind, it->start, it->length);
}

static struct publication publications[PUBLICATIONS + 1];

/* Does publications until so many are done. */
static void publish(struct spike_like *unit, size_t *done, size_t after) {
    for (; *done < after; (*done)++)
        for (size_t i = 0; i < publications[*done].count; i++)
            spike_like_write(unit, publications[*done].writes[i].number, publications[*done].writes[i].value);
}

static void plain_audit(void) {
    static const char *const codes[3] = {"1", "5", "7"};
    size_t size, row = 0, done = 0, after;
    struct spike_like unit;
    char line[64], mode, kind[8];
    uint64_t start, length;
    read_publications(read_all(SCRIPT, &size), publications);
    FILE *file = checked(fopen(TRACE, "r"), TRACE), *output = checked(fopen(PLAIN_REPORT, "w"), PLAIN_REPORT);
    spike_like_reset(&unit, 16);
    checked(fgets(line, sizeof line, file), TRACE);
    while (fgets(line, sizeof line, file) != NULL) {
        if (sscanf(line, "%zu,%c,%7[a-z],0x%" SCNx64 ",%" SCNu64, &after, &mode, kind, &start, &length) != 5)
            exit(2);
        publish(&unit, &done, after);
        struct request request = {
            .mode = mode == 'M' ? MACHINE : mode == 'S' ? SUPERVISOR : USER,
            .kind = *kind == 'f' ? FETCH : *kind == 'l' ? LOAD : STORE,
            .start = start,
            .length = length,
        };
        unsigned answer = answer_to(&unit, &request), allowed = answer & ALLOWED;
        fprintf(output, "%zu,%s,%s,%s,", ++row, allowed ? "allow" : "fault", allowed ? "" : codes[request.kind],
                answer & SPLIT ? "split" : answer & NO_MATCH ? "none" : "rule");
        if (answer & NO_MATCH)
            fputc('\n', output);
        else
            fprintf(output, "%u\n", answer & 255);
    }
    fclose(file);
    fclose(output);
}

static void tuned_audit(void) {
    size_t size, row = 0, done = 0;
    struct spike_like unit;
    read_publications(read_all(SCRIPT, &size), publications);
    char *text = read_all(TRACE, &size), *end = text + size;
    /* No row of a report is longer than twice its row of the trace. */
    report = report_end = checked(malloc(2 * size), "malloc");
    spike_like_reset(&unit, 16);
    for (char *at = strchr(text, '\n') + 1; at < end;) {
        uint64_t after = read_number(&at);
        struct request request = read_access(&at);
        publish(&unit, &done, after);
        add_answer(++row, answer_to(&unit, &request), request.kind);
    }
    FILE *file = checked(fopen(TUNED_REPORT, "w"), TUNED_REPORT);
    fwrite(report, 1, report_end - report, file);
    fclose(file);
}

/* The runs. */

struct run {
    double seconds;
    double mebibytes;
};

static double seconds(void) {
    struct timespec time;
    clock_gettime(CLOCK_MONOTONIC, &time);
    return time.tv_sec + 1e-9 * time.tv_nsec;
}

/* Runs a command with its output in a file. */
static struct run run(char *const words[], const char *output) {
    double before = seconds();
    struct rusage usage;
    int status;
    pid_t child = fork();
    if (child == 0) {
        int file = open(output, O_WRONLY | O_CREAT | O_TRUNC, 0644);
        if (file >= 0 && dup2(file, STDOUT_FILENO) >= 0)
            execv(words[0], words);
        _exit(127);
    }
    if (wait4(child, &status, 0, &usage) != child || !WIFEXITED(status) || WEXITSTATUS(status) > 1) {
        fprintf(stderr, "%s failed\n", words[0]);
        exit(2);
    }
    return (struct run){seconds() - before, usage.ru_maxrss / 1024.0};
}

/* What is timed: an audit by a command, its report, and its best run. */
struct subject {
    const char *name;
    char *words[8];
    const char *output;
    const char *report;
    struct run best;
};

/* Each round runs all of them in turn, so that a busy machine slows none alone. Each writes a new file: emptying one of
   many pages takes as long as writing it. */
static void run_rounds(struct subject *subjects, size_t count, unsigned rounds) {
    for (size_t i = 0; i < count; i++)
        subjects[i].best = (struct run){1e18, 0};
    for (unsigned round = 0; round < rounds; round++) {
        for (size_t i = 0; i < count; i++) {
            remove(subjects[i].report);
            struct run one = run(subjects[i].words, subjects[i].output), *best = &subjects[i].best;
            if (one.seconds < best->seconds)
                best->seconds = one.seconds;
            if (one.mebibytes > best->mebibytes)
                best->mebibytes = one.mebibytes;
        }
    }
}

/* Those in C write their reports by themselves, and nothing to their output. */
static size_t compare(const struct subject *subjects, size_t count) {
    size_t wanted_size, size;
    char *wanted = read_all(subjects[0].report, &wanted_size);
    for (size_t i = 1; i < count; i++) {
        char *report = read_all(subjects[i].report, &size);
        if (size != wanted_size || memcmp(report, wanted, size) != 0) {
            fprintf(stderr, "the reports of %s and %s differ\n", subjects[i].name, subjects[0].name);
            exit(1);
        }
        free(report);
    }
    free(wanted);
    return wanted_size;
}

static void tell(const struct subject *subject, double tuned, size_t rows, size_t most) {
    struct run run = subject->best;
    printf("%-12s %6.3f s %6.2f times tuned C %12.0f rows/s %7.1f MiB, %.2f times the trace\n", subject->name,
           run.seconds, run.seconds / tuned, rows / run.seconds, run.mebibytes, run.mebibytes * 1048576.0 / most);
}

/* Times the subjects, of which tuned C is the first, on a trace of just under so many bytes. */
static void time_on(size_t most, struct subject *subjects, size_t count, unsigned rounds) {
    size_t rows = write_trace(most);
    run_rounds(subjects, count, rounds);
    size_t size = compare(subjects, count);
    printf("%zu rows, %d publications, the same report of %zu bytes\n", rows, PUBLICATIONS, size);
    for (size_t i = 0; i < count; i++)
        tell(&subjects[i], subjects[0].best.seconds, rows, most);
}

int main(int count, char **words) {
    if (count != 2) {
        fprintf(stderr, "usage: audit PROGRAM, audit plain, or audit tuned\n");
        return 2;
    }
    if (strcmp(words[1], "plain") == 0) {
        plain_audit();
        return 0;
    }
    if (strcmp(words[1], "tuned") == 0) {
        tuned_audit();
        return 0;
    }
    char *pmp = words[1];
    struct subject whole[] = {
        {"tuned C", {words[0], "tuned"}, "/dev/null", TUNED_REPORT, {0, 0}},
        {"plain C", {words[0], "plain"}, "/dev/null", PLAIN_REPORT, {0, 0}},
        {"proved", {pmp, "audit", SCRIPT, TRACE}, PROVED_REPORT, PROVED_REPORT, {0, 0}},
        {"1 checker", {pmp, "audit", SCRIPT, TRACE, "--checkers", "1"}, REPORT_OF_1, REPORT_OF_1, {0, 0}},
        {"2 checkers", {pmp, "audit", SCRIPT, TRACE, "--checkers", "2"}, REPORT_OF_2, REPORT_OF_2, {0, 0}},
        {"4 checkers", {pmp, "audit", SCRIPT, TRACE, "--checkers", "4"}, REPORT_OF_4, REPORT_OF_4, {0, 0}},
    };
    struct subject pieces[] = {
        {"tuned C", {words[0], "tuned"}, "/dev/null", TUNED_REPORT, {0, 0}},
        {"plain C", {words[0], "plain"}, "/dev/null", PLAIN_REPORT, {0, 0}},
        {"1 job", {pmp, "audit", "--long", SCRIPT, TRACE, "--jobs", "1"}, REPORT_OF_1, REPORT_OF_1, {0, 0}},
        {"2 jobs", {pmp, "audit", "--long", SCRIPT, TRACE, "--jobs", "2"}, REPORT_OF_2, REPORT_OF_2, {0, 0}},
        {"4 jobs", {pmp, "audit", "--long", SCRIPT, TRACE, "--jobs", "4"}, REPORT_OF_4, REPORT_OF_4, {0, 0}},
    };
    write_script();
    time_on(MAX_TRACE, whole, sizeof whole / sizeof *whole, ROUNDS);
    time_on(LONG_TRACE, pieces, sizeof pieces / sizeof *pieces, LONG_ROUNDS);
    return 0;
}
