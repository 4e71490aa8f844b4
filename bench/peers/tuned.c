/* The unit tuned by hand as a peer. */
#include "../tuned.h"

static struct tuned unit;

static void write(const struct write *writes, size_t count) {
    uint64_t first, last;
    for (size_t i = 0; i < count; i++)
        tuned_write(&unit, writes[i].number, writes[i].value, &first, &last);
}

static bool moves(struct write write, uint64_t *first, uint64_t *last) {
    return tuned_write(&unit, write.number, write.value, first, last) & 8;
}

static void prepare(const struct write *writes, size_t count) {
    tuned_reset(&unit, ENTRIES);
    write(writes, count);
}

static void read(const struct write *writes, size_t count, uint64_t *values) {
    for (size_t i = 0; i < count; i++)
        values[i] = tuned_read(&unit, writes[i].number);
}

static inline unsigned answer_to(struct request it) {
    return tuned_decide(&unit, it.mode, it.kind, it.start, it.length);
}

static inline unsigned rights_of(struct request it) {
    return tuned_rights(&unit, it.mode, it.start & ~UINT64_C(4095), 4096);
}

static unsigned run(unsigned mode, uint64_t address, uint64_t *first, uint64_t *last) {
    return tuned_run(&unit, mode, address, first, last);
}

static unsigned number_of(unsigned answer) {
    return answer;
}

ASK_BY(decide, answer_to)
ASK_BY(fill, rights_of)

const struct peer tuned = {
    .name = "tuned",
    .number_of = number_of,
    .prepare = prepare,
    .change = write,
    .moves = moves,
    .write = write,
    .read = read,
    .decide = decide,
    .fill = fill,
    .run = run,
};
