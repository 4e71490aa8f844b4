/* The Spike-like unit as a peer. */
#include "../spike_like.h"

static struct spike_like unit;

static void write(const struct write *writes, size_t count) {
    for (size_t i = 0; i < count; i++)
        spike_like_write(&unit, writes[i].number, writes[i].value);
}

static void prepare(const struct write *writes, size_t count) {
    spike_like_reset(&unit, ENTRIES);
    write(writes, count);
}

/* As Spike's, but that a write which changes nothing flushes nothing. */
static bool moves(struct write write, uint64_t *first, uint64_t *last) {
    uint64_t before = spike_like_read(&unit, write.number);
    *first = 0;
    *last = LAST_BYTE;
    spike_like_write(&unit, write.number, write.value);
    return spike_like_read(&unit, write.number) != before;
}

static void read(const struct write *writes, size_t count, uint64_t *values) {
    for (size_t i = 0; i < count; i++)
        values[i] = spike_like_read(&unit, writes[i].number);
}

static inline unsigned answer_to(struct request it) {
    return spike_like_decide(&unit, it.mode, it.kind, it.start, it.length);
}

static inline unsigned rights_of(struct request it) {
    return spike_like_rights(&unit, it.mode, it.start & ~UINT64_C(4095), 4096);
}

ASK_BY(decide, answer_to)
ASK_BY(fill, rights_of)

static unsigned number_of(unsigned answer) {
    return answer;
}

const struct peer spike_like = {
    .name = "spike",
    .number_of = number_of,
    .prepare = prepare,
    .change = write,
    .moves = moves,
    .write = write,
    .read = read,
    .decide = decide,
    .fill = fill,
};
