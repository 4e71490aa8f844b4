/* The library as an emulator with a TLB calls it, in five ways. */
#include "../peer.h"
#include "tilvenka_pmp.h"

static tilvenka_pmp_unit unit;
/* Since the last change. */
static uint64_t questions;

static void prepare(const struct write *writes, size_t count) {
    tilvenka_pmp_reset(&unit, ENTRIES);
    questions = 0;
    for (size_t i = 0; i < count; i++)
        tilvenka_pmp_write(&unit, writes[i].number, writes[i].value);
}

static void read(const struct write *writes, size_t count, uint64_t *values) {
    for (size_t i = 0; i < count; i++)
        tilvenka_pmp_read(&unit, writes[i].number, &values[i]);
}

static bool moves_all(struct write write, uint64_t *first, uint64_t *last) {
    *first = 0;
    *last = LAST_BYTE;
    return tilvenka_pmp_write(&unit, write.number, write.value) & TILVENKA_PMP_CHANGED;
}

static bool moves_some(struct write write, uint64_t *first, uint64_t *last) {
    uint32_t status = tilvenka_pmp_write_moved(&unit, write.number, write.value, first, last);
    if (status & TILVENKA_PMP_CHANGED)
        questions = 0;
    return status & TILVENKA_PMP_MOVED;
}

static inline unsigned answer_to(struct request it) {
    return tilvenka_pmp_decide(&unit, it.mode, it.kind, it.start, it.length);
}

static inline unsigned rights_of(struct request it) {
    return tilvenka_pmp_rights(&unit, it.mode, it.start, it.length);
}

static inline unsigned settle_and_answer(struct request it) {
    tilvenka_pmp_settle(&unit, ++questions);
    return answer_to(it);
}

static inline unsigned settle_and_fill(struct request it) {
    tilvenka_pmp_settle(&unit, ++questions);
    return rights_of(it);
}

static inline unsigned build_and_answer(struct request it) {
    tilvenka_pmp_build(&unit);
    return answer_to(it);
}

static inline unsigned build_and_fill(struct request it) {
    tilvenka_pmp_build(&unit);
    return rights_of(it);
}

static unsigned settle_and_run(unsigned mode, uint64_t address, uint64_t *first, uint64_t *last) {
    tilvenka_pmp_settle(&unit, ++questions);
    return tilvenka_pmp_run_rights(tilvenka_pmp_run(&unit, mode, address, first, last));
}

ASK_BY(decide, answer_to)
ASK_BY(fill, rights_of)
ASK_BY(decide_settled, settle_and_answer)
ASK_BY(fill_settled, settle_and_fill)
ASK_BY(decide_built, build_and_answer)
ASK_BY(fill_built, build_and_fill)

static unsigned number_of(unsigned answer) {
    return tilvenka_pmp_is_allowed(answer) ? ALLOWED : 0;
}

#define WAY(NAME, MOVES, DECIDE, FILL, RUN)                                                                 \
    const struct peer NAME = {.name = #NAME, .number_of = number_of, .prepare = prepare, .moves = MOVES,    \
                              .read = read, .decide = DECIDE, .fill = FILL, .run = RUN}

WAY(with_runs, moves_some, decide_settled, fill_settled, settle_and_run);
WAY(settled, moves_some, decide_settled, fill_settled, NULL);
WAY(unbuilt, moves_some, decide, fill, NULL);
WAY(all_moved, moves_all, decide, fill, NULL);
WAY(built, moves_all, decide_built, fill_built, NULL);
