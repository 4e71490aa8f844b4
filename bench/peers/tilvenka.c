/* The library as two peers: one builds the map before it is asked, and the other goes by the registers. */
#include "../peer.h"
#include "tilvenka_pmp.h"

static tilvenka_pmp_unit mapped, unmapped;

static void write_to(tilvenka_pmp_unit *unit, const struct write *writes, size_t count) {
    for (size_t i = 0; i < count; i++)
        tilvenka_pmp_write(unit, writes[i].number, writes[i].value);
}

static void change_mapped(const struct write *writes, size_t count) {
    write_to(&mapped, writes, count);
    tilvenka_pmp_build(&mapped);
}

static void change_unmapped(const struct write *writes, size_t count) {
    write_to(&unmapped, writes, count);
}

static bool moves(struct write write, uint64_t *first, uint64_t *last) {
    return tilvenka_pmp_write_moved(&unmapped, write.number, write.value, first, last) & TILVENKA_PMP_MOVED;
}

static void prepare_mapped(const struct write *writes, size_t count) {
    tilvenka_pmp_reset(&mapped, ENTRIES);
    change_mapped(writes, count);
}

static void prepare_unmapped(const struct write *writes, size_t count) {
    tilvenka_pmp_reset(&unmapped, ENTRIES);
    change_unmapped(writes, count);
}

static void read(const struct write *writes, size_t count, uint64_t *values) {
    for (size_t i = 0; i < count; i++)
        tilvenka_pmp_read(&unmapped, writes[i].number, &values[i]);
}

static inline unsigned decide_mapped(struct request it) {
    return tilvenka_pmp_decide(&mapped, it.mode, it.kind, it.start, it.length);
}

static inline unsigned decide_unmapped(struct request it) {
    return tilvenka_pmp_decide_by_registers(&unmapped, it.mode, it.kind, it.start, it.length);
}

static inline unsigned rights_mapped(struct request it) {
    return tilvenka_pmp_rights(&mapped, it.mode, it.start & ~UINT64_C(4095), 4096);
}

static inline unsigned rights_unmapped(struct request it) {
    return tilvenka_pmp_rights(&unmapped, it.mode, it.start & ~UINT64_C(4095), 4096);
}

static unsigned run_mapped(unsigned mode, uint64_t address, uint64_t *first, uint64_t *last) {
    return tilvenka_pmp_run(&mapped, mode, address, first, last);
}

static unsigned run_unmapped(unsigned mode, uint64_t address, uint64_t *first, uint64_t *last) {
    return tilvenka_pmp_run(&unmapped, mode, address, first, last);
}

ASK_BY(ask_mapped, decide_mapped)
ASK_BY(ask_unmapped, decide_unmapped)
ASK_BY(fill_mapped, rights_mapped)
ASK_BY(fill_unmapped, rights_unmapped)

static void build(size_t count) {
    for (size_t i = 0; i < count; i++) {
        mapped.map.runs = 0;
        tilvenka_pmp_build(&mapped);
    }
}

/* The number that the peers answer by. */
static unsigned number_of(unsigned answer) {
    if (tilvenka_pmp_is_no_access(answer))
        return NO_ACCESS;
    return answer % TILVENKA_PMP_FAULT + (tilvenka_pmp_is_allowed(answer) ? ALLOWED : 0);
}

const struct peer tilvenka_map = {
    .name = "map",
    .number_of = number_of,
    .prepare = prepare_mapped,
    .change = change_mapped,
    .decide = ask_mapped,
    .fill = fill_mapped,
    .run = run_mapped,
    .build = build,
};

const struct peer tilvenka_registers = {
    .name = "registers",
    .number_of = number_of,
    .prepare = prepare_unmapped,
    .change = change_unmapped,
    .moves = moves,
    .write = change_unmapped,
    .read = read,
    .decide = ask_unmapped,
    .fill = fill_unmapped,
    .run = run_unmapped,
};
