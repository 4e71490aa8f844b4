// histories: compares units of RV32 and RV64 with the model of checks/model.h over random writes on random harts: what
// a write comes to and moves, what registers read, what is decided, and snapshots; and an RV32 unit with the RV64 one
// that was written the same bytes. The last line is 'N passed, M failed'.
#include "model.h"

enum { HISTORIES = 32000, ROUNDS = 8, WRITES = 8, ACCESSES = 9, BESIDE = 4, PAIRS = 3000 };

static const uint32_t MODES[3] = {U, S, M};

// What was tried, for RV64 and RV32 each.
static struct {
    unsigned writes, reads, decisions, moves, beside, snapshots, wide, odd, refused;
    unsigned reasons[17], splits[2], rules[2], unmatched[2], long_ones; // the bits of reasons; allowed or not
} tried[2];

// The bytes from `first` to `last`, or none where `first` is above `last`.
struct span {
    uint64_t first, last;
};

static const struct span EMPTY = {1, 0};

static bool is_same_span(struct span one, struct span other) {
    return (one.first > one.last && other.first > other.last) || (one.first == other.first && one.last == other.last);
}

static struct span joined(struct span one, struct span other) {
    if (one.first > one.last)
        return other;
    if (other.first > other.last)
        return one;
    return (struct span){one.first < other.first ? one.first : other.first,
                         one.last > other.last ? one.last : other.last};
}

// What an entry matches.
static struct span bytes_of(const struct model *model, unsigned entry) {
    uint64_t address = read_address(model, entry), ones = 0, first, end;
    uint64_t low = entry == 0 ? 0 : model->addresses[entry - 1];
    switch (matching_of(model, entry)) {
        case OFF: return EMPTY;
        case TOR: first = 4 * (low >> model->g << model->g), end = 4 * address; break;
        case NA4: first = 4 * address, end = first + 4; break;
        default:
            while (address >> ones & 1)
                ones++;
            first = address >> (ones + 1) << (ones + 3);
            end = first + (UINT64_C(8) << ones);
    }
    end = end < END ? end : END;
    return first < end ? (struct span){first, end - 1} : EMPTY;
}

// From the lowest to the highest byte of entries that changed, before and after; all where mseccfg did.
static struct span moved_between(const struct model *before, const struct model *after) {
    struct span moved = EMPTY;
    if (before->mseccfg != after->mseccfg)
        return (struct span){0, END - 1};
    for (unsigned entry = 0; entry < before->entries; entry++) {
        struct span was = bytes_of(before, entry), is = bytes_of(after, entry);
        if (!is_same_span(was, is) || before->configurations[entry] != after->configurations[entry])
            moved = joined(moved, joined(was, is));
    }
    return moved;
}

// ---- random harts, writes and accesses

static struct model next_model(unsigned xlen) {
    struct model model = {xlen, next_random() % 65, next_random() % 3 ? 0 : next_random() % 11, 0,
                          next_random() % 4 != 0, {0}, {0}, 0};
    model.bits = xlen == 32 ? 32 + next_random() % 3 : 34 + next_random() % 23;
    switch (next_random() % 4) {
        case 0: model.entries = next_random() % 2 ? 16 : 64, model.bits = xlen == 32 ? 34 : 56; break;
        case 1: model.entries %= 9; break;
    }
    return model;
}

// A number that is often that of a register of an entry that the hart has; others lie beside, or have a bit more.
static uint32_t next_csr(const struct model *model) {
    unsigned entry = next_random() % (model->entries + 1) % 64;
    switch (next_random() % 32) {
        case 0: return MSECCFGH + next_random() % 3 - 1;
        case 1: return PMPCFG0 - 4 + next_random() % 0x58;
        case 2: return PMPCFG0 + next_random() % 16;
        case 3: return (next_random() % 2 ? MSECCFG : PMPADDR0) + (UINT32_C(1) << next_random() % 32);
        case 4: case 5: return MSECCFG;
        case 6: case 7: case 8: case 9: case 10: case 11: case 12: case 13: case 14: case 15: case 16:
            return PMPCFG0 + entry / (model->xlen / 8) * (model->xlen / 32);
        default: return PMPADDR0 + entry;
    }
}

// Bytes with few rights and locks, one of which may stay as it is.
static uint64_t next_bytes(const struct model *model, unsigned number) {
    uint64_t mask = 0, value = next_random() & UINT64_C(0x1f1f1f1f1f1f1f1f) & next_random();
    value |= next_random() % 16 == 0 ? UINT64_C(0x80) << next_random() % 8 * 8 : 0;
    if (next_random() % 16 == 0)
        return next_random();
    for (unsigned place = 0; place < 8; place++)
        mask |= next_random() % 3 ? UINT64_C(0xff) << 8 * place : 0;
    return (value & ~mask) | (read_configurations(model, number) & mask);
}

// A number of words near others, at the lowest or the highest addresses, or of which a power of two is made.
static uint64_t next_words(const struct model *model) {
    uint64_t near = next_random() % 512 << next_random() % 3 * 6, most = (UINT64_C(1) << (model->bits - 2)) - 1;
    switch (next_random() % 8) {
        case 0: return most - near;
        case 1: return near | ((UINT64_C(1) << next_random() % (model->bits - 1)) - 1);
        case 2: return next_random() & most;
        default: return near;
    }
}

// Some values have one bit more, which may lie above the register's.
static uint64_t next_value(const struct model *model, uint32_t csr) {
    bool is_wide = next_random() % 16 == 0;
    if (is_configuration(csr)) {
        uint64_t value = next_bytes(model, csr - PMPCFG0);
        return model->xlen == 32 && !is_wide ? value & UINT32_MAX : value;
    }
    if (is_address(csr))
        return next_words(model) | (is_wide ? UINT64_C(1) << next_random() % 64 : 0);
    return next_random() >> (is_wide ? next_random() % 61 : 61) & ~(next_random() % 8);
}

// The first byte of an access, near an end of what some entry matches.
static uint64_t next_start(const struct model *model) {
    unsigned entry = next_random() % (model->entries + 1) % 64;
    struct span bytes = bytes_of(model, entry);
    if (bytes.first > bytes.last)
        bytes.first = bytes.last = 4 * model->addresses[entry];
    switch (next_random() % 16) {
        case 0: return next_random() % END >> next_random() % 56;
        case 1: return ((UINT64_C(1) << (model->bits + next_random() % 2)) - next_random() % 16) % END;
        case 2: case 3: case 4: case 5: case 6: return (bytes.first + next_random() % 24 - 16) % END;
        default: return (bytes.last + next_random() % 24 - 16) % END;
    }
}

// ---- one unit beside the model

static bool is_read_right(const tilvenka_pmp_unit *unit, const struct model *model, uint32_t csr) {
    uint64_t value = 77, wanted = 77;
    uint32_t status = model_read(model, csr, &wanted);
    tried[model->xlen == 32].reads++;
    return tilvenka_pmp_read(unit, csr, &value) == status && value == wanted;
}

static bool is_decided_right(tilvenka_pmp_unit *unit, const struct model *model) {
    uint32_t mode = MODES[next_random() % 3], kind = next_random() % 3;
    bool is_long = next_random() % 256 == 0;
    uint64_t length = 1 + next_random() % (is_long ? 4096 >> next_random() % 8 : 16), start = next_start(model);
    uint32_t answer = model_decide(model, mode, kind, start, length), is_allowed = answer < TILVENKA_PMP_FAULT;
    unsigned is_rv32 = model->xlen == 32;
    tried[is_rv32].decisions += !tilvenka_pmp_is_no_access(answer);
    tried[is_rv32].long_ones += length > 16;
    tried[is_rv32].rules[is_allowed] += tilvenka_pmp_entry(answer) < 64 && !tilvenka_pmp_is_partial(answer);
    tried[is_rv32].splits[is_allowed] += tilvenka_pmp_is_partial(answer);
    tried[is_rv32].unmatched[is_allowed] += tilvenka_pmp_is_unmatched(answer);
    return decide(unit, mode, kind, start, length) == answer;
}

static void count_write(const struct model *model, uint32_t csr, uint64_t value, uint32_t status) {
    unsigned is_rv32 = model->xlen == 32;
    tried[is_rv32].writes++;
    tried[is_rv32].refused += !tilvenka_pmp_is_done(status);
    tried[is_rv32].odd += is_configuration(csr) && csr % 2 == 1 && status & TILVENKA_PMP_CHANGED;
    tried[is_rv32].wide += value > UINT32_MAX;
    for (unsigned bit = 8; bit < 17; bit++)
        tried[is_rv32].reasons[bit] += status >> bit & 1;
}

static bool is_written_right(tilvenka_pmp_unit *unit, struct model *model) {
    struct model before = *model;
    struct span told = {77, 7}, wanted_span = told;
    uint32_t csr = next_csr(model);
    uint64_t value = next_value(model, csr);
    bool is_asked = next_random() % 2, was_built = tilvenka_pmp_is_built(unit);
    uint32_t wanted = model_write(model, csr, value);
    struct span moved = moved_between(&before, model);
    if (is_asked && moved.first <= moved.last) {
        wanted_span = moved;
        wanted += TILVENKA_PMP_MOVED;
        tried[model->xlen == 32].moves++;
    }
    uint32_t status = is_asked ? tilvenka_pmp_write_moved(unit, csr, value, &told.first, &told.last)
                               : tilvenka_pmp_write(unit, csr, value);
    count_write(model, csr, value, status);
    return status == wanted && told.first == wanted_span.first && told.last == wanted_span.last
        && tilvenka_pmp_is_built(unit) == (was_built && is_same(&before, model))
        && is_read_right(unit, model, next_random() % 2 ? csr : next_csr(model));
}

// Whether an access with no byte that moved is decided as before, by the same cause, and the calls write alike.
static bool is_moved_right(tilvenka_pmp_unit *unit, struct model *model) {
    static tilvenka_pmp_unit before, other;
    uint32_t csr = next_csr(model);
    uint64_t value = next_value(model, csr);
    struct span moved = EMPTY;
    before = other = *unit;
    model_write(model, csr, value);
    uint32_t status = tilvenka_pmp_write_moved(unit, csr, value, &moved.first, &moved.last);
    bool is_moved = tilvenka_pmp_is_done(status) && status & TILVENKA_PMP_MOVED;
    bool is_right = tilvenka_pmp_write(&other, csr, value) == status - (is_moved ? TILVENKA_PMP_MOVED : 0)
        && memcmp(unit, &other, sizeof other) == 0;
    for (unsigned turn = 0; turn < BESIDE; turn++) {
        uint64_t start = next_start(model), length = 1 + next_random() % 16;
        uint32_t mode = MODES[next_random() % 3], kind = next_random() % 3;
        if (start + length <= moved.first || start > moved.last) {
            tried[model->xlen == 32].beside += is_moved;
            is_right &= tilvenka_pmp_decide(&before, mode, kind, start, length)
                == tilvenka_pmp_decide(unit, mode, kind, start, length);
        }
    }
    return is_right;
}

// Its own registers are those of the model, and another unit takes them.
static bool is_saved_right(tilvenka_pmp_unit *unit, const struct model *model) {
    tilvenka_pmp_registers saved;
    memset(&saved, 0xff, sizeof saved);
    tilvenka_pmp_save(unit, &saved);
    memset(unit, 0xaa, sizeof *unit);
    tried[model->xlen == 32].snapshots++;
    return is_saved(model, &saved) && tilvenka_pmp_restore(unit, &saved) == TILVENKA_PMP_UNCHANGED
        && memcmp(&unit->registers, &saved, sizeof saved) == 0 && !tilvenka_pmp_is_built(unit)
        && tilvenka_pmp_xlen(&saved) == model->xlen && tilvenka_pmp_count(&saved) == model->entries;
}

// A unit after reset, or of any numbers.
static bool begins_right(tilvenka_pmp_unit *unit, struct model *model) {
    tilvenka_pmp_registers any;
    if (next_random() % 2)
        return tilvenka_pmp_reset(unit, number_of(model)) == TILVENKA_PMP_UNCHANGED;
    for (unsigned entry = 0; entry < 64; entry++) {
        any.addresses[entry] = next_words(model) | (next_random() % 4 ? 0 : UINT64_C(1) << next_random() % 64);
        any.configurations[entry] = next_random() & (next_random() % 4 ? 0x7f : 0xff);
    }
    any.mseccfg = next_random() % 2 ? next_random() : 0;
    any.entries = number_of(model);
    model_restore(model, &any);
    return tilvenka_pmp_restore(unit, &any) == TILVENKA_PMP_UNCHANGED;
}

static void try_histories(void) {
    static tilvenka_pmp_unit unit;
    for (unsigned i = 0; i < HISTORIES; i++) {
        struct model model = next_model(i % 2 ? 32 : 64);
        bool is_right = begins_right(&unit, &model);
        for (unsigned round = 0; round < ROUNDS; round++) {
            for (unsigned turn = 0; turn < WRITES; turn++)
                is_right &= is_written_right(&unit, &model);
            for (unsigned turn = 0; turn < ACCESSES; turn++)
                is_right &= is_decided_right(&unit, &model);
            is_right &= is_moved_right(&unit, &model);
            is_right &= round % 4 != 1 || is_saved_right(&unit, &model);
        }
        expect(is_right && is_saved_right(&unit, &model), i % 2 ? "history of RV32" : "history of RV64", i);
    }
}

// ---- an RV32 unit beside an RV64 one

struct pair {
    tilvenka_pmp_unit rv64, rv32;
    struct model model; // of the RV64 one, by which writes are chosen
    unsigned changes, decisions;
};

// What one pmpcfg has on RV64 two have on RV32. Other values are the same on both.
static bool is_pair_written_alike(struct pair *pair) {
    uint32_t csr = next_csr(&pair->model), low, high = 0;
    uint64_t value = next_value(&pair->model, csr), wanted = 0, got = 0, upper = 0;
    uint32_t status = model_write(&pair->model, csr, value);
    if (!tilvenka_pmp_is_done(status))
        return true;
    bool is_right = tilvenka_pmp_write(&pair->rv64, csr, value) == status;
    if (is_configuration(csr)) {
        low = tilvenka_pmp_write(&pair->rv32, csr, value & UINT32_MAX);
        high = tilvenka_pmp_write(&pair->rv32, csr + 1, value >> 32);
        is_right &= tilvenka_pmp_read(&pair->rv32, csr + 1, &upper) == TILVENKA_PMP_UNCHANGED;
    } else {
        low = tilvenka_pmp_write(&pair->rv32, csr, value);
    }
    pair->changes += status & TILVENKA_PMP_CHANGED ? 1 : 0;
    is_right &= tilvenka_pmp_read(&pair->rv64, csr, &wanted) == tilvenka_pmp_read(&pair->rv32, csr, &got);
    return is_right && (low | high) == status && wanted == (got | upper << 32);
}

static bool is_pair_decided_alike(struct pair *pair) {
    uint64_t start = next_start(&pair->model), length = 1 + next_random() % 16;
    uint32_t mode = MODES[next_random() % 3], kind = next_random() % 3;
    pair->decisions++;
    return decide(&pair->rv64, mode, kind, start, length) == decide(&pair->rv32, mode, kind, start, length)
        && memcmp(&pair->rv64.map, &pair->rv32.map, sizeof pair->rv32.map) == 0;
}

// The rights of a range, and the run of its first byte.
static bool is_pair_asked_alike(const struct pair *pair) {
    struct span one = EMPTY, other = EMPTY;
    uint64_t start = next_start(&pair->model), length = 1 + next_random() % 4096;
    uint32_t mode = MODES[next_random() % 3];
    uint32_t rights = tilvenka_pmp_rights(&pair->rv64, mode, start, length);
    uint32_t run = tilvenka_pmp_run(&pair->rv64, mode, start, &one.first, &one.last);
    return tilvenka_pmp_rights(&pair->rv32, mode, start, length) == rights
        && tilvenka_pmp_run(&pair->rv32, mode, start, &other.first, &other.last) == run && is_same_span(one, other);
}

static bool is_pair_saved_alike(const struct pair *pair) {
    tilvenka_pmp_registers one, other;
    tilvenka_pmp_save(&pair->rv64, &one);
    tilvenka_pmp_save(&pair->rv32, &other);
    bool is_other = one.entries + (UINT64_C(1) << 17) == other.entries;
    other.entries = one.entries;
    return is_other && memcmp(&one, &other, sizeof one) == 0;
}

static void try_pairs(void) {
    static struct pair pair;
    for (unsigned i = 0; i < PAIRS; i++) {
        memset(&pair, 0, sizeof pair);
        pair.model = next_model(64);
        pair.model.bits = 34;
        struct model other = pair.model;
        other.xlen = 32;
        reset(&pair.rv64, number_of(&pair.model));
        reset(&pair.rv32, number_of(&other));
        bool is_right = true;
        for (unsigned turn = 0; turn < ROUNDS * WRITES; turn++) {
            is_right &= is_pair_written_alike(&pair) && is_pair_asked_alike(&pair);
            is_right &= turn % 8 != 7 || is_pair_decided_alike(&pair);
        }
        is_right &= pair.decisions == ROUNDS && (pair.changes > 0 || pair.model.entries < 2);
        expect(is_right && is_pair_saved_alike(&pair), "an RV32 unit beside an RV64 one", i);
    }
}

// ---- how much of each kind was tried

static void expect_tried(void) {
    for (unsigned is_rv32 = 0; is_rv32 < 2; is_rv32++) {
        expect(tried[is_rv32].writes >= 1000000, "writes", is_rv32);
        expect(tried[is_rv32].reads >= 1000000, "reads", is_rv32);
        expect(tried[is_rv32].decisions >= 1000000, "decisions", is_rv32);
        expect(tried[is_rv32].moves > 50000, "writes that move", is_rv32);
        expect(tried[is_rv32].beside > 5000, "accesses beside what moved", is_rv32);
        expect(tried[is_rv32].snapshots > 20000, "snapshots", is_rv32);
        expect(tried[is_rv32].wide > 10000, "values above 32 bits", is_rv32);
        expect(tried[is_rv32].refused > 5000, "numbers of no register", is_rv32);
        expect((tried[is_rv32].odd > 10000) == (is_rv32 == 1), "odd registers that change", is_rv32);
        expect(tried[is_rv32].long_ones > 1000, "long accesses", is_rv32);
        for (unsigned bit = 8; bit < 17; bit++)
            expect(tried[is_rv32].reasons[bit] > 1000, "writes with the reason of bit", bit);
        for (unsigned is_allowed = 0; is_allowed < 2; is_allowed++) {
            expect(tried[is_rv32].rules[is_allowed] > 10000, "accesses inside an entry", is_allowed);
            expect(tried[is_rv32].unmatched[is_allowed] > 10000, "accesses that no entry matches", is_allowed);
        }
        expect(tried[is_rv32].splits[0] > 5000 && tried[is_rv32].splits[1] == 0, "accesses across an end", is_rv32);
    }
}

int main(void) {
    try_histories();
    try_pairs();
    expect_tried();
    printf("%u passed, %u failed\n", passed, failed);
    return failed != 0;
}
