#include "tuned.h"
#include "tilvenka_pmp.h"
#include <string.h>

#define EACH(BYTE) (UINT64_C(0x0101010101010101) * (BYTE))
#define LIMIT (LAST_BYTE + 1)
enum { MML = 1, MMWP = 2, RLB = 4, LOCKED = 128, TOR = 8, NA4 = 16, NAPOT = 24 };

void tuned_reset(struct tuned *unit, uint64_t hart) {
    bool is_usual = hart >> 32 != 1;
    *unit = (struct tuned){
        .entries = is_usual ? (hart == 64 ? 64 : 16) : hart & 255,
        .grain = is_usual ? 0 : hart >> 24 & 255,
        .words = UINT64_C(1) << ((is_usual ? 56 : hart >> 8 & 255) - 2),
        .has_smepmp = is_usual || hart >> 16 & 1,
        .is_rv32 = !is_usual && hart >> 17 & 1,
    };
}

/* The ranges. */

static void decode(struct tuned *unit, unsigned entry) {
    uint64_t address = unit->address[entry], low = 0, high = 0;
    switch (unit->configuration[entry] & NAPOT) {
    case NAPOT:
        address |= (UINT64_C(1) << (unit->grain ? unit->grain - 1 : 0)) - 1;
        low = (address & (address + 1)) << 2;
        high = ((address | (address + 1)) + 1) << 2;
        break;
    case TOR:
        low = entry ? unit->address[entry - 1] >> unit->grain << (unit->grain + 2) : 0;
        high = address >> unit->grain << (unit->grain + 2);
        break;
    case NA4:
        low = address << 2;
        high = low + 4;
    }
    uint64_t bit = UINT64_C(1) << entry;
    unit->matching = low < high ? unit->matching | bit : unit->matching & ~bit;
    unit->low[entry] = low;
    unit->high[entry] = high;
}

/* What moved so far, from low up to high. */
struct span {
    uint64_t low, high;
};

static void add_range(struct span *span, uint64_t low, uint64_t high) {
    high = high < LIMIT ? high : LIMIT;
    if (low >= high)
        return;
    span->low = low < span->low ? low : span->low;
    span->high = high > span->high ? high : span->high;
}

/* Decodes an entry anew, of which the configuration or an address changed. */
static void move(struct tuned *unit, unsigned entry, bool is_configuration, struct span *span) {
    uint64_t low = unit->low[entry], high = unit->high[entry];
    decode(unit, entry);
    if (is_configuration || low != unit->low[entry] || high != unit->high[entry]) {
        add_range(span, low, high);
        add_range(span, unit->low[entry], unit->high[entry]);
    }
}

/* The configurations, eight at a time, with bit 0 of a byte for what holds of it. */

static uint64_t with_w_alone(uint64_t bytes) {
    return bytes >> 1 & ~bytes & EACH(1);
}

static uint64_t barred(uint64_t bytes) {
    return bytes >> 7 & ((bytes >> 2 & ~(bytes >> 1)) | (bytes >> 1 & ~bytes)) & EACH(1);
}

static uint64_t with_na4(uint64_t bytes) {
    return bytes >> 4 & ~(bytes >> 3) & EACH(1);
}

static unsigned bytes_of(const struct tuned *unit, unsigned first) {
    unsigned held = unit->is_rv32 ? 4 : first % 8 ? 0 : 8;
    return first >= unit->entries ? 0 : unit->entries - first < held ? unit->entries - first : held;
}

static uint64_t mask_of(unsigned bytes) {
    return bytes == 8 ? UINT64_MAX : (UINT64_C(1) << 8 * bytes) - 1;
}

static uint64_t load(const struct tuned *unit, unsigned first, unsigned bytes) {
    uint64_t word = 0;
    memcpy(&word, unit->configuration + first, 8 <= 64 - first ? 8 : 4);
    return word & mask_of(bytes);
}

static uint32_t write_configurations(struct tuned *unit, unsigned first, uint64_t value, struct span *span) {
    unsigned bytes = bytes_of(unit, first);
    if (bytes == 0)
        return value ? TILVENKA_PMP_ABSENT | (value & EACH(0x60) ? TILVENKA_PMP_BITS : 0) : 0;
    uint64_t old = load(unit, first, bytes), there = value & mask_of(bytes), new = there & EACH(0x9f);
    uint64_t frozen = unit->mseccfg & RLB ? 0 : old >> 7 & EACH(1), open = EACH(1) & ~frozen;
    uint64_t reserved = unit->mseccfg & MML ? 0 : with_w_alone(new) & open;
    uint64_t refused = (unit->mseccfg & (MML | RLB)) == MML ? barred(new) & open : 0;
    uint64_t fine = unit->grain ? with_na4(new) & open : 0, kept = (frozen | refused) * 255;
    uint32_t status = 0;
    if ((value & ~(mask_of(bytes) & EACH(0x9f))) | reserved | refused | fine | (frozen * 255 & (there ^ old)))
        status = (there != value ? TILVENKA_PMP_ABSENT : 0) | (value & EACH(0x60) ? TILVENKA_PMP_BITS : 0)
            | (frozen * 255 & (there ^ old) ? TILVENKA_PMP_FROZEN : 0) | (reserved ? TILVENKA_PMP_RESERVED : 0)
            | (refused ? TILVENKA_PMP_LOCKDOWN : 0) | (fine ? TILVENKA_PMP_GRAIN : 0);
    new &= ~(reserved * 7 | fine * NA4);
    new = (new & ~kept) | (old & kept);
    uint64_t changed = new ^ old;
    if (changed == 0)
        return status;
    memcpy(unit->configuration + first, &new, bytes);
    for (; changed; changed &= ~(UINT64_C(255) << __builtin_ctzll(changed) / 8 * 8))
        move(unit, first + __builtin_ctzll(changed) / 8, true, span);
    return status | TILVENKA_PMP_CHANGED;
}

static bool is_frozen(const struct tuned *unit, unsigned entry) {
    return unit->configuration[entry] & LOCKED && !(unit->mseccfg & RLB);
}

static bool is_low_end(const struct tuned *unit, unsigned entry) {
    return entry + 1 < unit->entries && is_frozen(unit, entry + 1) && (unit->configuration[entry + 1] & NAPOT) == TOR;
}

static uint64_t reads(const struct tuned *unit, unsigned entry, uint64_t address) {
    if (unit->grain == 0)
        return address;
    uint64_t ones = (UINT64_C(1) << unit->grain) - 1;
    return (unit->configuration[entry] & NAPOT) == NAPOT ? address | ones >> 1 : address & ~ones;
}

static uint32_t write_address(struct tuned *unit, unsigned entry, uint64_t value, struct span *span) {
    uint32_t status = value >= unit->words ? TILVENKA_PMP_BITS : 0;
    if (entry >= unit->entries)
        return status | (value ? TILVENKA_PMP_ABSENT : 0);
    if (unit->grain && reads(unit, entry, value) != value)
        status |= TILVENKA_PMP_GRAIN;
    bool is_own = is_frozen(unit, entry);
    if (is_own || is_low_end(unit, entry))
        return value == reads(unit, entry, unit->address[entry]) ? 0
            : status | (is_own ? TILVENKA_PMP_FROZEN : TILVENKA_PMP_LOW_END);
    value &= unit->words - 1;
    if (unit->address[entry] == value)
        return status;
    unit->address[entry] = value;
    move(unit, entry, false, span);
    if (entry + 1 < unit->entries && (unit->configuration[entry + 1] & NAPOT) == TOR)
        move(unit, entry + 1, false, span);
    return status | TILVENKA_PMP_CHANGED;
}

static bool is_any_locked(const struct tuned *unit) {
    uint64_t locks = 0;
    for (unsigned first = 0; first < 64; first += 8) {
        uint64_t word;
        memcpy(&word, unit->configuration + first, 8);
        locks |= word;
    }
    return locks & EACH(LOCKED);
}

static uint32_t write_mseccfg(struct tuned *unit, uint64_t value, struct span *span) {
    if (!unit->has_smepmp)
        return value ? TILVENKA_PMP_ABSENT : 0;
    unsigned old = unit->mseccfg, new = (old & (MML | MMWP)) | (value & (MML | MMWP | RLB));
    uint32_t status = (value >= 8 ? TILVENKA_PMP_BITS : 0) | (old & ~value & (MML | MMWP) ? TILVENKA_PMP_STICKY : 0);
    if (new & ~old & RLB && is_any_locked(unit)) {
        new &= ~RLB;
        status |= TILVENKA_PMP_BYPASS;
    }
    if (new == old)
        return status;
    unit->mseccfg = new;
    *span = (struct span){0, LIMIT};
    return status | TILVENKA_PMP_CHANGED;
}

uint32_t tuned_write(struct tuned *unit, unsigned csr, uint64_t value, uint64_t *first, uint64_t *last) {
    struct span span = {UINT64_MAX, 0};
    uint32_t status;
    if (csr - PMPADDR0 < 64)
        status = write_address(unit, csr - PMPADDR0, value, &span);
    else if (csr - PMPCFG0 < 16)
        status = write_configurations(unit, 4 * (csr - PMPCFG0), value, &span);
    else if (csr == MSECCFG)
        status = write_mseccfg(unit, value, &span);
    else
        status = value ? unit->has_smepmp && unit->is_rv32 ? TILVENKA_PMP_BITS : TILVENKA_PMP_ABSENT : 0;
    if (span.low >= span.high)
        return status;
    *first = span.low;
    *last = span.high - 1;
    return status | TILVENKA_PMP_MOVED;
}

uint64_t tuned_read(const struct tuned *unit, unsigned csr) {
    if (csr - PMPADDR0 < unit->entries)
        return reads(unit, csr - PMPADDR0, unit->address[csr - PMPADDR0]);
    unsigned first = 4 * (csr - PMPCFG0);
    if (csr - PMPCFG0 < 16)
        return bytes_of(unit, first) ? load(unit, first, bytes_of(unit, first)) : 0;
    return csr == MSECCFG ? unit->mseccfg : 0;
}

/* The checks. */

/* Under MML, by X, W, R and L as a byte has them: M-mode's rights, and 8 times the others'. */
static unsigned lockdown_rights(uint8_t byte, unsigned mode) {
    static const uint8_t machine[16] = {0, 0, 3, 0, 0, 0, 3, 0, 0, 1, 4, 3, 4, 5, 5, 1};
    static const uint8_t others[16] = {0, 1, 1, 3, 4, 5, 3, 7, 0, 0, 4, 0, 0, 0, 4, 1};
    return (mode == MACHINE ? machine : others)[(byte >> 4 & 8) | (byte & 7)];
}

static unsigned rights_of(const struct tuned *unit, unsigned entry, unsigned mode) {
    uint8_t byte = unit->configuration[entry];
    if (unit->mseccfg & MML)
        return lockdown_rights(byte, mode);
    return mode == MACHINE && !(byte & LOCKED) ? 7 : byte & 7;
}

static unsigned default_rights(const struct tuned *unit, unsigned mode) {
    if (mode != MACHINE)
        return unit->entries ? 0 : 7;
    return unit->mseccfg & MMWP ? 0 : unit->mseccfg & MML ? 3 : 7;
}

/* The first entry that has one of the bytes, or 64. */
static inline unsigned first_of(const struct tuned *unit, uint64_t start, uint64_t end) {
    for (uint64_t left = unit->matching; left; left &= left - 1) {
        unsigned entry = __builtin_ctzll(left);
        if (start < unit->high[entry] && unit->low[entry] < end)
            return entry;
    }
    return 64;
}

static inline bool has_all(const struct tuned *unit, unsigned entry, uint64_t start, uint64_t end) {
    return unit->low[entry] <= start && end <= unit->high[entry];
}

unsigned tuned_decide(const struct tuned *unit, unsigned mode, unsigned kind, uint64_t start, uint64_t length) {
    static const uint8_t needed[3] = {[FETCH] = EXECUTABLE, [LOAD] = READABLE, [STORE] = WRITABLE};
    if (mode > 3 || mode == 2 || kind > 2 || length - 1 >= 4096 || start > LIMIT - length)
        return NO_ACCESS;
    unsigned entry = first_of(unit, start, start + length);
    if (entry == 64)
        return NO_MATCH + (default_rights(unit, mode) & needed[kind] ? ALLOWED : 0);
    if (!has_all(unit, entry, start, start + length))
        return SPLIT + entry;
    return entry + (rights_of(unit, entry, mode) & needed[kind] ? ALLOWED : 0);
}

unsigned tuned_rights(const struct tuned *unit, unsigned mode, uint64_t start, uint64_t length) {
    unsigned entry = first_of(unit, start, start + length);
    if (entry == 64)
        return default_rights(unit, mode);
    return has_all(unit, entry, start, start + length) ? rights_of(unit, entry, mode) : MIXED;
}

unsigned tuned_run(const struct tuned *unit, unsigned mode, uint64_t byte, uint64_t *first, uint64_t *last) {
    uint64_t low = 0, high = LIMIT;
    for (uint64_t left = unit->matching; left; left &= left - 1) {
        unsigned entry = __builtin_ctzll(left);
        if (unit->high[entry] <= byte) {
            low = unit->high[entry] > low ? unit->high[entry] : low;
        } else if (byte < unit->low[entry]) {
            high = unit->low[entry] < high ? unit->low[entry] : high;
        } else {
            *first = unit->low[entry] > low ? unit->low[entry] : low;
            *last = (unit->high[entry] < high ? unit->high[entry] : high) - 1;
            return entry + 1024 * rights_of(unit, entry, mode);
        }
    }
    *first = low;
    *last = high - 1;
    return NO_MATCH + 1024 * default_rights(unit, mode);
}
