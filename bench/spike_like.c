#include "spike_like.h"

enum { LOCKED = 128, MATCHING = 24, PERMISSIONS = 7, BITS = LOCKED | MATCHING | PERMISSIONS };
enum { TOP_OF_RANGE = 8, FOUR_BYTES = 16, POWER_OF_TWO = 24 };
enum { LOCKDOWN = 1, ALLOW_LIST = 2, BYPASS = 4 };

/* The registers. */

void spike_like_reset(struct spike_like *unit, unsigned entries) {
    *unit = (struct spike_like){.entries = entries};
}

static bool is_frozen(const struct spike_like *unit, unsigned entry) {
    return unit->configuration[entry] & LOCKED && !(unit->mseccfg & BYPASS);
}

/* L R W X, as the table under lockdown has them. */
static unsigned row_of(uint8_t byte) {
    return (byte >> 4 & 8) | (byte << 2 & 4) | (byte & 2) | (byte >> 2 & 1);
}

/* Whether lockdown turns the byte away: a rule by which machine mode executes. */
static bool is_barred(uint8_t mseccfg, uint8_t byte) {
    enum { ROWS = 1 << 9 | 1 << 10 | 1 << 11 | 1 << 13 };
    return (mseccfg & (LOCKDOWN | BYPASS)) == LOCKDOWN && ROWS >> row_of(byte) & 1;
}

static bool is_reserved(uint8_t mseccfg, uint8_t byte) {
    return !(mseccfg & LOCKDOWN) && (byte & (READABLE | WRITABLE)) == WRITABLE;
}

static void write_configurations(struct spike_like *unit, unsigned first, uint64_t value) {
    for (unsigned entry = first; entry < first + 8; entry++, value >>= 8) {
        uint8_t byte = value & BITS;
        if (is_frozen(unit, entry) || is_barred(unit->mseccfg, byte))
            continue;
        unit->configuration[entry] = is_reserved(unit->mseccfg, byte) ? byte & ~PERMISSIONS : byte;
    }
}

static uint64_t read_configurations(const struct spike_like *unit, unsigned first) {
    uint64_t value = 0;
    for (unsigned place = 0; place < 8; place++)
        value |= (uint64_t)unit->configuration[first + place] << 8 * place;
    return value;
}

/* Whether the entry's address is the low end of a frozen range. */
static bool is_low_end(const struct spike_like *unit, unsigned entry) {
    unsigned next = entry + 1;
    return next < unit->entries && is_frozen(unit, next) && (unit->configuration[next] & MATCHING) == TOP_OF_RANGE;
}

static void write_address(struct spike_like *unit, unsigned entry, uint64_t value) {
    if (!is_frozen(unit, entry) && !is_low_end(unit, entry))
        unit->address[entry] = value & ((UINT64_C(1) << 54) - 1);
}

static bool is_any_locked(const struct spike_like *unit) {
    for (unsigned entry = 0; entry < unit->entries; entry++)
        if (unit->configuration[entry] & LOCKED)
            return true;
    return false;
}

static void write_mseccfg(struct spike_like *unit, uint64_t value) {
    uint8_t kept = unit->mseccfg & (LOCKDOWN | ALLOW_LIST), next = kept | (value & (LOCKDOWN | ALLOW_LIST | BYPASS));
    if (!(unit->mseccfg & BYPASS) && next & BYPASS && is_any_locked(unit))
        next &= ~BYPASS;
    unit->mseccfg = next;
}

/* The first entry of a pmpcfg register, where the unit has it. */
static bool is_configuration(const struct spike_like *unit, unsigned number, unsigned *first) {
    *first = 4 * (number - PMPCFG0);
    return number >= PMPCFG0 && *first < unit->entries && number % 2 == 0;
}

static bool is_address(const struct spike_like *unit, unsigned number, unsigned *entry) {
    *entry = number - PMPADDR0;
    return number >= PMPADDR0 && *entry < unit->entries;
}

void spike_like_write(struct spike_like *unit, unsigned number, uint64_t value) {
    unsigned entry;
    if (is_address(unit, number, &entry))
        write_address(unit, entry, value);
    else if (is_configuration(unit, number, &entry))
        write_configurations(unit, entry, value);
    else if (number == MSECCFG)
        write_mseccfg(unit, value);
}

uint64_t spike_like_read(const struct spike_like *unit, unsigned number) {
    unsigned entry;
    if (is_address(unit, number, &entry))
        return unit->address[entry];
    if (is_configuration(unit, number, &entry))
        return read_configurations(unit, entry);
    return number == MSECCFG ? unit->mseccfg : 0;
}

/* The checks. */

/* From low up to, but not including, high. */
struct range {
    uint64_t low;
    uint64_t high;
};

static const struct range NOTHING = {0, 0};

static struct range range_of_top(const struct spike_like *unit, unsigned entry) {
    uint64_t low = entry == 0 ? 0 : unit->address[entry - 1], high = unit->address[entry];
    return low < high ? (struct range){low << 2, high << 2} : NOTHING;
}

static struct range range_of_power(uint64_t address) {
    uint64_t ones = address ^ (address + 1), low = (address & ~ones) << 2;
    return (struct range){low, low + ((ones + 1) << 2)};
}

static struct range range_of(const struct spike_like *unit, unsigned entry) {
    uint64_t address = unit->address[entry];
    switch (unit->configuration[entry] & MATCHING) {
    case TOP_OF_RANGE:
        return range_of_top(unit, entry);
    case FOUR_BYTES:
        return (struct range){address << 2, (address << 2) + 4};
    case POWER_OF_TWO:
        return range_of_power(address);
    default:
        return NOTHING;
    }
}

/* The first entry that matches one of the bytes, SPLIT more where it doesn't match all of them; or NO_MATCH. */
static unsigned cause_of(const struct spike_like *unit, uint64_t start, uint64_t end) {
    for (unsigned entry = 0; entry < unit->entries; entry++) {
        struct range range = range_of(unit, entry);
        if (start < range.high && end > range.low)
            return start >= range.low && end <= range.high ? entry : SPLIT + entry;
    }
    return NO_MATCH;
}

/* Under lockdown, by L R W X. */
static const uint8_t others_lockdown[16] = {0, 4, 1, 3, 1, 5, 3, 7, 0, 0, 4, 4, 0, 0, 0, 1};
static const uint8_t machine_lockdown[16] = {0, 0, 3, 3, 0, 0, 0, 0, 0, 4, 4, 5, 1, 5, 3, 1};

static unsigned rights_without_match(uint8_t mseccfg, unsigned mode) {
    if (mode != MACHINE || mseccfg & ALLOW_LIST)
        return 0;
    return mseccfg & LOCKDOWN ? READABLE | WRITABLE : PERMISSIONS;
}

/* By an entry that matches all, or by none. */
static unsigned rights_by(const struct spike_like *unit, unsigned cause, unsigned mode) {
    if (cause == NO_MATCH)
        return rights_without_match(unit->mseccfg, mode);
    uint8_t byte = unit->configuration[cause];
    if (unit->mseccfg & LOCKDOWN)
        return (mode == MACHINE ? machine_lockdown : others_lockdown)[row_of(byte)];
    return mode == MACHINE && !(byte & LOCKED) ? PERMISSIONS : byte & PERMISSIONS;
}

/* Whether the numbers name an access of 1 to 4096 bytes that ends at or below 2^56. */
static bool is_access(unsigned mode, unsigned kind, uint64_t start, uint64_t length) {
    return mode < 4 && mode != 2 && kind < 3 && length - 1 < 4096 && start <= (UINT64_C(1) << 56) - length;
}

unsigned spike_like_decide(const struct spike_like *unit, unsigned mode, unsigned kind, uint64_t start,
                           uint64_t length) {
    static const uint8_t needed[3] = {[FETCH] = EXECUTABLE, [LOAD] = READABLE, [STORE] = WRITABLE};
    if (!is_access(mode, kind, start, length))
        return NO_ACCESS;
    unsigned cause = cause_of(unit, start, start + length);
    if (cause & SPLIT)
        return cause;
    return cause + (rights_by(unit, cause, mode) & needed[kind] ? ALLOWED : 0);
}

unsigned spike_like_rights(const struct spike_like *unit, unsigned mode, uint64_t start, uint64_t length) {
    unsigned cause = cause_of(unit, start, start + length);
    return cause & SPLIT ? MIXED : rights_by(unit, cause, mode);
}
