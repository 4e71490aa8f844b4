// A unit of RV64 or RV32 as the manual says it (Volume II, 3.7.1, and Smepmp), byte by byte and without ranges: what
// writes leave, what registers read, and what is decided. It was written from the manual and not from the library.
// Numbers are the header's.
#include "library.h"
#include <string.h>

struct model {
    unsigned xlen, entries, g, bits;
    bool has_smepmp;
    uint8_t configurations[64];
    uint64_t addresses[64]; // with the bits below the grain
    uint64_t mseccfg;
};

enum { MML = TILVENKA_PMP_MML, MMWP = TILVENKA_PMP_MMWP, RLB = TILVENKA_PMP_RLB };
enum { OFF, TOR, NA4, NAPOT };

static const uint32_t CODES[3] = {1, 5, 7}; // of a fetch, a load and a store that fail
static const uint64_t END = UINT64_C(1) << 56;

// Smepmp's truth table: L, R, W, X, and what machine mode and the other modes then have.
static const struct {
    const char *bits, *machine, *others;
} TRUTH[16] = {
    {"----", "", ""},     {"---X", "", "x"},    {"--W-", "rw", "r"}, {"--WX", "rw", "rw"},
    {"-R--", "", "r"},    {"-R-X", "", "rx"},   {"-RW-", "", "rw"},  {"-RWX", "", "rwx"},
    {"L---", "", ""},     {"L--X", "x", ""},    {"L-W-", "x", "x"},  {"L-WX", "rx", "x"},
    {"LR--", "r", ""},    {"LR-X", "rx", ""},   {"LRW-", "rw", ""},  {"LRWX", "r", "r"},
};

// The row of a configuration byte.
static inline unsigned row_of(uint8_t byte) {
    return (byte >> 7 & 1) * 8 + (byte & 1) * 4 + (byte >> 1 & 1) * 2 + (byte >> 2 & 1);
}

static inline unsigned matching_of(const struct model *model, unsigned entry) {
    return model->configurations[entry] >> 3 & 3;
}

// L is set, and RLB isn't.
static inline bool is_frozen(const struct model *model, unsigned entry) {
    return model->configurations[entry] >> 7 && !(model->mseccfg & RLB);
}

static inline bool is_address_frozen(const struct model *model, unsigned entry) {
    return is_frozen(model, entry)
        || (entry < 63 && is_frozen(model, entry + 1) && matching_of(model, entry + 1) == TOR);
}

static inline bool is_any_locked(const struct model *model) {
    bool is_any = false;
    for (unsigned entry = 0; entry < model->entries; entry++)
        is_any |= model->configurations[entry] >> 7;
    return is_any;
}

// W without R, which is reserved where MML is 0.
static inline bool is_reserved(const struct model *model, uint8_t byte) {
    return !(model->mseccfg & MML) && (byte & 3) == 2;
}

// A locked rule that machine mode executes by, which can't be added under MML unless RLB is set.
static inline bool is_barred(const struct model *model, uint8_t byte) {
    return model->mseccfg & MML && byte >> 7 && strchr(TRUTH[row_of(byte)].machine, 'x') != NULL;
}

static inline bool is_too_fine(const struct model *model, uint8_t byte) {
    return model->g > 0 && (byte >> 3 & 3) == NA4;
}

// What is stored of a byte for an entry that isn't frozen: bits 6 and 5 are zero.
static inline uint8_t stored_byte(const struct model *model, uint8_t byte) {
    uint8_t stored = byte & 0x9f;
    if (is_reserved(model, byte))
        stored &= 0x98;
    return is_too_fine(model, byte) ? stored & 0x87 : stored;
}

// What an address reads as that of an entry.
static inline uint64_t seen_address(const struct model *model, unsigned entry, uint64_t address) {
    uint64_t low = (UINT64_C(1) << model->g) - 1;
    switch (matching_of(model, entry)) {
        case NA4: return address;
        case NAPOT: return address | low >> 1;
        default: return address & ~low;
    }
}

static inline uint64_t read_address(const struct model *model, unsigned entry) {
    return entry < model->entries ? seen_address(model, entry, model->addresses[entry]) : 0;
}

static inline uint64_t read_configurations(const struct model *model, unsigned number) {
    uint64_t value = 0;
    for (unsigned place = 0; place < model->xlen / 8; place++)
        value |= (uint64_t)model->configurations[4 * number + place] << 8 * place;
    return value;
}

static inline bool is_configuration(uint32_t csr) {
    return csr >= PMPCFG0 && csr < PMPADDR0;
}

static inline bool is_address(uint32_t csr) {
    return csr >= PMPADDR0 && csr < PMPADDR0 + 64;
}

static inline uint32_t model_read(const struct model *model, uint32_t csr, uint64_t *value) {
    uint32_t status = status_of(model->xlen, model->has_smepmp, csr);
    if (status != TILVENKA_PMP_UNCHANGED)
        return status;
    if (is_configuration(csr))
        *value = read_configurations(model, csr - PMPCFG0);
    else if (is_address(csr))
        *value = read_address(model, csr - PMPADDR0);
    else
        *value = csr == MSECCFG ? model->mseccfg : 0;
    return status;
}

// ---- why a register doesn't read what is written to it

static inline uint32_t byte_reasons(const struct model *model, unsigned entry, uint8_t byte) {
    if (is_frozen(model, entry))
        return byte != model->configurations[entry] ? TILVENKA_PMP_FROZEN : 0;
    return (is_reserved(model, byte) ? TILVENKA_PMP_RESERVED : 0) + (is_too_fine(model, byte) ? TILVENKA_PMP_GRAIN : 0)
        + (is_barred(model, byte) && !(model->mseccfg & RLB) ? TILVENKA_PMP_LOCKDOWN : 0);
}

static inline uint32_t configuration_reasons(const struct model *model, unsigned number, uint64_t value) {
    uint32_t reasons = 0;
    for (unsigned place = 0; place < 8; place++) {
        uint8_t byte = value >> 8 * place;
        bool is_there = place < model->xlen / 8 && 4 * number + place < model->entries;
        reasons |= byte & 0x60 ? TILVENKA_PMP_BITS : 0;
        reasons |= is_there ? byte_reasons(model, 4 * number + place, byte) : byte != 0 ? TILVENKA_PMP_ABSENT : 0;
    }
    return reasons;
}

static inline uint32_t address_reasons(const struct model *model, unsigned entry, uint64_t value) {
    uint32_t reasons = value >> (model->bits - 2) != 0 ? TILVENKA_PMP_BITS : 0;
    if (entry >= model->entries)
        return reasons + (value != 0 ? TILVENKA_PMP_ABSENT : 0);
    reasons += seen_address(model, entry, value) != value ? TILVENKA_PMP_GRAIN : 0;
    if (read_address(model, entry) == value || !is_address_frozen(model, entry))
        return reasons;
    return reasons + (is_frozen(model, entry) ? TILVENKA_PMP_FROZEN : TILVENKA_PMP_LOW_END);
}

static inline uint32_t mseccfg_reasons(const struct model *model, uint64_t value) {
    bool is_bypass = value & RLB && !(model->mseccfg & RLB) && is_any_locked(model);
    return (value >> 3 != 0 ? TILVENKA_PMP_BITS : 0) + (is_bypass ? TILVENKA_PMP_BYPASS : 0)
        + (model->mseccfg & (MML | MMWP) & ~value ? TILVENKA_PMP_STICKY : 0);
}

// ---- what a write leaves

static inline void write_configurations(struct model *model, unsigned number, uint64_t value) {
    for (unsigned place = 0; place < model->xlen / 8; place++) {
        unsigned entry = 4 * number + place;
        uint8_t byte = value >> 8 * place;
        bool is_ignored = is_frozen(model, entry) || (is_barred(model, byte) && !(model->mseccfg & RLB));
        if (entry < model->entries && !is_ignored)
            model->configurations[entry] = stored_byte(model, byte);
    }
}

static inline void write_address(struct model *model, unsigned entry, uint64_t value) {
    if (entry < model->entries && !is_address_frozen(model, entry))
        model->addresses[entry] = value & ((UINT64_C(1) << (model->bits - 2)) - 1);
}

// MML and MMWP stay set, and RLB stays clear where an entry is locked.
static inline void write_mseccfg(struct model *model, uint64_t value) {
    bool has_bypass = value & RLB && (model->mseccfg & RLB || !is_any_locked(model));
    model->mseccfg = ((model->mseccfg | value) & (MML | MMWP)) + (has_bypass ? RLB : 0);
}

static inline bool is_same(const struct model *one, const struct model *other) {
    return memcmp(one->configurations, other->configurations, sizeof one->configurations) == 0
        && memcmp(one->addresses, other->addresses, sizeof one->addresses) == 0 && one->mseccfg == other->mseccfg;
}

// The status of the write, but for TILVENKA_PMP_MOVED.
static inline uint32_t model_write(struct model *model, uint32_t csr, uint64_t value) {
    struct model before = *model;
    uint32_t reasons = 0, status = status_of(model->xlen, model->has_smepmp, csr);
    if (status != TILVENKA_PMP_UNCHANGED)
        return status;
    if (is_configuration(csr)) {
        reasons = configuration_reasons(model, csr - PMPCFG0, value);
        write_configurations(model, csr - PMPCFG0, value);
    } else if (is_address(csr)) {
        reasons = address_reasons(model, csr - PMPADDR0, value);
        write_address(model, csr - PMPADDR0, value);
    } else if (csr == MSECCFG) {
        reasons = mseccfg_reasons(model, value);
        write_mseccfg(model, value);
    } else {
        reasons = value != 0 ? TILVENKA_PMP_BITS : 0;
    }
    return reasons + (is_same(&before, model) ? 0 : TILVENKA_PMP_CHANGED);
}

// ---- what is decided

static inline bool is_matched(const struct model *model, unsigned entry, uint64_t byte) {
    uint64_t word = byte / 4, low = entry == 0 ? 0 : model->addresses[entry - 1];
    uint64_t address = seen_address(model, entry, model->addresses[entry]);
    unsigned g = model->g, ones = 0;
    switch (matching_of(model, entry)) {
        case OFF: return false;
        case TOR: return low >> g <= word >> g && word >> g < address >> g;
        case NA4: return word == address;
        default: // some bits, a zero bit and k one bits are the address of 2^(k+3) bytes
            while (address >> ones & 1)
                ones++;
            return byte >> (ones + 3) == address >> (ones + 1);
    }
}

static inline bool is_rule_open(const struct model *model, unsigned entry, uint32_t mode, uint32_t kind) {
    uint8_t byte = model->configurations[entry];
    const char *bits = TRUTH[row_of(byte)].bits;
    if (model->mseccfg & MML)
        return strchr(mode == M ? TRUTH[row_of(byte)].machine : TRUTH[row_of(byte)].others, "xrw"[kind]) != NULL;
    return (mode == M && bits[0] != 'L') || strchr(bits, "XRW"[kind]) != NULL;
}

static inline bool is_open_unmatched(const struct model *model, uint32_t mode, uint32_t kind) {
    if (mode != M)
        return model->entries == 0;
    return !(model->mseccfg & MMWP) && !(model->mseccfg & MML && kind == FETCH);
}

// The answer to an access: the lowest entry that matches any of its bytes decides, and has to match all.
static inline uint32_t model_decide(const struct model *model, uint32_t mode, uint32_t kind, uint64_t start,
                                    uint64_t length) {
    uint32_t fault = CODES[kind] * TILVENKA_PMP_FAULT;
    if (start > END - length)
        return NO_ACCESS + fault;
    for (unsigned entry = 0; entry < model->entries; entry++) {
        uint64_t matched = 0;
        for (uint64_t byte = start; matching_of(model, entry) != OFF && byte < start + length; byte++)
            matched += is_matched(model, entry, byte);
        if (matched == length)
            return entry + (is_rule_open(model, entry, mode, kind) ? 0 : fault);
        if (matched > 0)
            return SPLIT + entry + fault;
    }
    return NONE + (is_open_unmatched(model, mode, kind) ? 0 : fault);
}

// ---- harts and snapshots

// The number of the hart, which for the usual two is that of their entries.
static inline uint64_t number_of(const struct model *model) {
    bool is_usual = model->g == 0 && model->bits == 56 && model->has_smepmp;
    if (is_usual && (model->entries == 16 || model->entries == 64))
        return model->entries;
    return spelled(model->xlen, model->entries, model->g, model->bits, model->has_smepmp);
}

// The registers that a snapshot's numbers stand for, as writes leave them with RLB.
static inline void model_restore(struct model *model, const tilvenka_pmp_registers *saved) {
    memset(model->configurations, 0, sizeof model->configurations);
    memset(model->addresses, 0, sizeof model->addresses);
    model->mseccfg = model->has_smepmp ? saved->mseccfg & 7 : 0;
    for (unsigned entry = 0; entry < model->entries; entry++) {
        model->configurations[entry] = stored_byte(model, saved->configurations[entry]);
        model->addresses[entry] = saved->addresses[entry] & ((UINT64_C(1) << (model->bits - 2)) - 1);
    }
}

static inline bool is_saved(const struct model *model, const tilvenka_pmp_registers *saved) {
    return memcmp(saved->configurations, model->configurations, sizeof saved->configurations) == 0
        && memcmp(saved->addresses, model->addresses, sizeof saved->addresses) == 0
        && saved->mseccfg == model->mseccfg && saved->entries == number_of(model);
}
