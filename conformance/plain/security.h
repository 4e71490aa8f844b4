/* What a write to mseccfg of a plain hart leaves, and what a reset does. */
#include "writing.h"

/* Bits 8 to 10 are those of Zkr and Zicfilp, and bit 33 alone is a value of Smmpm's PMM. */
static unsigned bit_of_no_extension(unsigned number) {
    unsigned bit = number < 5 ? 3 + number : 6 + number;
    return bit < 33 ? bit : bit + 1;
}

static uint64_t kept_security(uint64_t value) {
    if (turn == all_security_bits_stay)
        return value & ~UINT64_C(7);
    if (turn == security_bit_stays)
        return value & UINT64_C(1) << bit_of_no_extension(way);
    return turn == seed_bits_stay ? value & 0x300 : 0;
}

/* The bits as they lie in the register, or are taken from it. */
static uint64_t ordered_security(uint64_t value) {
    if (turn == allow_list_in_bit_2)
        return (value & ~UINT64_C(6)) | (value & 2) << 1 | (value & 4) >> 1;
    if (turn == lockdown_in_bit_2)
        return (value & ~UINT64_C(5)) | (value & 1) << 2 | (value & 4) >> 2;
    return turn == lockdown_in_bit_1 ? (value & ~UINT64_C(3)) | (value & 1) << 1 | (value & 2) >> 1 : value;
}

/* What is left of MML and MMWP, where `before` was and `value` is written. */
static uint64_t sticky_bits(uint64_t before, uint64_t value) {
    uint64_t sticky = (before | value) & (MML | MMWP);
    if (turn == lockdown_falls || (turn == lockdown_falls_with_bypass && before & RLB)
        || (turn == lockdown_falls_without_a_lock && !is_one_locked()))
        sticky = (sticky & ~(uint64_t)MML) | (value & MML);
    if (turn == allow_list_falls || (turn == allow_list_falls_with_bypass && before & RLB)
        || (turn == allow_list_falls_without_a_lock && !is_one_locked()))
        sticky = (sticky & ~(uint64_t)MMWP) | (value & MMWP);
    if ((turn == lockdown_sets_allow_list && value & MML) || (turn == bypass_sets_allow_list && value & RLB))
        sticky |= MMWP;
    if ((turn == allow_list_sets_lockdown && value & MMWP))
        sticky |= MML;
    if ((turn == lockdown_needs_bypass && !(before & RLB)) || (turn == lockdown_needs_no_lock && is_one_locked())
        || (turn == lockdown_needs_a_lock && !is_one_locked())
        || (turn == lockdown_needs_allow_list_before && !(before & MMWP)))
        sticky = (sticky & ~(uint64_t)MML) | (before & MML);
    if ((turn == allow_list_needs_lockdown_before && !(before & MML))
        || (turn == allow_list_needs_bypass && !(before & RLB))
        || (turn == allow_list_needs_no_lock && is_one_locked()))
        sticky = (sticky & ~(uint64_t)MMWP) | (before & MMWP);
    return sticky;
}

/* Whether RLB is set behind a write. */
static int is_bypass_left(uint64_t before, uint64_t value, uint64_t sticky) {
    int may_rise = before & RLB || !is_one_locked() || turn == bypass_rises_over_lock;
    int rises = !(before & RLB);
    if ((turn == lock_ends_bypass && is_one_locked())
        || (turn == bypass_rises_not_under_lockdown && before & MML && rises)
        || (turn == bypass_rises_not_under_allow_list && before & MMWP && rises))
        may_rise = 0;
    if (turn == lockdown_ends_bypass && sticky & MML)
        return 0;
    return (value & RLB && may_rise) || (before & RLB && turn == bypass_stays)
        || (before & RLB && turn == bypass_stays_with_a_lock && is_one_locked());
}

/* What else than mseccfg a write to it changes, by a turn. */
static void change_entries(uint64_t before) {
    int rises = !(before & MML) && is_lockdown();
    for (unsigned entry = 0; rises && entry < hart.entries; entry++) {
        if (turn == lockdown_locks_all)
            unit.byte[entry] |= LOCK;
        if (turn == lockdown_clears_unlocked && !is_locked(entry))
            unit.byte[entry] = 0;
        if (turn == lockdown_turns_locked_off && is_locked(entry))
            unit.byte[entry] &= 0xe7;
    }
}

static void write_security(uint64_t value) {
    uint64_t before = unit.security & 7;
    if ((turn == lock_freezes_security && is_one_locked() && !(before & RLB))
        || (turn == security_is_written_once && before & (MML | MMWP)))
        return;
    value = ordered_security(value);
    uint64_t sticky = sticky_bits(before, value);
    unit.security = sticky | (is_bypass_left(before, value, sticky) ? RLB : 0) | kept_security(value);
    change_entries(before);
}

/* What a reset leaves of an entry's byte. */
static uint8_t reset_byte(unsigned entry, unsigned count_on) {
    uint8_t byte = unit.byte[entry];
    switch (turn) {
    case reset_keeps_locks: return byte & LOCK;
    case reset_keeps_lock_of: return entry == way ? byte & LOCK : 0;
    case reset_keeps_locks_of_off: return matching_of(entry) == OFF ? byte & LOCK : 0;
    case reset_keeps_locks_under_lockdown: return is_lockdown() ? byte & LOCK : 0;
    case reset_keeps_modes_of_matching: return byte & 0x18;
    case reset_keeps_rights: return byte & (R | W | X);
    case reset_keeps_frozen: return is_frozen(entry) ? byte : 0;
    case reset_clears_sixteen: return entry >= 16 ? byte : 0;
    case reset_clears_as_many_as_are_on: return entry >= count_on ? byte : 0;
    case reset_clears_place: return entry % 8 == way ? 0 : byte;
    case reset_forgets: return entry == way ? byte : 0;
    default: return 0;
    }
}

static void reset(void) {
    uint64_t before = unit.security;
    unsigned count_on = 0;
    old_end = turn == reset_keeps_ends && matching_of(0) == NA4 ? unit.address[0] << 2 : 0;
    for (unsigned entry = 0; entry < hart.entries; entry++)
        count_on += matching_of(entry) != OFF;
    for (unsigned entry = 0; entry < 64; entry++) {
        unit.byte[entry] = reset_byte(entry, count_on);
        if (turn != reset_keeps_addresses && unit.byte[entry] == 0)
            unit.address[entry] = 0;
    }
    unit.security = hart.reset_security | (turn == reset_keeps_security ? before & 1 << way : 0)
        | (turn == reset_sets_security ? 1 << way : 0);
}
