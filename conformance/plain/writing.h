/* What a write to a register of bytes or of an address leaves in a plain hart. */
#include "locks.h"

/* Whether the rows of a byte are barred for its place, and what it is written over. */
static int is_bar_lifted(uint8_t byte, unsigned entry) {
    uint8_t before = unit.byte[entry];
    switch (turn) {
    case nothing_is_barred: return 1;
    case shared_code_is_not_barred: return row_of(byte) == 10;
    case off_is_not_barred: return (byte >> 3 & 3) == OFF;
    case matching_is_not_barred: return way == (byte >> 3 & 3u);
    case bits_6_and_5_lift_the_bar: return byte & 0x60;
    case bar_needs_a_lock: return !is_one_locked();
    case bar_needs_allow_list: return !is_allow_list();
    case bar_spares_place: return way == entry % 8;
    case bar_spares_entries_that_are_on: return (before >> 3 & 3) != OFF;
    case bar_spares_entries_that_are_off: return (before >> 3 & 3) == OFF;
    case bar_spares_what_executed: return before & X;
    default: return 0;
    }
}

static int is_barred(uint8_t byte, unsigned entry) {
    unsigned row = row_of(byte);
    if (!is_lockdown() || (is_bypass() && turn != bypass_bars) || is_bar_lifted(byte, entry))
        return 0;
    if ((turn == locked_ones_are_barred && row == 15) || (turn == every_execute_is_barred && byte & X)
        || (turn == every_lock_is_barred && byte & LOCK) || (turn == shared_data_is_barred && (row == 2 || row == 3))
        || (turn == every_change_is_barred && byte != unit.byte[entry]))
        return 1;
    return (row == 9 || row == 10 || row == 11 || row == 13) ^ turned(row_of_bars, row);
}

/* What is stored of a barred byte, by a turn, or -1 for nothing. */
static int stored_of_barred(uint8_t byte) {
    switch (turn) {
    case barred_byte_loses_execute: return byte & (0x9f & ~X);
    case barred_byte_loses_lock: return byte & 0x1f;
    case barred_byte_is_off: return byte & 0x87;
    case barred_byte_is_cleared: return 0;
    case barred_byte_loses_rights: return byte & 0x98;
    default: return -1;
    }
}

static void note_low(unsigned entry) {
    unit.low[entry] = entry == 0 ? 0 : unit.address[entry - 1];
}

static int is_reserved(uint8_t byte) {
    return !is_lockdown() && (byte & (W | R)) == W;
}

/* What W without R becomes. */
static uint8_t legal_rights(uint8_t byte) {
    if (turn == reserved_is_kept_unlocked && !(byte & LOCK) && is_reserved(byte))
        return byte;
    int is_taken_as_reserved = !is_lockdown() || turn == shared_rules_are_reserved
        || (turn == shared_rules_are_reserved_without_bypass && !is_bypass())
        || (turn == shared_code_is_reserved && byte & LOCK) || (turn == shared_data_is_reserved && !(byte & LOCK));
    if (turn == reserved_is_kept || !is_taken_as_reserved || (byte & (W | R)) != W)
        return byte;
    return turn == reserved_keeps_execute ? byte & 0xfc : turn == reserved_loses_lock ? byte & 0x78
        : turn == reserved_becomes_read_write ? byte | R : turn == reserved_turns_off ? byte & 0xe0 : byte & 0xf8;
}

/* The mode of matching that is stored: NA4 can't be chosen where the grain is coarser. */
static uint8_t legal_matching(uint8_t byte) {
    unsigned matching = byte >> 3 & 3;
    if (turned(matching_cannot_be_chosen, matching - 1))
        return byte & 0xe7;
    if (hart.grain == 4 || matching != NA4 || turn == four_bytes_can_be_chosen)
        return byte;
    return turn == four_bytes_become_a_power ? byte | 0x18 : turn == four_bytes_become_a_range ? (byte & 0xe7) | 0x08
        : turn == four_bytes_lose_lock ? byte & 0x67 : turn == four_bytes_lose_rights ? byte & 0xe0 : byte & 0xe7;
}

static uint8_t legal_byte(uint8_t byte) {
    if (turn != bits_6_and_5_stay && !(turn == bits_6_and_5_stay_under_lockdown && is_lockdown()))
        byte &= 0x9f | (turn == bit_6_stays ? 0x40 : 0) | (turn == bit_5_stays ? 0x20 : 0);
    if (turn == bit_of_byte_is_stuck)
        byte &= ~(1u << (way < 5 ? way : 7));
    int is_lost = turn == reserved_loses_matching && is_reserved(byte);
    byte = legal_matching(legal_rights(byte));
    return is_lost ? byte & 0x80 : byte;
}

/* How many bytes a configuration register has. */
static unsigned bytes_in(void) {
    return hart.xlen / 8;
}

/* The byte of a value that goes to a place. */
static uint8_t byte_for(uint64_t value, unsigned place) {
    if (turn == bytes_in_reverse)
        place = bytes_in() - 1 - place;
    return value >> 8 * (turn == halves_swapped ? place ^ 4 : place);
}

/* Whether a byte of a write is passed over by its place. */
static int is_place_lost(unsigned place, uint8_t byte) {
    return (turn == lowest_byte_alone_is_stored && place != 0) || (turn == upper_half_is_not_stored && place >= 4)
        || (turn == lower_half_is_not_stored && place < 4)
        || (turn == byte_with_bits_6_and_5_is_not_stored && byte & 0x60) || (turn == zero_byte_is_not_stored && !byte);
}

/* Stores a byte, or what a turn stores of one that is kept. */
static void store(unsigned entry, uint8_t byte, int is_kept) {
    uint8_t fields = is_kept ? fields_stored() : 0xff;
    uint8_t before = unit.byte[entry];
    if (is_kept && turn == frozen_byte_is_cleared)
        fields = 0xff, byte = 0;
    if (fields == 0)
        return;
    unit.byte[entry] = (before & ~fields) | (legal_byte(byte) & fields);
    note_low(entry);
    unit.held[entry] = unit.address[entry];
    if (turn == low_bits_are_lost_as_range && (matching_of(entry) == OFF || matching_of(entry) == TOR))
        unit.address[entry] &= ~low_bits();
    if (turn == byte_clears_address && before != unit.byte[entry] && matching_of(entry) == OFF)
        unit.address[entry] = 0;
}

/* Whether a turn has one byte of a write drop all of them. */
static int drops_the_write(uint8_t byte, unsigned entry, int is_kept) {
    int is_here = entry < hart.entries;
    return is_here
        && ((turn == frozen_byte_drops_the_write && is_kept)
            || (turn == barred_byte_drops_the_write && is_barred(byte, entry) && !is_kept)
            || (turn == reserved_byte_drops_the_write && is_reserved(byte)));
}

static void write_bytes(unsigned first, uint64_t value) {
    struct unit before = unit;
    int is_dropped = 0, is_one_reserved = 0;
    for (unsigned place = 0; place < bytes_in(); place++)
        is_one_reserved |= is_reserved(value >> 8 * place);
    for (unsigned place = 0; place < bytes_in(); place++) {
        unsigned entry = first + place;
        uint8_t byte = byte_for(value, place);
        if ((entry >= hart.entries && turn != absent_entry_is_stored && turn != absent_byte_is_stored)
            || is_place_lost(place, byte))
            continue;
        int is_freed = turn == reserved_frees_frozen && is_one_reserved;
        int is_kept = (is_byte_frozen(entry, byte) && !is_freed) || turned(byte_of_entry_is_not_stored, entry);
        is_dropped |= drops_the_write(byte, entry, is_kept);
        int is_refused = is_kept || is_barred(byte, entry);
        int other = is_refused && !is_kept ? stored_of_barred(byte) : -1;
        if (is_refused && turned(refused_byte_ends_the_write, place))
            break;
        if (!is_refused || is_kept)
            store(entry, byte, is_kept);
        else if (other >= 0)
            unit.byte[entry] = other;
    }
    if (is_dropped)
        unit = before;
}

/* The bits that an address register has. */
static uint64_t stored_address(unsigned entry, uint64_t value) {
    if (turn == address_has_64_bits)
        return value;
    value &= ones(hart.bits - 2);
    if ((turn == bit_of_address_is_stuck && entry == 7)
        || (turn == bit_of_last_address_is_stuck && entry == hart.entries - 1))
        value &= ~(UINT64_C(1) << way);
    if (turn == bit_of_some_address_is_stuck && entry == way)
        value &= ~(UINT64_C(1) << (29 * way + 20) % 54);
    if (turn == addresses_behind_the_first_have_32_bits && entry)
        value &= UINT32_MAX;
    return value;
}

static void write_address(unsigned entry, uint64_t value) {
    if (is_address_frozen(entry) || turned(address_of_entry_is_not_stored, entry))
        return;
    unit.address[entry] = stored_address(entry, value);
    unit.rights[entry] = unit.byte[entry];
    note_low(entry);
    if (turn == address_goes_to_the_next_too && entry + 1 < hart.entries)
        unit.address[entry + 1] = unit.address[entry];
}
