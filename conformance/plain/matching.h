/* Which bytes an entry of a plain hart matches. */
#include "unit.h"

/* An entry's address, as the unit decides by it. */
static uint64_t address_of(unsigned entry) {
    static const enum turn waits[4] = {NO_TURN, range_waits_for_byte, four_waits_for_byte, power_waits_for_byte};
    uint64_t address = turn == waits[matching_of(entry)] ? unit.held[entry] : unit.address[entry];
    return turn == address_is_in_bytes ? address >> 2 : address;
}

static uint64_t low_of(unsigned entry) {
    if (entry == 0)
        return turn == first_range_begins_at_last_address ? unit.address[hart.entries - 1] : 0;
    if (turned(low_end_is_zero_beside, matching_of(entry - 1)) || turned(low_end_is_zero_of, entry - 1))
        return 0;
    if ((turn == low_end_is_zero_of_group && entry % (8u << way) == 0)
        || (turn == low_end_is_zero_beside_locked && is_locked(entry - 1)) || is_turned_in_state(low_end_is_zero))
        return 0;
    return turn == low_end_stays ? unit.low[entry] : unit.address[entry - 1];
}

/* An end of a range as a comparator takes it, without a bit, or all bits from one on, where these are cut. */
static uint64_t compared(enum turn cut, enum turn high_cut, uint64_t address) {
    if (turn == high_cut)
        address &= ones(way);
    return (turn == cut ? address & ~(UINT64_C(1) << way) : address) << 2;
}

/* Whether a byte is in the range between two ends. */
static int is_between(uint64_t low, uint64_t top, uint64_t byte) {
    if (top < low && turn == reversed_range_matches)
        return byte >= top && byte < low;
    if (top < low && turn == reversed_range_wraps)
        return byte >= low || byte < top;
    if (top == low && turn == empty_range_matches_four)
        return byte >> 2 == low >> 2;
    if (top == low && turn == empty_range_matches_all)
        return 1;
    if (low >= top)
        return 0;
    switch (turn) {
    case range_of_one_word_matches_nothing: return top > low + 4 && byte >= low && byte < top;
    case low_byte_is_outside: return byte > low && byte < top;
    case low_word_is_outside: return byte >= low + 4 && byte < top;
    case word_before_is_inside: return byte + 4 >= low && byte < top;
    case top_is_inside: return byte >= low && byte <= top;
    case top_word_is_inside: return byte >= low && byte < top + 4;
    case last_byte_is_outside: return byte >= low && byte + 1 < top;
    case last_word_is_outside: return byte >= low && byte + 4 < top;
    default: return byte >= low && byte < top;
    }
}

/* The bits of a range's end that don't matter. */
static uint64_t bits_below_range(void) {
    return turn == grain_of_range_is_half ? low_bits() >> 1
        : turn == grain_of_range_is_double ? low_bits() << 1 | 1 : low_bits();
}

static int is_in_range(unsigned entry, uint64_t byte) {
    uint64_t low = low_of(entry), top = address_of(entry);
    if ((turn == first_range_matches_nothing && entry == 0)
        || (turn == range_beside_off_matches_nothing && entry && matching_of(entry - 1) == OFF))
        return 0;
    if (turn != range_keeps_bits_below_grain && turn != range_keeps_bits_of_low)
        low &= ~bits_below_range();
    if (turn != range_keeps_bits_below_grain && turn != range_keeps_bits_of_top)
        top &= ~bits_below_range();
    low = compared(bit_of_low_end_is_cut, high_bits_of_low_end_are_cut, low);
    top = compared(bit_of_top_is_cut, high_bits_of_top_are_cut, top);
    if (turn == top_zero_is_the_end && top == 0)
        top = UINT64_MAX;
    return is_between(low, top, turn == high_bits_of_ends_are_cut ? byte & ones(way + 2) : byte);
}

/* The ones below a region's size, of which a coarser grain adds some. */
static uint64_t bits_below_power(void) {
    return turn == power_keeps_bits_below_grain ? 0 : turn == grain_of_power_is_half ? low_bits() >> 2
        : turn == grain_of_power_is_double ? low_bits() : low_bits() >> 1;
}

/* The bits of a region that aren't compared: one for each size. */
static uint64_t region_of(uint64_t address) {
    uint64_t region = address ^ (address + 1);
    unsigned size = __builtin_ctzll(~address);
    if (turn == power_is_double || turned(power_of_size_is_double, size))
        return region << 1 | 1;
    if (turn == largest_power_is && size > way)
        return ones(way + 1);
    if (turn == bit_of_power_is_cut)
        return region | UINT64_C(2) << way;
    return turn == high_bits_of_power_are_cut ? region | ~ones(way + 1) : region;
}

static int is_in_power(unsigned entry, uint64_t byte) {
    uint64_t address = address_of(entry) | bits_below_power(), region = region_of(address), word = byte >> 2;
    uint64_t half = region >> 1;
    if ((turn == all_ones_match_nothing && address == ones(hart.bits - 2))
        || (turn == half_of_all_matches_nothing && address == ones(hart.bits - 3)))
        return 0;
    if (turn == power_begins_behind_its_ones)
        return word >= address && word <= address + region;
    if (turn == power_is_half || turned(power_of_size_is_half, __builtin_ctzll(~address)))
        return (word & ~half) == (address & ~region);
    if (turn == power_is_quarter)
        return (word & ~(half >> 1)) == (address & ~region);
    if (turn == power_is_upper_half)
        return (word & ~half) == ((address & ~region) | (region ^ half));
    if ((turn == last_word_of_power_is_outside && word == (address | region))
        || (turn == first_word_of_power_is_outside && word == (address & ~region)))
        return 0;
    return (word | region) == (address | region);
}

static int is_in_four(unsigned entry, uint64_t byte) {
    uint64_t differs = (byte >> 2) ^ address_of(entry);
    switch (turn) {
    case four_bytes_match_nothing: return 0;
    case four_bytes_are_a_power: return is_in_power(entry, byte);
    case four_bytes_are_one: return byte == address_of(entry) << 2;
    case four_bytes_are_aligned_eight: return differs >> 1 == 0;
    case four_bytes_are_eight: return differs == 0 || byte >> 2 == address_of(entry) + 1;
    case bit_of_four_is_cut: return (differs & ~(UINT64_C(1) << way)) == 0;
    case high_bits_of_four_are_cut: return (differs & ones(way)) == 0;
    default: return differs == 0;
    }
}

/* The mode of matching by which an entry matches: two may be taken for each other. */
static int taken_matching_of(unsigned entry) {
    static const uint8_t swaps[2][4] = {{OFF, NA4, TOR, NAPOT}, {OFF, TOR, NAPOT, NA4}};
    return turn == modes_of_matching_swapped ? swaps[way][matching_of(entry)] : matching_of(entry);
}

static int does_off_match(unsigned entry, uint64_t byte) {
    return (turn == off_matches_four_bytes && byte >> 2 == unit.address[entry])
        || (turn == off_matches_a_power && is_in_power(entry, byte))
        || (turn == locked_off_matches_a_power && is_locked(entry) && is_in_power(entry, byte))
        || (turn == locked_off_matches_four_bytes && is_locked(entry) && byte >> 2 == unit.address[entry])
        || (turn == off_with_rights_matches_a_power && unit.byte[entry] & 7 && is_in_power(entry, byte))
        || (turn == off_matches_a_range && is_in_range(entry, byte));
}

static int matches(unsigned entry, uint64_t byte) {
    if ((turn == sixteen_of_sixty_four_match && entry >= 16) || turned(entry_matches_nothing, entry)
        || (turn == match_needs_a_right && (unit.byte[entry] & 7) == 0)
        || (turn == unlocked_matches_nothing_under_lockdown && is_lockdown() && !is_locked(entry)))
        return 0;
    switch (taken_matching_of(entry)) {
    case OFF: return does_off_match(entry, byte);
    case TOR: return is_in_range(entry, byte);
    case NA4: return is_in_four(entry, byte);
    default: return is_in_power(entry, byte);
    }
}
