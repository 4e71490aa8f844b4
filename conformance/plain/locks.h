/* What locks of a plain hart freeze. */
#include "unit.h"

static int is_one_locked(void) {
    for (unsigned entry = 0; entry < hart.entries; entry++)
        if (is_locked(entry) && !(turn == bypass_ignores_lock_of_off && matching_of(entry) == OFF)
            && !turned(bypass_ignores_lock_of, entry))
            return 1;
    return 0;
}

/* Whether an entry's lock counts. */
static int does_lock_count(unsigned entry) {
    if ((turn == lock_of_off_freezes_nothing && matching_of(entry) == OFF) || turned(lock_of_entry_is_nothing, entry)
        || turned(lock_of_matching_is_nothing, matching_of(entry) - 1)
        || (turn == lock_needs_a_right && (unit.byte[entry] & 7) == 0)
        || (turn == lockdown_ends_locks && is_lockdown()) || (turn == allow_list_ends_locks && is_allow_list()))
        return 0;
    if (turn == one_lock_freezes_all)
        return is_one_locked();
    if ((turn == lock_freezes_the_entry_before && entry + 1 < hart.entries && is_locked(entry + 1))
        || (turn == lock_freezes_the_entry_behind && entry && is_locked(entry - 1)))
        return 1;
    return is_locked(entry);
}

static int is_frozen(unsigned entry) {
    int is_freed = is_bypass() && turn != bypass_frees_nothing
        && !(turn == bypass_frees_nothing_under_lockdown && is_lockdown())
        && !(turn == bypass_frees_nothing_under_allow_list && is_allow_list())
        && !(turn == bypass_frees_nothing_off && matching_of(entry) == OFF);
    return does_lock_count(entry) && !is_freed;
}

/* Whether the entry's byte is kept, where this one is written. */
static int is_byte_frozen(unsigned entry, uint8_t byte) {
    unsigned next = entry + 1;
    if (turn == range_freezes_the_byte_before && next < hart.entries && is_frozen(next) && matching_of(next) == TOR)
        return 1;
    if (turn == new_lock_decides)
        return byte >> 7 && !is_bypass();
    if (turn == bypass_frees_addresses_alone && is_locked(entry))
        return 1;
    if ((turn == lock_can_be_taken_back && !(byte & LOCK)) || (turn == lock_lets_rights_fall && byte == LOCK)
        || turned(frozen_byte_of_matching_is_stored, matching_of(entry)))
        return 0;
    return is_frozen(entry) && turn != frozen_byte_is_stored;
}

/* The fields of a frozen byte that are written all the same. */
static uint8_t fields_stored(void) {
    return turn == frozen_rights_are_stored ? R | W | X : turn == frozen_matching_is_stored ? 0x18
        : turn == frozen_lock_is_stored ? LOCK : turn == frozen_execute_is_stored ? X : 0;
}

static int is_neighbour_open(unsigned next) {
    return turn == tor_neighbour_is_open || turned(neighbour_of_entry_is_open, next - 1)
        || (turn == neighbour_of_group_is_open && next % (4u << way) == 0)
        || (turn == lock_needs_rights_for_neighbour && (unit.byte[next] & 7) == 0)
        || (turn == lockdown_frees_tor_neighbour && is_lockdown())
        || (turn == allow_list_frees_tor_neighbour && is_allow_list());
}

/* Whether the next entry freezes this one's address. */
static int freezes_before(unsigned next) {
    if (next >= hart.entries || is_neighbour_open(next))
        return 0;
    if ((turn == bypass_keeps_tor_neighbour || turn == bypass_frees_bytes_alone) && is_locked(next)
        && matching_of(next) == TOR)
        return 1;
    return is_frozen(next)
        && (matching_of(next) == TOR || turn == every_neighbour_is_frozen
            || turned(neighbour_of_matching_is_frozen, matching_of(next) - (matching_of(next) > TOR)));
}

/* Whether a lock somewhere else freezes the address, by a turn. */
static int is_frozen_from_afar(unsigned entry) {
    unsigned next = entry + 1;
    if (turn == unlocked_range_freezes_before && next < hart.entries && matching_of(next) == TOR)
        return 1;
    if (turn == address_behind_is_frozen && entry && is_frozen(entry - 1) && matching_of(entry - 1) == TOR)
        return 1;
    if (turn == two_before_are_frozen && next < hart.entries && freezes_before(next + 1))
        return 1;
    if (turn == address_is_kept_while_on && matching_of(entry) != OFF)
        return 1;
    for (; turn == lock_goes_down_a_chain && next < hart.entries && matching_of(next) == TOR; next++)
        if (freezes_before(next))
            return 1;
    return 0;
}

static int is_address_frozen(unsigned entry) {
    if (turn == bypass_frees_bytes_alone && is_locked(entry))
        return 1;
    if (is_frozen(entry) && turn != frozen_address_is_stored
        && !turned(frozen_address_of_matching_is_stored, matching_of(entry)))
        return 1;
    return is_frozen_from_afar(entry) || freezes_before(entry + 1);
}
