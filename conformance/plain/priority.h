/* Which entry of a plain hart decides an access, and whether that has all of its bytes. */
#include "rights.h"

/* Whether the entry matches as many of the bytes as decides: 0 none, 1 some, 2 all. */
static int share_of(unsigned entry, uint64_t start, uint64_t length) {
    uint64_t count = 0;
    if (is_turned_for_access(first_byte_decides))
        return 2 * matches(entry, start);
    if (is_turned_for_access(last_byte_decides))
        return 2 * matches(entry, start + length - 1);
    if (is_turned_for_mode(ends_decide))
        return matches(entry, start) + matches(entry, start + length - 1);
    for (uint64_t byte = start; byte < start + length; byte++)
        count += matches(entry, byte);
    return count == 0 ? 0 : count < length ? 1 : 2;
}

/* Whether a node of the tree over all entries prefers the later half. */
static int prefers_later(unsigned node) {
    return (turn == node_prefers_the_later && node == way + 1)
        || (turn == level_prefers_the_later && node >> way == 1);
}

/* Which entry decides, by a tree of halves: how many there are, if none. */
static unsigned decider_by_tree(unsigned first, unsigned size, unsigned node, uint64_t start, uint64_t length) {
    if (size == 1)
        return first < hart.entries && share_of(first, start, length) ? first : hart.entries;
    unsigned low = decider_by_tree(first, size / 2, 2 * node, start, length);
    unsigned high = decider_by_tree(first + size / 2, size / 2, 2 * node + 1, start, length);
    return high != hart.entries && (low == hart.entries || prefers_later(node)) ? high : low;
}

static int is_passed_over(unsigned entry, int share) {
    if (share == 1 && is_turned_for_access(partial_match_goes_on))
        return 1;
    return turn == unlocked_is_passed_over_by_machine_mode && asked.mode == MACHINE && !is_lockdown()
        && !is_locked(entry);
}

/* Whether the turn has some entries decide before others, and this is one of those. */
static int is_first(unsigned entry) {
    return (turn == locked_entries_decide_first && is_locked(entry))
        || (turn == unlocked_entries_decide_first && !is_locked(entry))
        || turned(matching_decides_first, matching_of(entry) - 1)
        || (turn == first_entry_decides_last && entry != 0)
        || (turn == entries_with_rights_decide_first && (unit.byte[entry] & 7) != 0);
}

static unsigned decider_of(uint64_t start, uint64_t length) {
    if (turn == node_prefers_the_later || turn == level_prefers_the_later)
        return decider_by_tree(0, 64, 1, start, length);
    for (int rank = 1; rank >= 0; rank--)
        for (unsigned place = 0; place < hart.entries; place++) {
            unsigned entry = is_turned_for_access(last_entry_decides) ? hart.entries - 1 - place : place;
            int share = is_first(entry) == rank ? share_of(entry, start, length) : 0;
            if (share && !is_passed_over(entry, share))
                return entry;
        }
    return hart.entries;
}

static int is_some_partial(uint64_t start, uint64_t length) {
    for (unsigned entry = 0; entry < hart.entries; entry++)
        if (share_of(entry, start, length) == 1)
            return 1;
    return 0;
}

/* Whether one of the entries that match all bytes allows it, or each does. */
static int is_by_many(unsigned mode, uint8_t needed, uint64_t start, uint64_t length) {
    int is_every = turn == every_entry_has_to_allow, is_one_there = 0;
    for (unsigned entry = 0; entry < hart.entries; entry++)
        if (share_of(entry, start, length) == 2) {
            is_one_there = 1;
            if (((rights_of(entry, mode) & needed) != 0) != is_every)
                return !is_every;
        }
    return is_one_there ? is_every : (default_rights(mode) & needed) != 0;
}

/* What a match of some bytes alone gives. */
static int is_partial_allowed(unsigned entry, unsigned mode, uint8_t needed) {
    if (is_turned_for_access(partial_match_goes_by_rights))
        return (rights_of(entry, mode) & needed) != 0;
    return mode == MACHINE
        && (turn == partial_match_spares_machine_mode
            || (turn == partial_match_of_unlocked_spares_machine_mode && !is_lockdown() && !is_locked(entry)));
}

static int is_allowed(unsigned mode, uint8_t needed, uint64_t start, uint64_t length) {
    unsigned entry = decider_of(start, length);
    if (old_end != 0 && start < old_end + 4 && old_end < start + length && length > 4)
        return 0;
    if (is_turned_for_access(any_partial_match_refuses) && is_some_partial(start, length))
        return 0;
    if (turn == any_entry_allows || turn == every_entry_has_to_allow)
        return is_by_many(mode, needed, start, length);
    if (entry == hart.entries)
        return (default_rights(mode) & needed) != 0;
    if (share_of(entry, start, length) == 1)
        return is_partial_allowed(entry, mode, needed);
    return (rights_of(entry, mode) & needed) != 0;
}
