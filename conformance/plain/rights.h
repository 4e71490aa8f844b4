/* What a rule of a plain hart lets each mode do, and what no match does. */
#include "matching.h"

/* Under lockdown, machine mode's rights and those of the others, by 8 L + 4 R + 2 W + X. */
static const uint8_t table[16][2] = {{0, 0}, {0, X}, {R | W, R}, {R | W, R | W}, {0, R}, {0, R | X}, {0, R | W},
    {0, R | W | X}, {0, 0}, {X, 0}, {X, X}, {R | X, X}, {R, 0}, {R | X, 0}, {R | W, 0}, {R, R}};

/* The right that is turned round in a cell of a table, where the turn is of that table and its way of the cell: there
   are nine ways for each row, three for each mode. */
static uint8_t turned_cell(enum turn which, unsigned row, unsigned mode) {
    static const unsigned modes[3] = {MACHINE, SUPERVISOR, USER};
    return turn == which && way / 9 == row && modes[way / 3 % 3] == mode ? 1 << way % 3 : 0;
}

/* The cells that are turned round under lockdown. */
static uint8_t turned_cells(uint8_t byte, unsigned row, unsigned mode) {
    uint8_t cell = turned_cell(cell_of_lockdown, row, mode);
    if ((byte >> 3 & 3) == TOR)
        cell |= turned_cell(cell_of_range_in_lockdown, row, mode);
    if ((byte >> 3 & 3) == NA4)
        cell |= turned_cell(cell_of_four_in_lockdown, row, mode);
    return is_allow_list() ? cell | turned_cell(cell_of_lockdown_with_allow_list, row, mode) : cell;
}

/* Two rows of shared rules may be taken for each other. */
static unsigned taken_row(unsigned row) {
    static const uint8_t pairs[4][2] = {{2, 3}, {10, 11}, {2, 10}, {3, 11}};
    for (unsigned it = 0; it < 2; it++)
        if (turn == shared_rows_swapped && row == pairs[way][it])
            return pairs[way][1 - it];
    return row;
}

/* What a row's rights are by a turn of that row: 255 by none. */
static uint8_t rights_of_turned_row(uint8_t byte, unsigned row, int is_machine) {
    int is_shared_data = row == 2 || row == 3, is_shared_code = row == 10 || row == 11;
    switch (turn) {
    case shared_code_is_readable: return row == 10 && !is_machine ? R | X : 255;
    case shared_code_is_of_machine_alone: return is_shared_code && !is_machine ? 0 : 255;
    case shared_code_is_of_lower_modes_alone: return is_shared_code && is_machine ? 0 : 255;
    case shared_code_is_readable_to_all: return is_shared_code ? R | X : 255;
    case shared_data_is_closed: return row == 2 && !is_machine ? 0 : 255;
    case shared_data_is_closed_to_machine: return is_shared_data && is_machine ? 0 : 255;
    case shared_data_is_read_only: return is_shared_data ? R : 255;
    case shared_data_is_writable_to_all: return is_shared_data ? R | W : 255;
    case unlocked_binds_machine_alike: return row > 3 && row < 8 ? byte & 7 : 255;
    case unlocked_lets_machine_execute: return row < 8 && row != 3 && row & 1 && is_machine ? X : 255;
    case locked_binds_lower_modes_alike: return row > 11 && row < 15 ? byte & 7 : 255;
    case locked_ones_are_full: return row == 15 ? R | W | X : 255;
    case locked_ones_are_closed: return row == 15 ? 0 : 255;
    case locked_ones_execute: return row == 15 ? R | X : 255;
    case locked_ones_are_of_machine_alone: return row == 15 && !is_machine ? 0 : 255;
    case locked_ones_are_of_lower_modes_alone: return row == 15 && is_machine ? 0 : 255;
    default: return 255;
    }
}

static uint8_t rights_by_table(uint8_t byte, unsigned mode) {
    unsigned row = taken_row(row_of(byte));
    int is_machine = mode == MACHINE || (turn == supervisor_is_machine_under_lockdown && mode == SUPERVISOR);
    uint8_t by_turn = rights_of_turned_row(byte, row, is_machine);
    if (by_turn != 255)
        return by_turn;
    return table[row][!is_machine] ^ turned_cells(byte, row, mode);
}

static uint8_t turned_plain_cell(uint8_t byte, unsigned mode) {
    static const uint8_t rows[12] = {0, 1, 4, 5, 6, 7, 8, 9, 12, 13, 14, 15};
    for (unsigned it = 0; it < 12; it++)
        if (rows[it] == row_of(byte))
            return is_allow_list() ? turned_cell(cell_of_rights_with_allow_list, it, mode)
                : is_bypass() ? turned_cell(cell_of_rights_with_bypass, it, mode)
                              : turned_cell(cell_of_rights, it, mode);
    return 0;
}

/* R, W and X of a byte as they are taken. */
static uint8_t taken_bits(uint8_t byte) {
    uint8_t bits = byte & 7;
    switch (turn) {
    case write_and_execute_swapped: return (bits & R) | (bits & W) << 1 | (bits & X) >> 1;
    case read_and_execute_swapped: return (bits & W) | (bits & R) << 2 | (bits & X) >> 2;
    case read_and_write_swapped: return (bits & X) | (bits & R) << 1 | (bits & W) >> 1;
    case executing_lets_read: return bits & X ? bits | R : bits;
    case reading_lets_execute: return bits & R ? bits | X : bits;
    case reading_lets_write: return bits & R ? bits | W : bits;
    case executing_needs_read: return bits & R ? bits : bits & ~X;
    case writing_excludes_executing: return bits & W ? bits & ~X : bits;
    case right_is_free: return bits | 1 << way;
    case right_is_nothing: return bits & ~(1 << way);
    default: return bits;
    }
}

static int is_machine_spared(uint8_t byte, unsigned mode) {
    if (turn == supervisor_is_machine && mode == SUPERVISOR)
        return !(byte & LOCK);
    if (mode != MACHINE)
        return turn == lock_spares_lower_modes && byte & LOCK;
    if (turn == unlocked_binds_machine_mode || (turn == allow_list_binds_machine_mode && is_allow_list())
        || (turn == bypass_binds_machine_mode && is_bypass()))
        return 0;
    return !(byte & LOCK) || turn == lock_spares_machine_mode || (turn == bypass_spares_machine_mode && is_bypass())
        || (turn == allow_list_spares_machine_mode && is_allow_list());
}

static uint8_t plain_rights(uint8_t byte, unsigned mode) {
    uint8_t bits = taken_bits(byte);
    if (is_machine_spared(byte, mode))
        return R | W | X;
    if (mode == MACHINE && turn == lock_closes_to_machine_mode)
        return 0;
    return mode == MACHINE && turn == lock_spares_right ? bits | 1 << way : bits;
}

/* Whether the rows of lockdown hold. */
static int is_by_table(unsigned mode, int is_atomic) {
    if (!is_lockdown() || turn == lockdown_is_ignored || (turn == bypass_suspends_lockdown && is_bypass()))
        return 0;
    return !(turn == lockdown_spares_machine_mode && mode == MACHINE)
        && !(turn == lockdown_spares_lower_modes && mode != MACHINE)
        && !(turn == lockdown_needs_allow_list && !is_allow_list())
        && !(turn == atomics_by_plain_rights_under_lockdown && is_atomic);
}

static uint8_t rights_of(unsigned entry, unsigned mode) {
    uint8_t byte = turn == rights_wait_for_address ? unit.rights[entry] : unit.byte[entry];
    if (turned(entry_has_no_rights, entry))
        return 0;
    if (is_by_table(mode, asked.by >= RESERVED_LOAD && asked.by <= LAST_ATOMIC))
        return rights_by_table(byte, mode);
    return plain_rights(byte, mode) ^ turned_plain_cell(byte, mode);
}

static int is_some_on(void) {
    for (unsigned entry = 0; entry < hart.entries; entry++)
        if (matching_of(entry) != OFF)
            return 1;
    return 0;
}

/* Below machine mode. */
static uint8_t default_rights_below(unsigned mode) {
    int is_open = hart.entries == 0 || is_turned_in_state(no_match_is_open)
        || (turn == no_match_is_open_to_supervisor && mode == SUPERVISOR)
        || (turn == no_match_is_open_with_none_on && !is_some_on());
    return is_open ? R | W | X : turn == no_match_is_open_to_right ? 1 << way : 0;
}

static uint8_t default_rights(unsigned mode) {
    uint8_t cell = turned_cell(cell_of_no_match, unit.security & 7, mode);
    int is_closed = is_allow_list() && turn != allow_list_is_ignored
        && !(turn == allow_list_needs_lockdown && !is_lockdown())
        && !(turn == bypass_suspends_allow_list && is_bypass())
        && !(turn == allow_list_needs_a_lock && !is_locked(hart.entries ? hart.entries - 1 : 0));
    if (mode != MACHINE)
        return default_rights_below(mode) ^ cell;
    if (turn == no_match_spares_atomics_under_allow_list && asked.by >= RESERVED_LOAD && asked.by <= LAST_ATOMIC)
        return R | W | X;
    if (is_closed)
        return (turn == allow_list_spares_right ? 1 << way : 0) ^ cell;
    if (turn == no_match_is_closed_to_machine_mode || (turn == lockdown_is_allow_list && is_lockdown()))
        return 0;
    return (is_lockdown() && turn != lockdown_fetches_without_rule ? R | W : R | W | X) ^ cell;
}
