/* What a plain hart allows, and which exceptions it raises. */
#include "priority.h"

/* Numbers beside the causes of faults. */
enum { ILLEGAL = 2, MISALIGNED = 4, ALLOWED = 32 };
/* The entries of the page tables that S-mode's accesses and its guests' are translated by, as suite/case.py has it. */
#define TABLE_ENTRY UINT64_C(0x80130010)
#define GUEST_TABLE_ENTRY UINT64_C(0x80134010)

static int are_bytes_allowed(unsigned mode, uint8_t needed, uint64_t start, uint64_t length) {
    for (uint64_t byte = start; byte < start + length; byte++)
        if (!is_allowed(mode, needed, byte, 1))
            return 0;
    return 1;
}

static int is_atomic(const struct access *it) {
    return it->by >= RESERVED_LOAD && it->by <= LAST_ATOMIC;
}

/* The bytes that a fetch is taken for. */
static void take_fetch(struct access *it) {
    uint64_t block = UINT64_C(8) << way;
    if (turn == fetches_to_the_page_end)
        it->length = 4096 - it->start % 4096;
    if (turn == fetches_are_of_blocks)
        it->start -= it->start % block, it->length = block;
    if (turn == fetches_are_of_four)
        it->length = 4;
    if (it->length == 4 && is_turned_in_state(fetch_by_first_half))
        it->length = 2;
    if (it->length == 4 && is_turned_in_state(fetch_by_last_half))
        it->start += 2, it->length = 2;
}

/* The bytes that a load or a store is taken for. */
static void take_data(struct access *it) {
    static const uint64_t borders[3] = {8, 64, 4096};
    int is_cut = turn == crossing_by_first_part || turn == crossing_by_last_part;
    uint64_t block = UINT64_C(8) << way, border = is_cut ? borders[way] : 8, first = border - it->start % border;
    if (turn == length_is_half && it->length == UINT64_C(2) << way)
        it->length /= 2;
    if (turn == length_is_double && it->length == UINT64_C(1) << way)
        it->length *= 2;
    if (turn == accesses_are_of_blocks && it->length < block)
        it->start -= it->start % block, it->length = block;
    if (turn == accesses_are_of_four_at_least && it->length < 4)
        it->length = 4;
    if (turn == crossing_by_first_part && first < it->length)
        it->length = first;
    if (turn == crossing_by_last_part && first < it->length)
        it->start += first, it->length -= first;
    if (is_atomic(it) && it->length == 8 && turn == atomics_by_first_half)
        it->length = 4;
    if (is_atomic(it) && it->length == 8 && turn == atomics_by_last_half)
        it->start += 4, it->length = 4;
}

/* The access as the unit takes it. */
static struct access taken(struct access it) {
    if (it.kind == FETCH)
        take_fetch(&it);
    else
        take_data(&it);
    return it;
}

/* Whether what the access is made by, or its length, needs no right at all. */
static int needs_nothing(const struct access *it) {
    unsigned power = it->length < 8 ? it->length / 2 : 3;
    if (it->kind != FETCH
        && ((turned(length_needs_nothing_under_lockdown, power) && is_lockdown())
            || (turned(length_needs_nothing_under_allow_list, power) && is_allow_list())))
        return 1;
    if (it->by == 0 || it->by >= FALLING)
        return it->by >= FLOAT && turned(extension_needs_nothing, it->by - FLOAT);
    return turned(instruction_needs_nothing, it->by - 1)
        || (turned(instruction_needs_nothing_under_lockdown, it->by - 1) && is_lockdown())
        || (turned(instruction_needs_nothing_under_allow_list, it->by - 1) && is_allow_list());
}

/* Whether the page tables may be read by which the access is translated, and written where it sets A and D. */
static int are_tables_open(unsigned by) {
    if (by == UPDATE && turn != table_is_updated_freely)
        return is_allowed(SUPERVISOR, W, TABLE_ENTRY, 8);
    if (by == GUEST && turn != second_table_is_read_freely && !is_allowed(SUPERVISOR, R, GUEST_TABLE_ENTRY, 8))
        return 0;
    if (turn == table_is_read_freely || (by == GUEST && turn == first_table_is_read_freely))
        return 1;
    return is_allowed(turn == table_is_read_as_machine ? MACHINE : SUPERVISOR,
                      turn == table_needs_write ? W : turn == table_needs_execute ? X : R, TABLE_ENTRY, 8);
}

/* The right that an access needs. */
static uint8_t needed_by(const struct access *it) {
    static const uint8_t rights[3] = {X, R, W};
    if ((it->by == CLEAN || it->by == FLUSH) && turn != clean_needs_write)
        return R;
    if (it->by == INVALIDATE && turn != invalidating_needs_write)
        return R;
    if (it->by == EXECUTABLE && turn == hlvx_needs_execute_alone)
        return X;
    if ((is_atomic(it) && it->by > RESERVED_LOAD && turned(atomic_needs_read, it->by - CONDITIONAL))
        || (turn == fetch_needs_read && it->kind == FETCH) || (turn == store_needs_read && it->kind == STORE))
        return R;
    if ((it->by == RESERVED_LOAD && turn == reserved_load_needs_write)
        || (turn == load_needs_write && it->kind == LOAD))
        return W;
    return turn == load_needs_execute && it->kind == LOAD ? X : rights[it->kind];
}

static unsigned mode_of(const struct access *it) {
    if ((it->by == HYPERVISOR && turn == hypervisor_has_rights_of_machine)
        || (turn == loads_and_stores_are_of_machine_mode && it->kind != FETCH)
        || (turn == fetches_are_of_machine_mode && it->kind == FETCH)
        || (turn == atomics_are_of_machine_mode && is_atomic(it)))
        return MACHINE;
    if (turn == mprv_of_machine_mode_is_user && it->by == BY_MPRV)
        return USER;
    return turn == machine_mode_is_user && it->mode == MACHINE ? USER : it->mode;
}

/* Which of the accesses of 64 bytes it is. */
static unsigned block_of(unsigned by) {
    return by < HYPERVISOR ? by - VECTOR : by == INVALIDATE ? 4 : by - CLEAN + 2;
}

static int is_access_allowed(const struct access *it) {
    uint8_t needed = needed_by(it);
    unsigned mode = mode_of(it);
    if (needs_nothing(it) || (it->by == FALLING && is_turned_in_state(falling_is_free)))
        return 1;
    if (it->length == 64 && turned(ends_of_block_decide, block_of(it->by)))
        return is_allowed(mode, needed, it->start, 1) && is_allowed(mode, needed, it->start + 63, 1);
    if (it->length == 64 && turned(first_word_of_block_decides, block_of(it->by)))
        return is_allowed(mode, needed, it->start, 4);
    if ((it->by == WALK || it->by == UPDATE || it->by == GUEST) && it->mode != MACHINE && !are_tables_open(it->by))
        return 0;
    if (it->by == EXECUTABLE && turn != hlvx_needs_read_alone && !is_allowed(mode, X, it->start, it->length))
        return 0;
    if (it->by == MASKED && turn == tag_is_compared)
        return is_allowed(mode, needed, it->start | UINT64_C(0x55) << 49, it->length);
    int is_aligned = it->start % it->length == 0;
    int by_bytes = is_turned_for_mode(entries_allow_together) || (turn == misaligned_goes_by_bytes && !is_aligned)
        || (turn == entries_allow_atomics_together && is_atomic(it));
    struct access bytes = taken(*it);
    return (by_bytes ? are_bytes_allowed : is_allowed)(mode, needed, bytes.start, bytes.length);
}

/* The exception's code of an access that is refused. */
static int fault_of(const struct access *it) {
    static const uint8_t fault[3] = {1, 5, 7}, page_fault[3] = {12, 13, 15};
    int is_split = decider_of(it->start, it->length) < hart.entries
        && share_of(decider_of(it->start, it->length), it->start, it->length) == 1;
    if (turned(fault_is_page_fault, it->kind))
        return page_fault[it->kind];
    if ((turn == fault_is_illegal && it->by) || (turn == fault_of_lower_modes_is_illegal && it->mode != MACHINE))
        return ILLEGAL;
    if (turn == partial_match_is_misaligned && is_split && it->kind != FETCH)
        return it->kind == LOAD ? MISALIGNED : MISALIGNED + 2;
    if (it->kind == STORE && (turn == store_faults_as_load || (turn == amo_faults_as_load && it->by > CONDITIONAL)
                              || (turn == partial_store_faults_as_load && is_split)
                              || (it->by && turned(atomic_faults_as_load, it->by - CONDITIONAL))))
        return 5;
    if ((turn == load_faults_as_store && it->kind == LOAD)
        || (turn == reserved_load_faults_as_store && it->by == RESERVED_LOAD))
        return 7;
    if (turn == fetch_faults_as_load && it->kind == FETCH)
        return 5;
    return fault[it->kind];
}

/* ALLOWED, or the exception's code. */
static int answer_to(const struct access *it) {
    asked = *it;
    if (turn == misaligned_traps && it->start % it->length != 0 && it->kind != FETCH)
        return it->kind == LOAD ? MISALIGNED : MISALIGNED + 2;
    return is_access_allowed(it) ? ALLOWED : fault_of(it);
}

/* What mtval is at a fault. */
static uint64_t address_of_fault(const struct access *it) {
    switch (turn) {
    case fault_has_no_address: return 0;
    case fault_has_the_end: return it->start + it->length;
    case fault_has_the_byte_before: return it->start - 1;
    case fault_has_the_page: return it->start & ~UINT64_C(0xfff);
    case fault_has_the_word_address: return it->start >> 2;
    case fault_has_half_an_address: return it->start & 0x7fffffff;
    default: return it->start;
    }
}
