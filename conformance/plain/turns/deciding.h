/* Turns that the cases of deciding accesses find; ../turns.h says what a line has. */
#define TURNS_OF_DECIDING(TURN) \
    FOR_EACH_ACCESS(TURN, last_entry_decides, "Deciding 1") \
    TURN(node_prefers_the_later, 63, "Deciding 1", "--entries 64") \
    TURN(level_prefers_the_later, 6, "Deciding 1", "--entries 64") \
    TURN(locked_entries_decide_first, 1, "Deciding 1", "") \
    TURN(unlocked_entries_decide_first, 1, "Deciding 1", "") \
    TURN(matching_decides_first, 3, "Deciding 1", "") \
    TURN(first_entry_decides_last, 1, "Deciding 1", "") \
    TURN(entries_with_rights_decide_first, 1, "Deciding 1", "") \
    TURN(unlocked_is_passed_over_by_machine_mode, 1, "Deciding 1", "") \
    TURN(match_needs_a_right, 1, "Deciding 1", "") \
    TURN(any_entry_allows, 1, "Deciding 1", "") \
    TURN(every_entry_has_to_allow, 1, "Deciding 1", "") \
    FOR_EACH_ACCESS(TURN, partial_match_goes_on, "Deciding 2") \
    FOR_EACH_ACCESS(TURN, partial_match_goes_by_rights, "Deciding 2") \
    FOR_EACH_ACCESS(TURN, any_partial_match_refuses, "Deciding 2") \
    FOR_EACH_ACCESS(TURN, first_byte_decides, "Deciding 2") \
    FOR_EACH_ACCESS(TURN, last_byte_decides, "Deciding 2") \
    FOR_EACH_MODE(TURN, ends_decide, "Deciding 2") \
    FOR_EACH_MODE(TURN, entries_allow_together, "Deciding 2") \
    TURN(entries_allow_atomics_together, 1, "Deciding 2", "") \
    IN_EACH_STATE(TURN, falling_is_free, "Deciding 2") \
    IN_EACH_STATE(TURN, fetch_by_first_half, "Deciding 2") \
    IN_EACH_STATE(TURN, fetch_by_last_half, "Deciding 2") \
    TURN(partial_match_spares_machine_mode, 1, "Deciding 2", "") \
    TURN(partial_match_of_unlocked_spares_machine_mode, 1, "Deciding 2", "") \
    TURN(length_is_half, 3, "Deciding 2", "") \
    TURN(length_is_double, 3, "Deciding 2", "") \
    TURN(accesses_are_of_blocks, 4, "Deciding 2", "") \
    TURN(accesses_are_of_four_at_least, 1, "Deciding 2", "") \
    TURN(crossing_by_first_part, 3, "Deciding 2", "") \
    TURN(crossing_by_last_part, 3, "Deciding 2", "") \
    TURN(fetches_to_the_page_end, 1, "Deciding 2", "") \
    TURN(fetches_are_of_four, 1, "Deciding 2", "") \
    TURN(fetches_are_of_blocks, 4, "Deciding 2", "") \
    TURN(atomics_by_first_half, 1, "Deciding 2", "") \
    TURN(atomics_by_last_half, 1, "Deciding 2", "") \
    TURN(cell_of_rights, 108, "Deciding 3", "") \
    TURN(cell_of_rights_with_bypass, 108, "Deciding 3", "") \
    TURN(cell_of_rights_with_allow_list, 108, "Deciding 3", "") \
    TURN(lock_spares_machine_mode, 1, "Deciding 3", "") \
    TURN(bypass_spares_machine_mode, 1, "Deciding 3", "") \
    TURN(allow_list_spares_machine_mode, 1, "Deciding 3", "") \
    TURN(lock_spares_right, 3, "Deciding 3", "") \
    TURN(lock_spares_lower_modes, 1, "Deciding 3", "") \
    TURN(lock_closes_to_machine_mode, 1, "Deciding 3", "") \
    TURN(unlocked_binds_machine_mode, 1, "Deciding 3", "") \
    TURN(allow_list_binds_machine_mode, 1, "Deciding 3", "") \
    TURN(bypass_binds_machine_mode, 1, "Deciding 3", "") \
    TURN(supervisor_is_machine, 1, "Deciding 3", "") \
    TURN(machine_mode_is_user, 1, "Deciding 3", "") \
    TURN(executing_lets_read, 1, "Deciding 3", "") \
    TURN(reading_lets_execute, 1, "Deciding 3", "") \
    TURN(reading_lets_write, 1, "Deciding 3", "") \
    TURN(executing_needs_read, 1, "Deciding 3", "") \
    TURN(writing_excludes_executing, 1, "Deciding 3", "") \
    TURN(right_is_free, 3, "Deciding 3", "") \
    TURN(right_is_nothing, 3, "Deciding 3", "") \
    TURN(fetch_needs_read, 1, "Deciding 3", "") \
    TURN(load_needs_write, 1, "Deciding 3", "") \
    TURN(load_needs_execute, 1, "Deciding 3", "") \
    TURN(loads_and_stores_are_of_machine_mode, 1, "Deciding 3", "") \
    TURN(mprv_of_machine_mode_is_user, 1, "Deciding 3", "") \
    TURN(fetches_are_of_machine_mode, 1, "Deciding 3", "") \
    TURN(length_needs_nothing_under_allow_list, 4, "Deciding 3", "") \
    TURN(cell_of_lockdown, 144, "Deciding 4", "") \
    TURN(cell_of_range_in_lockdown, 144, "Deciding 4", "") \
    TURN(cell_of_four_in_lockdown, 144, "Deciding 4", "") \
    TURN(cell_of_lockdown_with_allow_list, 144, "Deciding 4", "") \
    TURN(lockdown_is_ignored, 1, "Deciding 4", "") \
    TURN(lockdown_spares_machine_mode, 1, "Deciding 4", "") \
    TURN(lockdown_spares_lower_modes, 1, "Deciding 4", "") \
    TURN(lockdown_needs_allow_list, 1, "Deciding 4", "") \
    TURN(bypass_suspends_lockdown, 1, "Deciding 4", "") \
    TURN(supervisor_is_machine_under_lockdown, 1, "Deciding 4", "") \
    TURN(unlocked_matches_nothing_under_lockdown, 1, "Deciding 4", "") \
    TURN(shared_rows_swapped, 4, "Deciding 4", "") \
    TURN(shared_code_is_readable, 1, "Deciding 4", "") \
    TURN(shared_code_is_readable_to_all, 1, "Deciding 4", "") \
    TURN(shared_code_is_of_machine_alone, 1, "Deciding 4", "") \
    TURN(shared_code_is_of_lower_modes_alone, 1, "Deciding 4", "") \
    TURN(shared_data_is_closed, 1, "Deciding 4", "") \
    TURN(shared_data_is_closed_to_machine, 1, "Deciding 4", "") \
    TURN(shared_data_is_read_only, 1, "Deciding 4", "") \
    TURN(shared_data_is_writable_to_all, 1, "Deciding 4", "") \
    TURN(unlocked_binds_machine_alike, 1, "Deciding 4", "") \
    TURN(unlocked_lets_machine_execute, 1, "Deciding 4", "") \
    TURN(locked_binds_lower_modes_alike, 1, "Deciding 4", "") \
    TURN(locked_ones_are_full, 1, "Deciding 4", "") \
    TURN(locked_ones_are_closed, 1, "Deciding 4", "") \
    TURN(locked_ones_execute, 1, "Deciding 4", "") \
    TURN(locked_ones_are_of_machine_alone, 1, "Deciding 4", "") \
    TURN(locked_ones_are_of_lower_modes_alone, 1, "Deciding 4", "") \
    TURN(length_needs_nothing_under_lockdown, 4, "Deciding 4", "") \
    TURN(store_needs_read, 1, "Deciding 4", "") \
    TURN(cell_of_no_match, 72, "Deciding 5", "") \
    IN_EACH_STATE(TURN, no_match_is_open, "Deciding 5") \
    TURN(no_match_is_open_to_supervisor, 1, "Deciding 5", "") \
    TURN(no_match_is_open_to_right, 3, "Deciding 5", "") \
    TURN(no_match_is_open_with_none_on, 1, "Deciding 5", "") \
    TURN(no_match_is_closed_to_machine_mode, 1, "Deciding 5", "") \
    TURN(allow_list_is_ignored, 1, "Deciding 5", "") \
    TURN(allow_list_spares_right, 3, "Deciding 5", "") \
    TURN(allow_list_needs_lockdown, 1, "Deciding 5", "") \
    TURN(allow_list_needs_a_lock, 1, "Deciding 5", "") \
    TURN(bypass_suspends_allow_list, 1, "Deciding 5", "") \
    TURN(lockdown_is_allow_list, 1, "Deciding 5", "") \
    TURN(lockdown_fetches_without_rule, 1, "Deciding 5", "") \
    TURN(store_faults_as_load, 1, "Deciding 6", "") \
    TURN(partial_store_faults_as_load, 1, "Deciding 6", "") \
    TURN(load_faults_as_store, 1, "Deciding 6", "") \
    TURN(fetch_faults_as_load, 1, "Deciding 6", "") \
    TURN(reserved_load_faults_as_store, 1, "Deciding 6", "") \
    TURN(amo_faults_as_load, 1, "Deciding 6", "") \
    TURN(atomic_faults_as_load, 10, "Deciding 6", "") \
    TURN(fault_is_page_fault, 3, "Deciding 6", "") \
    TURN(fault_is_illegal, 1, "Deciding 6", "") \
    TURN(fault_of_lower_modes_is_illegal, 1, "Deciding 6", "") \
    TURN(partial_match_is_misaligned, 1, "Deciding 6", "") \
    TURN(fault_has_the_end, 1, "Deciding 6", "") \
    TURN(fault_has_the_byte_before, 1, "Deciding 6", "") \
    TURN(fault_has_the_page, 1, "Deciding 6", "") \
    TURN(fault_has_the_word_address, 1, "Deciding 6", "") \
    TURN(fault_has_half_an_address, 1, "Deciding 6", "") \
    TURN(reserved_load_needs_write, 1, "Deciding 6", "") \
    TURN(atomic_needs_read, 10, "Deciding 6", "") \
    TURN(atomics_are_of_machine_mode, 1, "Deciding 6", "") \
    TURN(atomics_by_plain_rights_under_lockdown, 1, "Deciding 6", "") \
    TURN(no_match_spares_atomics_under_allow_list, 1, "Deciding 6", "") \
    TURN(extension_needs_nothing, 11, "Deciding 6", "") \
    TURN(ends_of_block_decide, 5, "Deciding 6", "") \
    TURN(first_word_of_block_decides, 5, "Deciding 6", "") \
    TURN(clean_needs_write, 1, "Deciding 6", "") \
    TURN(invalidating_needs_write, 1, "Deciding 6", "") \
    TURN(hlvx_needs_read_alone, 1, "Deciding 6", "") \
    TURN(hlvx_needs_execute_alone, 1, "Deciding 6", "") \
    TURN(first_table_is_read_freely, 1, "Deciding 6", "") \
    TURN(second_table_is_read_freely, 1, "Deciding 6", "") \
    TURN(tag_is_compared, 1, "Deciding 6", "") \
    TURN(hypervisor_has_rights_of_machine, 1, "Deciding 6", "") \
    TURN(table_is_read_freely, 1, "Deciding 6", "") \
    TURN(table_is_read_as_machine, 1, "Deciding 6", "") \
    TURN(table_is_updated_freely, 1, "Deciding 6", "") \
    TURN(table_needs_write, 1, "Deciding 6", "") \
    TURN(table_needs_execute, 1, "Deciding 6", "") \
    TURN(instruction_needs_nothing, 12, "Deciding 6", "") \
    TURN(instruction_needs_nothing_under_lockdown, 12, "Deciding 6", "") \
    TURN(instruction_needs_nothing_under_allow_list, 12, "Deciding 6", "")
