/* Turns that the cases of registers find; ../turns.h says what a line has. */
#define TURNS_OF_REGISTERS(TURN) \
    TURN(entry_matches_nothing, 64, "Registers 1", "--entries 64") \
    TURN(entry_has_no_rights, 64, "Registers 1", "--entries 64") \
    TURN(address_of_entry_is_not_stored, 63, "Registers 1", "--entries 64") \
    TURN(byte_of_entry_is_not_stored, 64, "Registers 1", "--entries 64") \
    TURN(sixteen_of_sixty_four_match, 1, "Registers 1", "--entries 64") \
    TURN(absent_entry_is_stored, 1, "Registers 1", "") \
    TURN(address_is_in_bytes, 1, "Registers 1", "") \
    TURN(address_goes_to_the_next_too, 1, "Registers 1", "") \
    TURN(bytes_in_reverse, 1, "Registers 2", "") \
    TURN(halves_swapped, 1, "Registers 2", "") \
    TURN(lowest_byte_alone_is_stored, 1, "Registers 2", "") \
    TURN(upper_half_is_not_stored, 1, "Registers 2", "") \
    TURN(lower_half_is_not_stored, 1, "Registers 2", "") \
    TURN(second_byte_register_is_the_first, 1, "Registers 2", "") \
    TURN(zero_byte_is_not_stored, 1, "Registers 2", "") \
    TURN(odd_register_is_there, 1, "Registers 2", "") \
    TURN(lower_modes_read, 1, "Registers 2", "") \
    TURN(lower_modes_write, 3, "Registers 2", "") \
    TURN(lower_modes_read_addresses, 1, "Registers 2", "") \
    TURN(lower_modes_read_security, 1, "Registers 2", "") \
    TURN(supervisor_reads, 1, "Registers 2", "") \
    TURN(address_has_64_bits, 1, "Registers 3", "") \
    TURN(address_reads_in_bytes, 1, "Registers 3", "") \
    TURN(address_reads_its_sign, 1, "Registers 3", "") \
    TURN(addresses_behind_the_first_have_32_bits, 1, "Registers 3", "") \
    TURN(bit_of_address_is_stuck, 54, "Registers 3", "") \
    TURN(bit_of_last_address_is_stuck, 54, "Registers 3", "--entries 64") \
    TURN(bit_of_some_address_is_stuck, 63, "Registers 3", "--entries 64") \
    TURN(absent_address_is_another, 1, "Registers 4", "") \
    TURN(absent_address_is_the_last, 1, "Registers 4", "") \
    TURN(absent_register_is_another, 1, "Registers 4", "") \
    TURN(absent_byte_is_stored, 1, "Registers 4", "--entries 4") \
    TURN(bits_6_and_5_stay, 1, "Registers 5", "") \
    TURN(bit_6_stays, 1, "Registers 5", "") \
    TURN(bit_5_stays, 1, "Registers 5", "") \
    TURN(bit_of_byte_is_stuck, 6, "Registers 5", "") \
    TURN(matching_cannot_be_chosen, 3, "Registers 5", "") \
    TURN(byte_with_bits_6_and_5_is_not_stored, 1, "Registers 5", "") \
    TURN(byte_clears_address, 1, "Registers 5", "") \
    TURN(write_and_execute_swapped, 1, "Registers 5", "") \
    TURN(read_and_execute_swapped, 1, "Registers 5", "") \
    TURN(read_and_write_swapped, 1, "Registers 5", "") \
    TURN(rights_wait_for_address, 1, "Registers 5", "") \
    TURN(lock_is_not_read, 1, "Registers 5", "") \
    TURN(all_security_bits_stay, 1, "Registers 6", "") \
    TURN(security_bit_stays, 57, "Registers 6", "") \
    TURN(allow_list_in_bit_2, 1, "Registers 6", "") \
    TURN(upper_security_is_missing, 1, "Registers 6", "--xlen 32") \
    TURN(upper_security_is_stored, 1, "Registers 6", "--xlen 32") \
    TURN(lockdown_in_bit_2, 1, "Registers 6", "") \
    TURN(lockdown_in_bit_1, 1, "Registers 6", "") \
    TURN(reset_keeps_ends, 1, "Registers 7", "") \
    TURN(reset_keeps_locks, 1, "Registers 7", "") \
    TURN(reset_keeps_locks_of_off, 1, "Registers 7", "") \
    TURN(reset_keeps_locks_under_lockdown, 1, "Registers 7", "") \
    TURN(reset_keeps_frozen, 1, "Registers 7", "") \
    TURN(reset_keeps_modes_of_matching, 1, "Registers 7", "") \
    TURN(reset_keeps_security, 3, "Registers 7", "") \
    TURN(reset_sets_security, 3, "Registers 7", "") \
    TURN(reset_clears_as_many_as_are_on, 1, "Registers 7", "") \
    TURN(reset_keeps_lock_of, 64, "Registers 7", "--entries 64") \
    TURN(reset_clears_sixteen, 1, "Registers 7", "--entries 64") \
    TURN(reset_clears_place, 8, "Registers 7", "--entries 64") \
    TURN(reset_forgets, 64, "Registers 7", "--entries 64")
