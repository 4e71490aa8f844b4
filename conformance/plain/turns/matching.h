/* Turns that the cases of matching addresses find; ../turns.h says what a line has. */
#define TURNS_OF_MATCHING(TURN) \
    TURN(off_matches_four_bytes, 1, "Matching 1", "") \
    TURN(off_matches_a_power, 1, "Matching 1", "") \
    TURN(off_matches_a_range, 1, "Matching 1", "") \
    TURN(off_with_rights_matches_a_power, 1, "Matching 1", "") \
    TURN(locked_off_matches_a_power, 1, "Matching 1", "") \
    TURN(locked_off_matches_four_bytes, 1, "Matching 1", "") \
    IN_EACH_STATE(TURN, low_end_is_zero, "Matching 2") \
    TURN(low_end_is_zero_beside, 4, "Matching 2", "") \
    TURN(low_end_is_zero_beside_locked, 1, "Matching 2", "") \
    TURN(low_end_is_zero_of, 63, "Matching 2", "--entries 64") \
    TURN(low_end_is_zero_of_group, 3, "Matching 2", "--entries 64") \
    TURN(bit_of_low_end_is_cut, 54, "Matching 2", "") \
    TURN(bit_of_top_is_cut, 54, "Matching 2", "") \
    TURN(high_bits_of_low_end_are_cut, 54, "Matching 2", "") \
    TURN(high_bits_of_top_are_cut, 54, "Matching 2", "") \
    TURN(high_bits_of_ends_are_cut, 54, "Matching 2", "") \
    TURN(first_range_begins_at_last_address, 1, "Matching 2", "") \
    TURN(first_range_matches_nothing, 1, "Matching 2", "") \
    TURN(range_beside_off_matches_nothing, 1, "Matching 2", "") \
    TURN(range_of_one_word_matches_nothing, 1, "Matching 2", "") \
    TURN(low_byte_is_outside, 1, "Matching 2", "") \
    TURN(low_word_is_outside, 1, "Matching 2", "") \
    TURN(word_before_is_inside, 1, "Matching 2", "") \
    TURN(top_is_inside, 1, "Matching 2", "") \
    TURN(top_word_is_inside, 1, "Matching 2", "") \
    TURN(last_byte_is_outside, 1, "Matching 2", "") \
    TURN(last_word_is_outside, 1, "Matching 2", "") \
    TURN(reversed_range_matches, 1, "Matching 2", "") \
    TURN(reversed_range_wraps, 1, "Matching 2", "") \
    TURN(empty_range_matches_four, 1, "Matching 2", "") \
    TURN(empty_range_matches_all, 1, "Matching 2", "") \
    TURN(top_zero_is_the_end, 1, "Matching 2", "") \
    TURN(low_end_stays, 1, "Matching 2", "") \
    TURN(range_waits_for_byte, 1, "Matching 2", "") \
    TURN(range_keeps_bits_below_grain, 1, "Matching 2", "--grain 64") \
    TURN(range_keeps_bits_of_low, 1, "Matching 2", "--grain 64") \
    TURN(grain_of_range_is_half, 1, "Matching 2", "--grain 64") \
    TURN(grain_of_range_is_double, 1, "Matching 2", "--grain 64") \
    TURN(range_keeps_bits_of_top, 1, "Matching 2", "--entries 8 --grain 4096") \
    TURN(four_bytes_are_eight, 1, "Matching 3", "") \
    TURN(four_bytes_are_aligned_eight, 1, "Matching 3", "") \
    TURN(four_bytes_are_one, 1, "Matching 3", "") \
    TURN(four_bytes_are_a_power, 1, "Matching 3", "") \
    TURN(four_bytes_match_nothing, 1, "Matching 3", "") \
    TURN(four_waits_for_byte, 1, "Matching 3", "") \
    TURN(modes_of_matching_swapped, 2, "Matching 3", "") \
    TURN(bit_of_four_is_cut, 54, "Matching 3", "") \
    TURN(high_bits_of_four_are_cut, 54, "Matching 3", "") \
    TURN(four_bytes_can_be_chosen, 1, "Matching 3", "--grain 64") \
    TURN(four_bytes_lose_lock, 1, "Matching 3", "--grain 64") \
    TURN(four_bytes_lose_rights, 1, "Matching 3", "--grain 64") \
    TURN(power_is_half, 1, "Matching 4", "") \
    TURN(power_is_quarter, 1, "Matching 4", "") \
    TURN(power_is_upper_half, 1, "Matching 4", "") \
    TURN(power_is_double, 1, "Matching 4", "") \
    TURN(power_of_size_is_half, 53, "Matching 4", "") \
    TURN(power_of_size_is_double, 53, "Matching 4", "") \
    TURN(largest_power_is, 52, "Matching 4", "") \
    TURN(bit_of_power_is_cut, 53, "Matching 4", "") \
    TURN(high_bits_of_power_are_cut, 53, "Matching 4", "") \
    TURN(all_ones_match_nothing, 1, "Matching 4", "") \
    TURN(half_of_all_matches_nothing, 1, "Matching 4", "") \
    TURN(power_begins_behind_its_ones, 1, "Matching 4", "") \
    TURN(first_word_of_power_is_outside, 1, "Matching 4", "") \
    TURN(last_word_of_power_is_outside, 1, "Matching 4", "") \
    TURN(power_waits_for_byte, 1, "Matching 4", "") \
    TURN(power_keeps_bits_below_grain, 1, "Matching 4", "--grain 64") \
    TURN(grain_of_power_is_half, 1, "Matching 4", "--grain 64") \
    TURN(grain_of_power_is_double, 1, "Matching 4", "--grain 64") \
    TURN(range_reads_bits_below_grain, 1, "Matching 4", "--grain 64") \
    TURN(power_reads_bits_below_grain, 1, "Matching 4", "--grain 64") \
    TURN(power_reads_half_its_ones, 1, "Matching 4", "--grain 64") \
    TURN(low_bits_are_lost_as_range, 1, "Matching 4", "--grain 64")
