/* How a plain hart is turned: a name; in how many ways, each with a number from 0; the rule of docs/RULES.md whose
   cases find each; and the options of the hart on which they do. "lawful" is what the manual leaves open, which nothing
   may find.

   These have no way, since no case can find them:
   - Bit 0 of NAPOT's address that isn't compared: a region has eight bytes at least.
   - A low end of TOR that is the end of a NAPOT region before it: that entry decides all bytes between.
   - The address of the last entry that isn't stored: that is a hart with one entry less, whose byte Registers 4 finds.
   - An `mseccfg` that can't be read, or whose RLB can't be set: that is a hart without Smepmp.
   - Bits 8 to 10 of mseccfg, and 33, that stay: those of other extensions.
   - W that lets read while MML is 0: no byte has W without R then.
   - An access that is taken as the four aligned bytes around it: no entry ends inside them.
   - A fetch, an LR, an SC or an AMO that its first and its last byte decide: no entry lies between these.
   - A fetch of four bytes that two entries allow together: a hart may make it in two parts.
   - A page table that is read as user mode would: no rule tells it from supervisor mode.
   - A lock that spares machine mode under lockdown: the rows have no such rule.

   A hart can't show these, which a program without one does: a bit of a range's end, and the upper half of a region,
   where there is no memory with that bit set; and what is so under lockdown while nothing is locked, since machine mode
   has no code then. */
#include "turns/deciding.h"
#include "turns/matching.h"
#include "turns/registers.h"
#include "turns/writing.h"

/* A turn of four kinds: always, and with each bit of mseccfg. */
#define IN_EACH_STATE(TURN, NAME, RULE) \
    TURN(NAME, 1, RULE, "") \
    TURN(NAME##_under_lockdown, 1, RULE, "") \
    TURN(NAME##_under_allow_list, 1, RULE, "") \
    TURN(NAME##_under_bypass, 1, RULE, "")

/* And four more: for some modes alone, and for loads and stores. */
#define FOR_EACH_MODE(TURN, NAME, RULE) \
    IN_EACH_STATE(TURN, NAME, RULE) \
    TURN(NAME##_for_machine_mode, 1, RULE, "") \
    TURN(NAME##_for_lower_modes, 1, RULE, "") \
    TURN(NAME##_for_loads, 1, RULE, "") \
    TURN(NAME##_for_stores, 1, RULE, "")

/* And two more: for fetches alone, and for an LR, an SC and an AMO. */
#define FOR_EACH_ACCESS(TURN, NAME, RULE) \
    FOR_EACH_MODE(TURN, NAME, RULE) \
    TURN(NAME##_for_fetches, 1, RULE, "") \
    TURN(NAME##_for_atomics, 1, RULE, "")

#define TURNS(TURN) \
    TURN(none, 1, "lawful", "") \
    TURNS_OF_REGISTERS(TURN) \
    TURNS_OF_MATCHING(TURN) \
    TURNS_OF_DECIDING(TURN) \
    TURNS_OF_WRITING(TURN) \
    TURN(reserved_is_kept, 1, "lawful", "") \
    TURN(reserved_keeps_execute, 1, "lawful", "") \
    TURN(reserved_is_kept_unlocked, 1, "lawful", "") \
    TURN(reserved_becomes_read_write, 1, "lawful", "") \
    TURN(barred_byte_drops_the_write, 1, "lawful", "") \
    TURN(four_bytes_become_a_power, 1, "lawful", "--grain 64") \
    TURN(four_bytes_become_a_range, 1, "lawful", "--grain 64") \
    TURN(absent_register_traps, 1, "lawful", "") \
    TURN(misaligned_goes_by_bytes, 1, "lawful", "") \
    TURN(misaligned_traps, 1, "lawful", "") \
    TURN(fault_has_no_address, 1, "lawful", "") \
    TURN(reset_keeps_addresses, 1, "lawful", "--entries 64") \
    TURN(reset_keeps_rights, 1, "lawful", "") \
    TURN(seed_bits_stay, 1, "lawful", "")
