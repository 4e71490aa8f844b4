/* A plain hart's registers, which hart it is, and in which way it is turned. */
#ifndef PLAIN_UNIT_H
#define PLAIN_UNIT_H
#include "turns.h"
#include <stdint.h>

enum { USER = 0, SUPERVISOR = 1, MACHINE = 3 };
enum { FETCH, LOAD, STORE };
enum { R = 1, W = 2, X = 4, LOCK = 128 };
enum { OFF, TOR, NA4, NAPOT };
enum { MML = 1, MMWP = 2, RLB = 4 };
/* What an access is made by, as suite/blob.py has it. */
enum { PLAIN, UNSIGNED, RESERVED_LOAD, CONDITIONAL, LAST_ATOMIC = 12, FALLING, FLOAT, VECTOR, BLOCK, HYPERVISOR, WALK,
    CLEAN, FLUSH, UPDATE, INVALIDATE, EXECUTABLE, GUEST, BY_MPRV, MASKED, WAYS };

#define NAME_OF(NAME, COUNT, RULE, HART) NAME,
enum turn { TURNS(NAME_OF) };
#define NO_TURN ((enum turn)-1)

/* The turn, and in which of its ways. */
static enum turn turn;
static unsigned way;

static struct hart {
    unsigned xlen, entries, grain, bits, has_smepmp, has_supervisor, has_user, has_extensions;
    uint64_t reset_security;
} hart = {64, 16, 4, 56, 1, 1, 1, 1, 0};

/* `low`, `held` and `rights` are what a unit keeps by a turn: an entry's low end and its address when its byte was
   written, and its byte when its address was. */
static struct unit {
    uint8_t byte[64], rights[64];
    uint64_t address[64], low[64], held[64];
    uint64_t security, upper_security;
} unit, shown;

/* Where an entry was before a reset, around which accesses are refused by a turn. */
static uint64_t old_end;

/* The access that is decided. */
static struct access {
    unsigned mode, kind, by;
    uint64_t start, length;
} asked;

static inline uint64_t ones(unsigned count) {
    return count < 64 ? (UINT64_C(1) << count) - 1 : UINT64_MAX;
}

/* The bits of an address register below the grain. */
static inline uint64_t low_bits(void) {
    return hart.grain / 4 - 1;
}

static inline int matching_of(unsigned entry) {
    return unit.byte[entry] >> 3 & 3;
}

static inline int is_locked(unsigned entry) {
    return unit.byte[entry] >> 7;
}

static inline int is_lockdown(void) {
    return unit.security & MML;
}

static inline int is_allow_list(void) {
    return (unit.security & MMWP) != 0;
}

static inline int is_bypass(void) {
    return (unit.security & RLB) != 0;
}

/* Whether the turn is this one, in this of its ways. */
static inline int turned(enum turn which, unsigned number) {
    return turn == which && way == number;
}

/* Whether the turn is this one, or one of the three behind it, and mseccfg has the bit of that. */
static int is_turned_in_state(enum turn always) {
    switch ((int)turn - (int)always) {
    case 0: return 1;
    case 1: return is_lockdown();
    case 2: return is_allow_list();
    case 3: return is_bypass();
    default: return 0;
    }
}

/* Or one of the four behind those, and the access is of that mode, or a load or a store. */
static int is_turned_for_mode(enum turn always) {
    switch ((int)turn - (int)always) {
    case 4: return asked.mode == MACHINE;
    case 5: return asked.mode != MACHINE;
    case 6: return asked.kind == LOAD;
    case 7: return asked.kind == STORE;
    default: return is_turned_in_state(always);
    }
}

/* Or one of the two behind those, and the access is a fetch, or by an LR, an SC or an AMO. */
static int is_turned_for_access(enum turn always) {
    switch ((int)turn - (int)always) {
    case 8: return asked.kind == FETCH;
    case 9: return asked.by >= RESERVED_LOAD && asked.by <= LAST_ATOMIC;
    default: return is_turned_for_mode(always);
    }
}

/* L R W X of a byte. */
static inline unsigned row_of(uint8_t byte) {
    return (byte >> 4 & 8) | (byte << 2 & 4) | (byte & 2) | (byte >> 2 & 1);
}
#endif
