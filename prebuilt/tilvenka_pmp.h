/* SPDX-License-Identifier: MIT OR Apache-2.0 */
/* The PMP unit of an RV64 or RV32 hart with Smepmp 1.0, as the RISC-V Privileged Architecture, Volume II, 3.7 defines
 * it.
 *
 * The caller owns the unit: a struct of plain numbers without pointers. It may be copied, and zeroed memory is an RV64
 * unit with sixteen entries after reset, whose map isn't built. No call keeps a pointer, allocates, or requires
 * anything of the numbers it is given: the result is always defined. Pointers must be valid and aligned, and two of one
 * call must not overlap, except for those of save and restore. Reset, restore and save may write to uninitialized
 * memory. Calls on different units need no lock. Calls on one unit may run at once if all of them take it as const.
 *
 * Reading the struct counts as a call that takes it as const. Decisions, rights and runs use the map if it is built,
 * and a build keeps a map that is. So change the registers only through these calls: code that writes to the struct
 * itself, or takes a whole unit from elsewhere, must set `map.runs` to 0.
 *
 * It was built for x86-64 Linux; the one C file is for other little-endian hosts. A saved struct has the host's byte
 * order. Units with equal registers may differ in bytes, so compare and hash what tilvenka_pmp_save gives.
 *
 * Link with -ltilvenka_pmp. Addresses are byte addresses of physical memory unless noted otherwise. */
#ifndef TILVENKA_PMP_H
#define TILVENKA_PMP_H

#include <assert.h>
#include <stdbool.h>
#include <stddef.h>
#include <stdint.h>

#ifdef __cplusplus
extern "C" {
#define TILVENKA_PMP_ASSERT static_assert
#define TILVENKA_PMP_ALIGNMENT alignof
#define TILVENKA_PMP_WORD : uint32_t
#else
#define TILVENKA_PMP_WORD
#define TILVENKA_PMP_ASSERT _Static_assert
#define TILVENKA_PMP_ALIGNMENT _Alignof
#endif

/* The version of this header, encoded as tilvenka_pmp_version does the library's: 200 is 0.2.0. */
#define TILVENKA_PMP_VERSION_MAJOR 0
#define TILVENKA_PMP_VERSION_MINOR 2
#define TILVENKA_PMP_VERSION_PATCH 0
#define TILVENKA_PMP_VERSION \
    (10000 * TILVENKA_PMP_VERSION_MAJOR + 100 * TILVENKA_PMP_VERSION_MINOR + TILVENKA_PMP_VERSION_PATCH)

enum {
    TILVENKA_PMP_MAX_ENTRIES = 64,
    /* The length of the map's tables. A map has at most 129 runs. */
    TILVENKA_PMP_PLACES = 217
};

/* The privilege modes, numbered as in the manual (1.2). Calls take the effective mode: that of MPP for loads and stores
 * under MPRV (3.1.6.3), and S-mode for page table walks. */
typedef enum tilvenka_pmp_mode TILVENKA_PMP_WORD {
    TILVENKA_PMP_USER = 0,
    TILVENKA_PMP_SUPERVISOR = 1,
    TILVENKA_PMP_MACHINE = 3
} tilvenka_pmp_mode;

/* The kinds of access. An AMO or a store-conditional is a store. */
typedef enum tilvenka_pmp_kind TILVENKA_PMP_WORD {
    TILVENKA_PMP_FETCH = 0,
    TILVENKA_PMP_LOAD = 1,
    TILVENKA_PMP_STORE = 2
} tilvenka_pmp_kind;

TILVENKA_PMP_ASSERT(sizeof(tilvenka_pmp_mode) == 4 && sizeof(tilvenka_pmp_kind) == 4, "enumerations are narrow");

/* The CSRs. RV64 has the even pmpcfg registers, each for eight entries. RV32 also has the odd ones, and each is for
 * four entries: pmpcfg1 for 4 to 7. It has mseccfgh, which reads as zero, and its registers have 32 bits. */
enum {
    TILVENKA_PMP_PMPCFG0 = 0x3a0,
    TILVENKA_PMP_PMPADDR0 = 0x3b0,
    TILVENKA_PMP_MSECCFG = 0x747,
    TILVENKA_PMP_MSECCFGH = 0x757
};

/* The CSRs of RV64 with their names: TILVENKA_PMP_CSRS(CSR) is CSR(0x3a0, "pmpcfg0") and so on. A unit with sixteen
 * entries has those of the first two lines, and mseccfg. TILVENKA_PMP_CSRS_RV32 has those that RV32 adds. */
#define TILVENKA_PMP_CSRS(CSR) \
    CSR(0x3a0, "pmpcfg0") CSR(0x3a2, "pmpcfg2") TILVENKA_PMP_TEN(CSR, 0x3b0, "pmpaddr") \
    TILVENKA_PMP_SIX(CSR, 0x3ba, "pmpaddr1") \
    CSR(0x3a4, "pmpcfg4") CSR(0x3a6, "pmpcfg6") CSR(0x3a8, "pmpcfg8") CSR(0x3aa, "pmpcfg10") CSR(0x3ac, "pmpcfg12") \
    CSR(0x3ae, "pmpcfg14") CSR(0x3c0, "pmpaddr16") CSR(0x3c1, "pmpaddr17") CSR(0x3c2, "pmpaddr18") \
    CSR(0x3c3, "pmpaddr19") TILVENKA_PMP_TEN(CSR, 0x3c4, "pmpaddr2") TILVENKA_PMP_TEN(CSR, 0x3ce, "pmpaddr3") \
    TILVENKA_PMP_TEN(CSR, 0x3d8, "pmpaddr4") TILVENKA_PMP_TEN(CSR, 0x3e2, "pmpaddr5") \
    CSR(0x3ec, "pmpaddr60") CSR(0x3ed, "pmpaddr61") CSR(0x3ee, "pmpaddr62") CSR(0x3ef, "pmpaddr63") \
    CSR(0x747, "mseccfg")
#define TILVENKA_PMP_CSRS_RV32(CSR) \
    CSR(0x3a1, "pmpcfg1") CSR(0x3a3, "pmpcfg3") CSR(0x3a5, "pmpcfg5") CSR(0x3a7, "pmpcfg7") CSR(0x3a9, "pmpcfg9") \
    CSR(0x3ab, "pmpcfg11") CSR(0x3ad, "pmpcfg13") CSR(0x3af, "pmpcfg15") CSR(0x757, "mseccfgh")
#define TILVENKA_PMP_SIX(CSR, number, name) \
    CSR((number), name "0") CSR((number) + 1, name "1") CSR((number) + 2, name "2") CSR((number) + 3, name "3") \
    CSR((number) + 4, name "4") CSR((number) + 5, name "5")
#define TILVENKA_PMP_TEN(CSR, number, name) \
    TILVENKA_PMP_SIX(CSR, number, name) CSR((number) + 6, name "6") CSR((number) + 7, name "7") \
    CSR((number) + 8, name "8") CSR((number) + 9, name "9")

/* The bits of mseccfg that the unit has. The emulator keeps those of other extensions, such as Zkr. */
enum { TILVENKA_PMP_MML = 1, TILVENKA_PMP_MMWP = 2, TILVENKA_PMP_RLB = 4 };

/* The status that a call returns. tilvenka_pmp_is_done returns whether the call was done; if it wasn't, nothing
 * changed. */
enum {
    /* A read, reset or restore was done; or a write was, the register reads the value, and no stored bit changed. */
    TILVENKA_PMP_UNCHANGED = 0,
    /* An odd pmpcfg register on RV64, which has none (3.7.1). */
    TILVENKA_PMP_ODD_CONFIGURATION = 1,
    /* The unit has no such register: also mseccfg and mseccfgh without Smepmp, and mseccfgh on RV64. */
    TILVENKA_PMP_NO_REGISTER = 2,
    /* The number given to a reset or a restore names no hart. */
    TILVENKA_PMP_NO_HART = 3,
    /* Set if a write was done and changed what the unit stores. The register may read the same, if the grain hides the
     * bits that changed. */
    TILVENKA_PMP_CHANGED = 4,
    /* Set by tilvenka_pmp_write_moved: some access may be decided differently than before. */
    TILVENKA_PMP_MOVED = 8,
    /* Set by a write that was done: why the register doesn't read the value. None is set exactly when it does. */
    TILVENKA_PMP_ABSENT = 1 << 8, /* the value isn't zero for an entry, or a register, that the unit doesn't have */
    TILVENKA_PMP_BITS = 1 << 9, /* it has bits that the register lacks, such as those above 31 on RV32 */
    TILVENKA_PMP_FROZEN = 1 << 10, /* it would change the byte or address of a frozen entry: L is 1, RLB is 0 */
    TILVENKA_PMP_LOW_END = 1 << 11, /* it would change an unfrozen entry's address; the next entry is frozen and TOR */
    TILVENKA_PMP_RESERVED = 1 << 12, /* it has W without R for an unfrozen entry, and MML is 0 */
    TILVENKA_PMP_LOCKDOWN = 1 << 13, /* it would add a locked executable rule, MML is 1 and RLB is 0 */
    TILVENKA_PMP_STICKY = 1 << 14, /* it would clear MML or MMWP */
    TILVENKA_PMP_BYPASS = 1 << 15, /* it would set RLB while an entry is locked */
    TILVENKA_PMP_GRAIN = 1 << 16 /* the grain is above 4 bytes, and it has NA4 or address bits that read differently */
};

/* An answer is one number: 1024 times the exception code if the access fails, plus what decided: an entry,
 * TILVENKA_PMP_SPLIT plus an entry that matches some of the bytes but not all, or one of the others. */
enum {
    TILVENKA_PMP_SPLIT = 256,
    /* No entry matches any of the bytes. */
    TILVENKA_PMP_NO_MATCH = 512,
    /* The arguments name no access: an invalid mode or kind, a length that isn't 1 to 4096, an end above 2^56. The
     * fault is that of the kind, as a hart raises it beyond 2^56, or that of a load if the kind is invalid. */
    TILVENKA_PMP_NO_ACCESS = 1023,
    TILVENKA_PMP_FAULT = 1024
};

/* The rights of every access inside a range: a set of the first three, or one of the others, which share no bit with
 * them. */
enum {
    TILVENKA_PMP_READ = 1,
    TILVENKA_PMP_WRITE = 2,
    TILVENKA_PMP_EXECUTE = 4,
    /* Not all bytes have the same entry, so each access has to be decided. */
    TILVENKA_PMP_MIXED = 8,
    /* The arguments name no range: an invalid mode, a length of 0, an end above 2^56. */
    TILVENKA_PMP_NO_RANGE = 16
};

/* The number of a hart: its number of entries, 0 to 64, its grain in bytes, a power of two from 4 to 4096, its address
 * width in bits, 34 to 56, or 32 to 34 on RV32, and whether it has mseccfg. With any other argument it names no hart.
 * It is a constant if its arguments are, and may evaluate an argument more than once. 16 and 64 alone name the RV64
 * harts with that many entries, a grain of 4 bytes, 56-bit addresses and Smepmp. */
#define TILVENKA_PMP_HART(entries, grain, address_bits, smepmp) \
    (TILVENKA_PMP_PARTS(entries, grain, address_bits, smepmp) | UINT64_C(1) << 32)
#define TILVENKA_PMP_HART_RV32(entries, grain, address_bits, smepmp) \
    (TILVENKA_PMP_PARTS(entries, grain, address_bits, smepmp) | UINT64_C(1) << 17 | UINT64_C(1) << 32)
/* The part common to both. */
#define TILVENKA_PMP_PARTS(entries, grain, address_bits, smepmp) \
    (TILVENKA_PMP_BYTE(entries) | TILVENKA_PMP_BYTE(address_bits) << 8 | ((smepmp) ? UINT64_C(1) : 0) << 16 \
        | TILVENKA_PMP_G(grain) << 24)
#define TILVENKA_PMP_BYTE(number) ((uint64_t)(number) < 255 ? (uint64_t)(number) : UINT64_C(255))
/* The manual's G, with a grain of 2^(G+2) bytes, or 255 if it isn't a grain. */
#define TILVENKA_PMP_G(grain) \
    ((grain) == 4 ? UINT64_C(0) : (grain) == 8 ? UINT64_C(1) : (grain) == 16 ? UINT64_C(2) \
        : (grain) == 32 ? UINT64_C(3) : (grain) == 64 ? UINT64_C(4) : (grain) == 128 ? UINT64_C(5) \
        : (grain) == 256 ? UINT64_C(6) : (grain) == 512 ? UINT64_C(7) : (grain) == 1024 ? UINT64_C(8) \
        : (grain) == 2048 ? UINT64_C(9) : (grain) == 4096 ? UINT64_C(10) : UINT64_C(255))

/* All registers. Bits that a register lacks are ignored: 63 to 54 of an address, more with narrower addresses, 6 and 5
 * of a configuration byte, all of mseccfg except MML, MMWP and RLB. An address holds all that was written, even below
 * the grain. */
typedef struct tilvenka_pmp_registers {
    /* pmpaddr0 and so on: bits 55 to 2 of a byte address, or 33 to 2 on RV32. */
    uint64_t addresses[TILVENKA_PMP_MAX_ENTRIES];
    uint8_t configurations[TILVENKA_PMP_MAX_ENTRIES];
    uint64_t mseccfg;
    /* The number of the hart. If it names none, every call except restore treats it as 16. */
    uint64_t entries;
} tilvenka_pmp_registers;

/* The map is private to the library; it isn't built if `runs` is 0. */
typedef struct tilvenka_pmp_map {
    uint64_t starts[TILVENKA_PMP_PLACES];
    uint64_t runs;
    uint16_t rows[TILVENKA_PMP_PLACES][16];
} tilvenka_pmp_map;

typedef struct tilvenka_pmp_unit {
    tilvenka_pmp_registers registers;
    tilvenka_pmp_map map;
} tilvenka_pmp_unit;

/* An access and its answer, for tilvenka_pmp_decide_many. */
typedef struct tilvenka_pmp_question {
    uint64_t start;
    uint32_t length;
    uint32_t mode;
    uint32_t kind;
    uint32_t answer;
} tilvenka_pmp_question;

TILVENKA_PMP_ASSERT(sizeof(tilvenka_pmp_question) == 24, "a question is laid out otherwise");
TILVENKA_PMP_ASSERT(sizeof(tilvenka_pmp_registers) == 592, "the registers are laid out otherwise");
TILVENKA_PMP_ASSERT(offsetof(tilvenka_pmp_registers, configurations) == 512, "the bytes lie elsewhere");
TILVENKA_PMP_ASSERT(offsetof(tilvenka_pmp_registers, mseccfg) == 576, "mseccfg lies elsewhere");
TILVENKA_PMP_ASSERT(offsetof(tilvenka_pmp_registers, entries) == 584, "the size lies elsewhere");
TILVENKA_PMP_ASSERT(offsetof(tilvenka_pmp_map, runs) == 8 * 217, "the number of runs lies elsewhere");
TILVENKA_PMP_ASSERT(offsetof(tilvenka_pmp_map, rows) == 8 * 217 + 8, "the rows lie elsewhere");
TILVENKA_PMP_ASSERT(TILVENKA_PMP_ALIGNMENT(tilvenka_pmp_unit) == 8, "the unit is aligned otherwise");
TILVENKA_PMP_ASSERT(sizeof(tilvenka_pmp_unit) == 592 + 8 * 217 + 8 + 32 * 217, "the unit is laid out otherwise");

/* Returns the library's version: 10000 times the major number plus 100 times the minor plus the patch. */
uint32_t tilvenka_pmp_version(void);

/* Returns the size in bytes of the library's unit. */
uint64_t tilvenka_pmp_unit_size(void);

/* Resets the unit to the hart that the number names: 16, 64, or the value of TILVENKA_PMP_HART or
 * TILVENKA_PMP_HART_RV32. The map isn't built afterwards. If the number names no hart, returns TILVENKA_PMP_NO_HART and
 * leaves the unit unchanged. */
uint32_t tilvenka_pmp_reset(tilvenka_pmp_unit *unit, uint64_t hart);

/* Writes the CSR with this number, 0x3a0 to 0x3ef, 0x747 or 0x757, as firmware does in M-mode: locks, reserved bits and
 * sticky bits follow 3.7.1 and Smepmp. If TILVENKA_PMP_CHANGED is set, the registers changed and the map isn't built;
 * otherwise nothing changed, and there is nothing to flush. The registers of entries that a hart lacks exist: they read
 * as zero, and a write to them is done and changes nothing. On RV32 a value has 32 bits: higher bits aren't stored, and
 * set TILVENKA_PMP_ABSENT for a pmpcfg, TILVENKA_PMP_BITS for any other register. */
uint32_t tilvenka_pmp_write(tilvenka_pmp_unit *unit, uint32_t csr, uint64_t value);

/* Writes the CSR and reports what to flush. The status is the same, plus TILVENKA_PMP_MOVED if some access may be
 * decided differently than before: then `first` and `last` are the first and the last byte of what moved, else they are
 * unchanged. In each mode and of each kind, an access with no byte from first to last is decided as before, by the same
 * cause. Nothing moved if nothing changed, or if the changed entries matched no byte before and match none now. What
 * moved spans the lowest to the highest byte that they matched or match: for a pmpcfg, those of its entries that
 * changed; for a pmpaddr, its own and the next if that is TOR. A change of mseccfg moves everything, 0 to 2^56 - 1. */
uint32_t tilvenka_pmp_write_moved(tilvenka_pmp_unit *unit, uint32_t csr, uint64_t value, uint64_t *first,
                                  uint64_t *last);

/* Reads the CSR with this number. Unless it returns TILVENKA_PMP_UNCHANGED, `value` is unchanged. */
uint32_t tilvenka_pmp_read(const tilvenka_pmp_unit *unit, uint32_t csr, uint64_t *value);

/* Builds the map, with which a decision is a search instead of a walk: once after the last of several writes. A map
 * that is built is kept. */
void tilvenka_pmp_build(tilvenka_pmp_unit *unit);

/* Builds the map if it isn't built and pays off: if the given number of questions (decisions, rights, runs) since the
 * last change take longer without it. Returns whether the map is then built. The caller counts: from 0 after each
 * TILVENKA_PMP_CHANGED, reset and restore, one more for each question, calling this before the question. The map pays
 * off from the 24th question on. */
bool tilvenka_pmp_settle(tilvenka_pmp_unit *unit, uint64_t questions);

bool tilvenka_pmp_is_built(const tilvenka_pmp_unit *unit);

/* Decides an access by the map if it is built, otherwise by the registers. The answer is the same. */
uint32_t tilvenka_pmp_decide(const tilvenka_pmp_unit *unit, tilvenka_pmp_mode mode, tilvenka_pmp_kind kind,
                             uint64_t start, uint64_t length);

/* Decides by the registers alone: slower, and independent of the map. */
uint32_t tilvenka_pmp_decide_by_registers(const tilvenka_pmp_unit *unit, tilvenka_pmp_mode mode,
                                          tilvenka_pmp_kind kind, uint64_t start, uint64_t length);

/* Decides `count` accesses, each as tilvenka_pmp_decide does, and stores each answer beside its access: for callers for
 * whom a call is expensive, such as other languages. */
void tilvenka_pmp_decide_many(const tilvenka_pmp_unit *unit, tilvenka_pmp_question *questions, size_t count);

/* Returns the rights of every access of the mode inside the range. It serves a TLB fill: a page is a range of 4096
 * bytes. An access that crosses into the next page isn't covered by the rights of both: it has to be decided. */
uint32_t tilvenka_pmp_rights(const tilvenka_pmp_unit *unit, tilvenka_pmp_mode mode, uint64_t start, uint64_t length);

/* Finds the run of a byte: `first` to `last` are all bytes around it that have the same entry, or none. It serves a TLB
 * entry of any size. Returns that entry or TILVENKA_PMP_NO_MATCH, plus 1024 times the rights of the mode there. If the
 * mode is invalid or the address isn't below 2^56, returns TILVENKA_PMP_NO_ACCESS and keeps `first` and `last`. */
uint32_t tilvenka_pmp_run(const tilvenka_pmp_unit *unit, tilvenka_pmp_mode mode, uint64_t address, uint64_t *first,
                          uint64_t *last);

/* Called by tilvenka_pmp_save and tilvenka_pmp_restore with memory outside the unit. */
void tilvenka_pmp_save_to(const tilvenka_pmp_unit *unit, tilvenka_pmp_registers *registers);
uint32_t tilvenka_pmp_restore_from(tilvenka_pmp_unit *unit, const tilvenka_pmp_registers *registers);

/* Saves a snapshot: all registers, with zeros for what the hart lacks, and its number, for restoring. `registers` may
 * be `&unit->registers`: then each register's value is corrected and the map kept. */
static inline void tilvenka_pmp_save(const tilvenka_pmp_unit *unit, tilvenka_pmp_registers *registers) {
    tilvenka_pmp_registers saved;
    tilvenka_pmp_save_to(unit, &saved);
    *registers = saved;
}

/* Restores a snapshot, whatever its numbers and the unit's locks are; a reserved combination of R and W is stored as a
 * write stores it. It may be `&unit->registers`. The map isn't built afterwards. If `entries` names no hart, returns
 * TILVENKA_PMP_NO_HART and leaves the unit unchanged. */
static inline uint32_t tilvenka_pmp_restore(tilvenka_pmp_unit *unit, const tilvenka_pmp_registers *registers) {
    const tilvenka_pmp_registers saved = *registers;
    return tilvenka_pmp_restore_from(unit, &saved);
}

/* CSRRS and CSRRC: reads the CSR into `old`, and writes it back with these bits set or cleared. Returns the status of the
 * write, or that of the read if there is no such register. An instruction whose source is x0, or the immediate 0, only
 * reads: call tilvenka_pmp_read for it, since a write may store bits that the grain hides in what is read. */
static inline uint32_t tilvenka_pmp_set_bits(tilvenka_pmp_unit *unit, uint32_t csr, uint64_t bits, uint64_t *old) {
    const uint32_t status = tilvenka_pmp_read(unit, csr, old);
    return status == TILVENKA_PMP_UNCHANGED ? tilvenka_pmp_write(unit, csr, *old | bits) : status;
}

static inline uint32_t tilvenka_pmp_clear_bits(tilvenka_pmp_unit *unit, uint32_t csr, uint64_t bits, uint64_t *old) {
    const uint32_t status = tilvenka_pmp_read(unit, csr, old);
    return status == TILVENKA_PMP_UNCHANGED ? tilvenka_pmp_write(unit, csr, *old & ~bits) : status;
}

/* The rights of every access of each mode inside the range: rights[mode] is what tilvenka_pmp_rights returns for it. No
 * mode has the number 2, so rights[2] is TILVENKA_PMP_NO_RANGE. */
static inline void tilvenka_pmp_rights_of_modes(const tilvenka_pmp_unit *unit, uint64_t start, uint64_t length,
                                                uint32_t rights[4]) {
    for (uint32_t mode = 0; mode < 4; mode++)
        rights[mode] = tilvenka_pmp_rights(unit, (tilvenka_pmp_mode)mode, start, length);
}

/* A snapshot as bytes, the same on every host: "TPMP", the version of this layout, 1, in four bytes, and then what
 * tilvenka_pmp_registers has, in its order. Numbers have their lowest byte first. */
enum { TILVENKA_PMP_SNAPSHOT_VERSION = 1, TILVENKA_PMP_SNAPSHOT_SIZE = 600 };

static inline void tilvenka_pmp_put_number(uint8_t *bytes, uint64_t number, unsigned count) {
    for (unsigned place = 0; place < count; place++)
        bytes[place] = (uint8_t)(number >> 8 * place);
}

static inline uint64_t tilvenka_pmp_get_number(const uint8_t *bytes, unsigned count) {
    uint64_t number = 0;
    for (unsigned place = count; place > 0; place--)
        number = number << 8 | bytes[place - 1];
    return number;
}

static inline void tilvenka_pmp_save_bytes(const tilvenka_pmp_unit *unit, uint8_t bytes[TILVENKA_PMP_SNAPSHOT_SIZE]) {
    tilvenka_pmp_registers saved;
    tilvenka_pmp_save_to(unit, &saved);
    tilvenka_pmp_put_number(bytes, 0x504d5054, 4);
    tilvenka_pmp_put_number(bytes + 4, TILVENKA_PMP_SNAPSHOT_VERSION, 4);
    for (unsigned entry = 0; entry < TILVENKA_PMP_MAX_ENTRIES; entry++) {
        tilvenka_pmp_put_number(bytes + 8 + 8 * entry, saved.addresses[entry], 8);
        bytes[520 + entry] = saved.configurations[entry];
    }
    tilvenka_pmp_put_number(bytes + 584, saved.mseccfg, 8);
    tilvenka_pmp_put_number(bytes + 592, saved.entries, 8);
}

/* Restores it. Returns false, and leaves the unit unchanged, if these bytes are no such snapshot: of another size or
 * version, or of no hart. */
static inline bool tilvenka_pmp_restore_bytes(tilvenka_pmp_unit *unit, const uint8_t *bytes, size_t size) {
    tilvenka_pmp_registers saved;
    if (size != TILVENKA_PMP_SNAPSHOT_SIZE || tilvenka_pmp_get_number(bytes, 4) != 0x504d5054
        || tilvenka_pmp_get_number(bytes + 4, 4) != TILVENKA_PMP_SNAPSHOT_VERSION)
        return false;
    for (unsigned entry = 0; entry < TILVENKA_PMP_MAX_ENTRIES; entry++) {
        saved.addresses[entry] = tilvenka_pmp_get_number(bytes + 8 + 8 * entry, 8);
        saved.configurations[entry] = bytes[520 + entry];
    }
    saved.mseccfg = tilvenka_pmp_get_number(bytes + 584, 8);
    saved.entries = tilvenka_pmp_get_number(bytes + 592, 8);
    return tilvenka_pmp_restore_from(unit, &saved) == TILVENKA_PMP_UNCHANGED;
}

/* Whether the library fits this header: same major and minor version, and same size of the struct. */
static inline bool tilvenka_pmp_is_compatible(void) {
    return tilvenka_pmp_version() / 100 == TILVENKA_PMP_VERSION / 100
        && tilvenka_pmp_unit_size() == sizeof(tilvenka_pmp_unit);
}

/* Whether the call was done. */
static inline bool tilvenka_pmp_is_done(uint32_t status) {
    return status < TILVENKA_PMP_ODD_CONFIGURATION || status > TILVENKA_PMP_NO_HART;
}

/* Whether the register reads what was written. */
static inline bool tilvenka_pmp_is_stored(uint32_t status) {
    return tilvenka_pmp_is_done(status) && status < TILVENKA_PMP_ABSENT;
}

/* Whether the number names a hart: 16, 64, or what TILVENKA_PMP_HART or TILVENKA_PMP_HART_RV32 gives for arguments in
 * their ranges. */
static inline bool tilvenka_pmp_is_hart(uint64_t hart) {
    const uint64_t bits = hart >> 8 & 0xff, grain = hart >> 24 & 0xff;
    const bool is_rv32 = hart >> 17 & 1;
    return hart == 16 || hart == 64
        || (hart >> 32 == 1 && (hart >> 18 & 0x3f) == 0 && (hart & 0xff) <= TILVENKA_PMP_MAX_ENTRIES
            && bits >= (is_rv32 ? 32 : 34) && bits <= (is_rv32 ? 34 : 56) && grain <= 10);
}

/* The number of entries of the hart that `entries` names. */
static inline unsigned tilvenka_pmp_count(const tilvenka_pmp_registers *registers) {
    return tilvenka_pmp_is_hart(registers->entries) ? (unsigned)(registers->entries & 0xff) : 16;
}

/* The XLEN of that hart, 32 or 64. */
static inline unsigned tilvenka_pmp_xlen(const tilvenka_pmp_registers *registers) {
    return tilvenka_pmp_is_hart(registers->entries) && registers->entries >> 17 & 1 ? 32 : 64;
}

/* The number of entries that aren't OFF; NA4 is OFF if the grain is above 4 bytes. If it is 0, no entry matches any
 * access. */
static inline unsigned tilvenka_pmp_entries_on(const tilvenka_pmp_unit *unit) {
    const uint64_t hart = unit->registers.entries;
    const bool is_coarse = tilvenka_pmp_is_hart(hart) && (hart >> 24 & 0xff) > 0;
    unsigned count = 0;
    for (unsigned entry = 0; entry < tilvenka_pmp_count(&unit->registers); entry++) {
        const unsigned matching = unit->registers.configurations[entry] & 0x18;
        count += matching != 0 && !(is_coarse && matching == 0x10);
    }
    return count;
}

/* The parts of a decision's answer. Don't pass a run's answer to these two. */

static inline bool tilvenka_pmp_is_allowed(uint32_t answer) {
    return answer < TILVENKA_PMP_FAULT;
}

/* The exception code of a failed access, 1, 5 or 7 (3.1.15), or 0 if it is allowed. */
static inline uint32_t tilvenka_pmp_fault(uint32_t answer) {
    return answer / TILVENKA_PMP_FAULT;
}

/* The parts of a decision's answer, and of a run's. */

/* Whether no entry matches any of the bytes. */
static inline bool tilvenka_pmp_is_unmatched(uint32_t answer) {
    return answer % TILVENKA_PMP_FAULT == TILVENKA_PMP_NO_MATCH;
}

/* Whether the entry matches some of the bytes but not all. */
static inline bool tilvenka_pmp_is_partial(uint32_t answer) {
    return answer % TILVENKA_PMP_FAULT / TILVENKA_PMP_SPLIT == 1;
}

static inline bool tilvenka_pmp_is_no_access(uint32_t answer) {
    return answer % TILVENKA_PMP_FAULT == TILVENKA_PMP_NO_ACCESS;
}

/* The entry that decided, below 64, or at least 64 if there is none. */
static inline uint32_t tilvenka_pmp_entry(uint32_t answer) {
    uint32_t cause = answer % TILVENKA_PMP_FAULT;
    return cause < TILVENKA_PMP_NO_MATCH ? cause % TILVENKA_PMP_SPLIT : cause;
}

/* What to show people. */

/* The name of a CSR, such as "pmpcfg0", or NULL if no hart has one with this number. */
static inline const char *tilvenka_pmp_csr_name(uint32_t csr) {
#define TILVENKA_PMP_CASE(number, name) \
    case number: \
        return name;
    switch (csr) {
        TILVENKA_PMP_CSRS(TILVENKA_PMP_CASE)
        TILVENKA_PMP_CSRS_RV32(TILVENKA_PMP_CASE)
    default:
        return NULL;
    }
#undef TILVENKA_PMP_CASE
}

/* The word for one reason of a write, TILVENKA_PMP_ABSENT and so on, as `pmp writes` has it, or NULL for any other
 * number. */
static inline const char *tilvenka_pmp_reason_name(uint32_t reason) {
    switch (reason) {
    case TILVENKA_PMP_ABSENT:
        return "absent";
    case TILVENKA_PMP_BITS:
        return "bits";
    case TILVENKA_PMP_FROZEN:
        return "frozen";
    case TILVENKA_PMP_LOW_END:
        return "tor";
    case TILVENKA_PMP_RESERVED:
        return "reserved";
    case TILVENKA_PMP_LOCKDOWN:
        return "lockdown";
    case TILVENKA_PMP_STICKY:
        return "sticky";
    case TILVENKA_PMP_BYPASS:
        return "bypass";
    case TILVENKA_PMP_GRAIN:
        return "grain";
    default:
        return NULL;
    }
}

/* The manual's name of an exception code that tilvenka_pmp_fault returns (3.1.15), or NULL for any other number. */
static inline const char *tilvenka_pmp_fault_name(uint32_t fault) {
    switch (fault) {
    case 1:
        return "instruction access fault";
    case 5:
        return "load access fault";
    case 7:
        return "store/AMO access fault";
    default:
        return NULL;
    }
}

/* Room for the text of any answer. */
enum { TILVENKA_PMP_TEXT_SIZE = 80 };

/* Writes what a decision's answer says, such as "load access fault: entry 3 matches some of the bytes", and returns
 * `text`. */
static inline const char *tilvenka_pmp_answer_text(uint32_t answer, char text[TILVENKA_PMP_TEXT_SIZE]) {
    const uint32_t entry = tilvenka_pmp_entry(answer);
    const char *fault = tilvenka_pmp_fault_name(tilvenka_pmp_fault(answer));
    const char digits[3] = {"0123456789"[entry / 10 % 10], "0123456789"[entry % 10], 0};
    const char *const parts[4] = {
        fault ? fault : "allowed",
        tilvenka_pmp_is_no_access(answer) ? ": no access"
            : tilvenka_pmp_is_unmatched(answer) ? ": no entry matches" : ": entry ",
        entry >= TILVENKA_PMP_MAX_ENTRIES ? "" : entry < 10 ? digits + 1 : digits,
        tilvenka_pmp_is_partial(answer) ? " matches some of the bytes" : "",
    };
    size_t length = 0;
    for (unsigned part = 0; part < 4; part++)
        for (const char *from = parts[part]; *from && length < TILVENKA_PMP_TEXT_SIZE - 1; from++)
            text[length++] = *from;
    text[length] = 0;
    return text;
}

/* The rights of a run's answer. */
static inline uint32_t tilvenka_pmp_run_rights(uint32_t answer) {
    return answer / TILVENKA_PMP_FAULT;
}

#ifdef __cplusplus
}
#endif
#endif
