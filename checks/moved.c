// moved: what a write moves, on rows that were worked out by hand from the manual; and when a map pays. The last line
// is 'N passed, M failed'.
#include "library.h"
#include <string.h>

// The bytes from `first` to `last`.
struct span {
    uint64_t first, last;
};

static const struct {
    uint64_t hart;
    const char *writes;
    uint32_t csr;
    uint64_t value;
    uint32_t status;
    struct span moved;
} ROWS[] = {
    // An entry that is off matches nothing, and one that is turned on, changed or turned off moves what it matches.
    {16, "", 0x3b0, 0x200001ff, TILVENKA_PMP_CHANGED, {7, 8}},
    {16, "3b0=200001ff", 0x3a0, 0x1f, TILVENKA_PMP_CHANGED + TILVENKA_PMP_MOVED, {0x80000000, 0x80000fff}},
    {16, "3b0=200001ff 3a0=1f", 0x3a0, 0x1f, TILVENKA_PMP_UNCHANGED, {7, 8}},
    {16, "3b0=200001ff 3a0=1f", 0x3a0, 0x9f, TILVENKA_PMP_CHANGED + TILVENKA_PMP_MOVED, {0x80000000, 0x80000fff}},
    {16, "3b0=200001ff 3a0=1f", 0x3a0, 0, TILVENKA_PMP_CHANGED + TILVENKA_PMP_MOVED, {0x80000000, 0x80000fff}},
    {16, "3b0=200001ff 3a0=1f", 0x3a0, 0x11f, TILVENKA_PMP_CHANGED, {7, 8}},
    {16, "3b0=200001ff 3a0=1f", 0x3b0, 0x100001ff, TILVENKA_PMP_CHANGED + TILVENKA_PMP_MOVED, {0x40000000, 0x80000fff}},
    // Of eight entries those that changed: entry 1 alone, and entries 0 and 2 with what lies between.
    {16, "3b0=10 3b1=20 3b2=30 3a0=111111", 0x3a0, 0x111311, TILVENKA_PMP_CHANGED + TILVENKA_PMP_MOVED, {0x80, 0x83}},
    {16, "3b0=10 3b1=20 3b2=30 3a0=111111", 0x3a0, 0x101110, TILVENKA_PMP_CHANGED + TILVENKA_PMP_MOVED, {0x40, 0xc3}},
    // An address is the low end of the next entry, where that is TOR. One with no byte before and after moves nothing.
    {16, "3b0=10 3b1=20 3a0=900", 0x3b0, 0x18, TILVENKA_PMP_CHANGED + TILVENKA_PMP_MOVED, {0x40, 0x7f}},
    {16, "3b0=10 3b1=20 3a0=1900", 0x3b0, 0x18, TILVENKA_PMP_CHANGED, {7, 8}},
    {16, "3b0=30 3b1=20 3a0=900", 0x3b0, 0x40, TILVENKA_PMP_CHANGED, {7, 8}},
    {16, "3b0=10 3b1=20 3a0=911", 0x3b0, 0x30, TILVENKA_PMP_CHANGED + TILVENKA_PMP_MOVED, {0x40, 0xc3}},
    {64, "3be=10 3bf=20 3c0=30 3a4=09", 0x3bf, 0x28, TILVENKA_PMP_CHANGED + TILVENKA_PMP_MOVED, {0x80, 0xbf}},
    {16, "3be=10 3bf=20 3a2=0900000000000000", 0x3bf, 0x28, TILVENKA_PMP_CHANGED + TILVENKA_PMP_MOVED, {0x40, 0x9f}},
    // The last bytes, and none past them.
    {16, "3b0=3fffffffffffff", 0x3a0, 0x1f, TILVENKA_PMP_CHANGED + TILVENKA_PMP_MOVED, {0, 0xffffffffffffff}},
    {16, "3b0=3ffffffffffffe", 0x3a0, 0x17, TILVENKA_PMP_CHANGED + TILVENKA_PMP_MOVED,
     {0xfffffffffffff8, 0xfffffffffffffb}},
    // mseccfg moves all where a bit of it changed.
    {16, "", MSECCFG, 2, TILVENKA_PMP_CHANGED + TILVENKA_PMP_MOVED, {0, 0xffffffffffffff}},
    {16, "747=2", MSECCFG, 2, TILVENKA_PMP_UNCHANGED, {7, 8}},
    {16, "3a0=80", MSECCFG, 4, TILVENKA_PMP_BYPASS, {7, 8}},
    // What the grain hides is changed, and moves nothing.
    {TILVENKA_PMP_HART(16, 4096, 56, 1), "", 0x3b0, 0x3ff, TILVENKA_PMP_CHANGED + TILVENKA_PMP_GRAIN, {7, 8}},
    {TILVENKA_PMP_HART(16, 4096, 56, 1), "3b0=400 3a0=f", 0x3b0, 0x7ff, TILVENKA_PMP_CHANGED + TILVENKA_PMP_GRAIN,
     {7, 8}},
    // RV32: four entries a register, and the last bytes are those of its own address bits.
    {TILVENKA_PMP_HART_RV32(16, 4, 34, 1), "3b4=200001ff", 0x3a1, 0x1f, TILVENKA_PMP_CHANGED + TILVENKA_PMP_MOVED,
     {0x80000000, 0x80000fff}},
    {TILVENKA_PMP_HART_RV32(16, 4, 34, 1), "3b4=200001ff", 0x3a0, 0x1f00000000, TILVENKA_PMP_ABSENT, {7, 8}},
    {TILVENKA_PMP_HART_RV32(16, 4, 34, 1), "3b3=10 3b4=20 3a1=9", 0x3b3, 0x18,
     TILVENKA_PMP_CHANGED + TILVENKA_PMP_MOVED, {0x40, 0x7f}},
    {TILVENKA_PMP_HART_RV32(16, 4, 34, 1), "3b0=ffffffff", 0x3a0, 0x1f, TILVENKA_PMP_CHANGED + TILVENKA_PMP_MOVED,
     {0, 0x7ffffffff}},
    {TILVENKA_PMP_HART_RV32(16, 4, 34, 1), "3b0=ffffffff", 0x3a0, 0xf, TILVENKA_PMP_CHANGED + TILVENKA_PMP_MOVED,
     {0, 0x3fffffffb}},
    {TILVENKA_PMP_HART_RV32(16, 4, 32, 1), "", 0x3b0, 0x40000000, TILVENKA_PMP_BITS, {7, 8}},
    {TILVENKA_PMP_HART_RV32(16, 4, 34, 1), "", 0x3b0, 0x100000000, TILVENKA_PMP_BITS, {7, 8}},
    {TILVENKA_PMP_HART_RV32(16, 4, 34, 1), "", MSECCFGH, 0, TILVENKA_PMP_UNCHANGED, {7, 8}},
    {TILVENKA_PMP_HART_RV32(16, 4, 34, 1), "", MSECCFGH, 1, TILVENKA_PMP_BITS, {7, 8}},
    {TILVENKA_PMP_HART_RV32(16, 4, 34, 0), "", MSECCFGH, 0, TILVENKA_PMP_NO_REGISTER, {7, 8}},
    // What is refused, or isn't there.
    {16, "3a0=80", 0x3b0, 5, TILVENKA_PMP_FROZEN, {7, 8}},
    {16, "", 0x3c0, 5, TILVENKA_PMP_ABSENT, {7, 8}},
    {16, "", 0x3a1, 5, TILVENKA_PMP_ODD_CONFIGURATION, {7, 8}},
    {16, "", 0x300, 5, TILVENKA_PMP_NO_REGISTER, {7, 8}},
    {16, "", MSECCFGH, 0, TILVENKA_PMP_NO_REGISTER, {7, 8}},
};

static void try_rows(void) {
    for (unsigned i = 0; i < sizeof ROWS / sizeof *ROWS; i++) {
        tilvenka_pmp_unit unit, other;
        struct span moved = {7, 8};
        reset(&unit, ROWS[i].hart);
        write_all(&unit, ROWS[i].writes);
        tilvenka_pmp_build(&unit);
        other = unit;
        uint32_t status = tilvenka_pmp_write_moved(&unit, ROWS[i].csr, ROWS[i].value, &moved.first, &moved.last);
        expect(status == ROWS[i].status, "status of a move", i);
        expect(moved.first == ROWS[i].moved.first && moved.last == ROWS[i].moved.last, "what moved", i);
        expect(tilvenka_pmp_write(&other, ROWS[i].csr, ROWS[i].value) == (status & ~(uint32_t)TILVENKA_PMP_MOVED)
                   && memcmp(&unit, &other, sizeof unit) == 0, "as it is written", i);
    }
}

// A map pays from the 24th question on.

static bool is_settled_right(const tilvenka_pmp_unit *unbuilt, const tilvenka_pmp_unit *built, uint64_t questions) {
    static tilvenka_pmp_unit unit;
    unit = *unbuilt;
    bool is_right = tilvenka_pmp_settle(&unit, questions) == (questions >= 24);
    is_right &= memcmp(&unit, questions >= 24 ? built : unbuilt, sizeof unit) == 0;
    unit = *built;
    return is_right && tilvenka_pmp_settle(&unit, questions) && memcmp(&unit, built, sizeof unit) == 0;
}

static void try_settling(void) {
    static tilvenka_pmp_unit unbuilt, built;
    for (unsigned coarse = 0; coarse < 2; coarse++) {
        for (unsigned entries = 0; entries <= 64; entries++) {
            unsigned on = 0;
            memset(&unbuilt, 0, sizeof unbuilt);
            reset(&unbuilt, TILVENKA_PMP_HART(entries, coarse ? 8 : 4, 56, 1));
            for (unsigned entry = 0; entry < entries; entry++) {
                unsigned matching = entry % 5 == 4 ? 0 : entry % 3 + 1;
                unbuilt.registers.addresses[entry] = 64 * entry;
                unbuilt.registers.configurations[entry] = matching * 8 + entry % 4 / 2 * 128;
                on += matching != 0 && !(coarse && matching == 2);
            }
            expect(on == tilvenka_pmp_entries_on(&unbuilt), "entries on", entries);
            built = unbuilt;
            tilvenka_pmp_build(&built);
            bool is_right = true;
            for (uint64_t questions = 0; questions < 200; questions++)
                is_right &= is_settled_right(&unbuilt, &built, questions);
            for (unsigned bit = 8; bit < 64; bit++)
                is_right &= is_settled_right(&unbuilt, &built, UINT64_C(1) << bit);
            expect(is_right && is_settled_right(&unbuilt, &built, UINT64_MAX), "when a map pays", entries);
        }
    }
}

int main(void) {
    try_rows();
    try_settling();
    printf("%u passed, %u failed\n", passed, failed);
    return failed != 0;
}
