// alone: the header's own functions over calls that stand here in the library's place: whether a library is one for the
// header, by its version and its struct, that a unit's own registers are handed on as memory apart from the unit, and
// what the number of a hart says, written out digit by digit. The last line is 'N passed, M failed'.
#include "library.h"

static uint32_t version;
static uint64_t size;
static bool is_apart;

uint32_t tilvenka_pmp_version(void) {
    return version;
}

uint64_t tilvenka_pmp_unit_size(void) {
    return size;
}

static bool lies_apart(const tilvenka_pmp_unit *unit, const tilvenka_pmp_registers *registers) {
    uintptr_t first = (uintptr_t)unit, other = (uintptr_t)registers;
    return other + sizeof *registers <= first || first + sizeof *unit <= other;
}

void tilvenka_pmp_save_to(const tilvenka_pmp_unit *unit, tilvenka_pmp_registers *registers) {
    is_apart &= lies_apart(unit, registers);
    *registers = unit->registers;
    registers->mseccfg++;
}

uint32_t tilvenka_pmp_restore_from(tilvenka_pmp_unit *unit, const tilvenka_pmp_registers *registers) {
    is_apart &= lies_apart(unit, registers);
    unit->registers = *registers;
    unit->registers.mseccfg++;
    return TILVENKA_PMP_NO_HART;
}

static void try_own_registers(void) {
    static tilvenka_pmp_unit unit;
    is_apart = true;
    tilvenka_pmp_save(&unit, &unit.registers);
    expect(is_apart && unit.registers.mseccfg == 1, "a save to the unit's own registers", 0);
    expect(tilvenka_pmp_restore(&unit, &unit.registers) == TILVENKA_PMP_NO_HART, "what a restore answers", 0);
    expect(is_apart && unit.registers.mseccfg == 2, "a restore of the unit's own registers", 0);
}

// The patch alone may be another.
static void try_libraries(void) {
    for (version = 0; version < 30000; version++) {
        for (size = sizeof(tilvenka_pmp_unit) - 8; size <= sizeof(tilvenka_pmp_unit) + 8; size += 8) {
            unsigned major = version / 10000, minor = version / 100 % 100;
            bool is_same = major == TILVENKA_PMP_VERSION_MAJOR && minor == TILVENKA_PMP_VERSION_MINOR;
            if (tilvenka_pmp_is_compatible() != (is_same && size == sizeof(tilvenka_pmp_unit)))
                expect(false, "a library of the version", version);
        }
    }
    expect(true, "libraries", 0);
}

// Entries in bits 7 to 0, address bits in 15 to 8, Smepmp in 16, RV32 in 17, G in 31 to 24, and bit 32. A number that
// names no hart stands for 16.
static const struct {
    uint64_t number;
    bool is_hart;
    unsigned entries, xlen;
} HARTS[] = {
    {16, true, 16, 64},
    {64, true, 64, 64},
    {0x100013808, true, 8, 64},
    {0x100002200, true, 0, 64},
    {0x10a012240, true, 64, 64},
    {0x100012108, false, 16, 64},
    {0x100013908, false, 16, 64},
    {0x100032208, true, 8, 32},
    {0x100022008, true, 8, 32},
    {0x100032100, true, 0, 32},
    {0x10a032240, true, 64, 32},
    {0x100031f08, false, 16, 64},
    {0x100032308, false, 16, 64},
    {0x100033808, false, 16, 64},
    {0x10b032208, false, 16, 64},
    {0x100032241, false, 16, 64},
    {0x100052208, false, 16, 64},
    {0x100072208, false, 16, 64},
    {0x1000b2208, false, 16, 64},
    {0x100832208, false, 16, 64},
    {0x000032208, false, 16, 64},
    {0x200032208, false, 16, 64},
    {0x8000000100032208, false, 16, 64},
    {0x20010, false, 16, 64},
    {0x20040, false, 16, 64},
};

static void try_harts(void) {
    for (unsigned i = 0; i < sizeof HARTS / sizeof *HARTS; i++) {
        tilvenka_pmp_registers registers = {.entries = HARTS[i].number};
        expect(tilvenka_pmp_is_hart(HARTS[i].number) == HARTS[i].is_hart, "number of a hart", i);
        expect(tilvenka_pmp_count(&registers) == HARTS[i].entries, "entries of a hart", i);
        expect(tilvenka_pmp_xlen(&registers) == HARTS[i].xlen, "XLEN of a hart", i);
    }
    expect(TILVENKA_PMP_HART(8, 4, 56, 1) == 0x100013808, "the number of a hart of RV64", 0);
    expect(TILVENKA_PMP_HART_RV32(8, 4, 34, 1) == 0x100032208, "the number of a hart of RV32", 0);
}

int main(void) {
    try_own_registers();
    try_libraries();
    try_harts();
    printf("%u passed, %u failed\n", passed, failed);
    return failed != 0;
}
