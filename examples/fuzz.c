/* A libFuzzer harness, run by `make fuzz`. An input is a list of steps: a write to a register or to the unit's own
 * memory, and then an access that begins near an entry's address. A register must read what was written if the write
 * reports so, and the map, rebuilt each time, must decide as the registers do. */
#include <stdlib.h>
#include <string.h>
#include <tilvenka_pmp.h>

struct step {
    uint64_t value;
    uint16_t place;  /* index of a register or byte */
    uint8_t is_raw, mode, kind, entry;
    int16_t beside;
};

static void make_write(tilvenka_pmp_unit *unit, const struct step *step) {
    static const uint32_t others[] = {TILVENKA_PMP_MSECCFG, TILVENKA_PMP_MSECCFGH, 0x300, UINT32_MAX};
    uint32_t place = step->place % 84, csr = place < 80 ? TILVENKA_PMP_PMPCFG0 + place : others[place - 80];
    uint64_t value = ~step->value;
    if (step->is_raw % 8 == 0) {
        unit->map.runs = 0;
        memcpy((uint8_t *)&unit->registers + step->place % (sizeof unit->registers - 7), &step->value, 8);
        return;
    }
    uint32_t status = tilvenka_pmp_write(unit, csr, step->value);
    if (tilvenka_pmp_read(unit, csr, &value) == TILVENKA_PMP_UNCHANGED
        && tilvenka_pmp_is_stored(status) != (value == step->value))
        abort();
}

int LLVMFuzzerTestOneInput(const uint8_t *bytes, size_t size) {
    tilvenka_pmp_unit unit;
    struct step step;
    memset(&unit, 0, sizeof unit);
    for (; size >= sizeof step; bytes += sizeof step, size -= sizeof step) {
        memcpy(&step, bytes, sizeof step);
        make_write(&unit, &step);
        uint64_t start = unit.registers.addresses[step.entry % 64] * 4 + (uint64_t)step.beside;
        uint32_t answer = tilvenka_pmp_decide_by_registers(&unit, step.mode % 4, step.kind % 3, start, 8);
        tilvenka_pmp_build(&unit);
        if (tilvenka_pmp_decide(&unit, step.mode % 4, step.kind % 3, start, 8) != answer)
            abort();
    }
    return 0;
}
