/* ---- The calls of tilvenka_pmp.h, over the module above.
 *
 * The module's memory is the process's: MEMORY puts the module's one data segment in its place. Each call has its own
 * globals and stack, so calls may run concurrently as the header says. */
TILVENKA_PMP_ASSERT(sizeof(void *) == 8 || sizeof(void *) == 4, "pointers have another size");

#define MEMORY ((uintptr_t)SEGMENT - SEGMENT_ADDRESS)

static void *pointer_to(u64 address) {
    return (void *)((uintptr_t)address + MEMORY);
}

struct call {
    w2c_pmp module;
    struct {
        uint64_t bytes[2];
    } stack[1024]; /* 16 KiB; a build uses half of it */
};

static w2c_pmp *begin(struct call *call) {
    uintptr_t top = (uintptr_t)(call->stack + sizeof call->stack / sizeof *call->stack) & ~(uintptr_t)15;
    call->module.w2c_in_call = 0;
    call->module.w2c_0x5F_stack_pointer = (uintptr_t)(top - MEMORY);
    return &call->module;
}

static uint64_t at(const void *pointer) {
    return (uintptr_t)pointer - MEMORY;
}

uint32_t tilvenka_pmp_version(void) {
    struct call call;
    return w2c_pmp_tilvenka_pmp_version(begin(&call));
}

uint64_t tilvenka_pmp_unit_size(void) {
    struct call call;
    return w2c_pmp_tilvenka_pmp_unit_size(begin(&call));
}

uint32_t tilvenka_pmp_reset(tilvenka_pmp_unit *unit, uint64_t hart) {
    struct call call;
    return w2c_pmp_tilvenka_pmp_reset(begin(&call), at(unit), hart);
}

uint32_t tilvenka_pmp_write(tilvenka_pmp_unit *unit, uint32_t csr, uint64_t value) {
    struct call call;
    return w2c_pmp_tilvenka_pmp_write(begin(&call), at(unit), csr, value);
}

uint32_t tilvenka_pmp_write_moved(tilvenka_pmp_unit *unit, uint32_t csr, uint64_t value, uint64_t *first,
                                  uint64_t *last) {
    struct call call;
    return w2c_pmp_tilvenka_pmp_write_moved(begin(&call), at(unit), csr, value, at(first), at(last));
}

uint32_t tilvenka_pmp_read(const tilvenka_pmp_unit *unit, uint32_t csr, uint64_t *value) {
    struct call call;
    return w2c_pmp_tilvenka_pmp_read(begin(&call), at(unit), csr, at(value));
}

void tilvenka_pmp_build(tilvenka_pmp_unit *unit) {
    struct call call;
    w2c_pmp_tilvenka_pmp_build(begin(&call), at(unit));
}

bool tilvenka_pmp_settle(tilvenka_pmp_unit *unit, uint64_t questions) {
    struct call call;
    return w2c_pmp_tilvenka_pmp_settle(begin(&call), at(unit), questions) != 0;
}

bool tilvenka_pmp_is_built(const tilvenka_pmp_unit *unit) {
    struct call call;
    return w2c_pmp_tilvenka_pmp_is_built(begin(&call), at(unit)) != 0;
}

uint32_t tilvenka_pmp_decide(const tilvenka_pmp_unit *unit, tilvenka_pmp_mode mode, tilvenka_pmp_kind kind,
                             uint64_t start, uint64_t length) {
    struct call call;
    return w2c_pmp_tilvenka_pmp_decide(begin(&call), at(unit), mode, kind, start, length);
}

uint32_t tilvenka_pmp_decide_by_registers(const tilvenka_pmp_unit *unit, tilvenka_pmp_mode mode,
                                          tilvenka_pmp_kind kind, uint64_t start, uint64_t length) {
    struct call call;
    return w2c_pmp_tilvenka_pmp_decide_by_registers(begin(&call), at(unit), mode, kind, start, length);
}

void tilvenka_pmp_decide_many(const tilvenka_pmp_unit *unit, tilvenka_pmp_question *questions, size_t count) {
    struct call call;
    w2c_pmp_tilvenka_pmp_decide_many(begin(&call), at(unit), at(questions), count);
}

uint32_t tilvenka_pmp_rights(const tilvenka_pmp_unit *unit, tilvenka_pmp_mode mode, uint64_t start, uint64_t length) {
    struct call call;
    return w2c_pmp_tilvenka_pmp_rights(begin(&call), at(unit), mode, start, length);
}

uint32_t tilvenka_pmp_run(const tilvenka_pmp_unit *unit, tilvenka_pmp_mode mode, uint64_t address, uint64_t *first,
                          uint64_t *last) {
    struct call call;
    return w2c_pmp_tilvenka_pmp_run(begin(&call), at(unit), mode, address, at(first), at(last));
}

void tilvenka_pmp_save_to(const tilvenka_pmp_unit *unit, tilvenka_pmp_registers *registers) {
    struct call call;
    w2c_pmp_tilvenka_pmp_save_to(begin(&call), at(unit), at(registers));
}

uint32_t tilvenka_pmp_restore_from(tilvenka_pmp_unit *unit, const tilvenka_pmp_registers *registers) {
    struct call call;
    return w2c_pmp_tilvenka_pmp_restore_from(begin(&call), at(unit), at(registers));
}
