/* Unicorn's PMP for compare.c: link with -lunicorn. Its M-mode has no handler, so a fault stops it, and a hook takes the
 * exception's code. U- and S-mode load and store by MPRV, without leaving M-mode; so nothing is fetched for them. */
#include <string.h>
#include <tilvenka_pmp.h>
#include <unicorn/unicorn.h>

enum { NOT_MADE = 99, CODE = 0x1000, PAGE = 0x1000 };
static uc_engine *engine;
static uint32_t fault;

static void take_fault(uc_engine *stopped, uint32_t code, void *unused) {
    (void)unused;
    fault = code;
    uc_emu_stop(stopped);
}

/* Executes one instruction with a0 and a1 set. */
static void execute(uint32_t instruction, uint64_t a0, uint64_t a1) {
    uc_reg_write(engine, UC_RISCV_REG_A0, &a0);
    uc_reg_write(engine, UC_RISCV_REG_A1, &a1);
    uc_mem_write(engine, CODE, &instruction, sizeof instruction);
    uc_ctl_remove_cache(engine, CODE, CODE + 4);
    fault = 0;
    uc_emu_start(engine, CODE, CODE + 4, 0, 1);
}

void peer_reset(void) {
    uc_hook hook;
    if (engine)
        uc_close(engine);
    uc_open(UC_ARCH_RISCV, UC_MODE_RISCV64, &engine);
    uc_mem_map(engine, CODE, PAGE, UC_PROT_ALL);
    uc_mem_map(engine, 0x80000000, 0x10000, UC_PROT_ALL);
    uc_hook_add(engine, &hook, UC_HOOK_INTR, take_fault, NULL, 1, 0);
}

void peer_write(uint32_t csr, uint64_t value) {
    execute(csr << 20 | 10 << 15 | 1 << 12 | 0x73, value, 0); /* csrw CSR, a0 */
}

uint32_t peer_decide(tilvenka_pmp_mode mode, tilvenka_pmp_kind kind, uint64_t start, uint64_t length) {
    const uint32_t width = length == 1 ? 0 : length == 2 ? 1 : length == 4 ? 2 : 3;
    if (kind == TILVENKA_PMP_FETCH)
        return NOT_MADE;
    peer_write(0x300, (uint64_t)1 << 17 | (uint64_t)mode << 11); /* mstatus: MPRV, and MPP */
    execute(kind == TILVENKA_PMP_LOAD ? 10 << 15 | width << 12 | 11 << 7 | 0x03 /* l a1, 0(a0) */
                                      : 11 << 20 | 10 << 15 | width << 12 | 0x23, /* s a1, 0(a0) */
            start, 0);
    const uint32_t code = fault;
    peer_write(0x300, 0);
    return code;
}
