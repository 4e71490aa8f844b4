/* SPDX-License-Identifier: MIT OR Apache-2.0 */
/* The PMP units of QEMU's harts, using the library: replaces target/riscv/pmp.c in a QEMU 10 with the patch of its
 * version, written from pmp.h and its callers. QEMU linked with it is under QEMU's licence. */
#include "qemu/osdep.h"
#include "qemu/error-report.h"
#include "qemu/log.h"
#include "cpu.h"
#include "trace.h"
#include "exec/cputlb.h"
#include "exec/page-protection.h"
#include "exec/target_page.h"

static const struct {
    uint32_t bit;
    const char *words;
} reasons[] = {
    {TILVENKA_PMP_ABSENT, "there is no such entry"},
    {TILVENKA_PMP_BITS, "the register lacks some of the bits"},
    {TILVENKA_PMP_FROZEN, "an entry is locked"},
    {TILVENKA_PMP_LOW_END, "it is the low end of a locked range"},
    {TILVENKA_PMP_RESERVED, "W without R is reserved"},
    {TILVENKA_PMP_LOCKDOWN, "MML allows no further rule that machine mode executes by"},
    {TILVENKA_PMP_STICKY, "MML and MMWP can't be cleared"},
    {TILVENKA_PMP_BYPASS, "RLB can't be set while an entry is locked"},
    {TILVENKA_PMP_GRAIN, "the grain is coarser"},
};

/* Drops what was reported of the registers before they changed. */
static void forget_runs(pmp_table_t *state)
{
    state->questions = 0;
    for (unsigned mode = 0; mode < ARRAY_SIZE(state->runs); mode++) {
        state->runs[mode] = (pmp_run_t){.first = 1, .last = 0};
    }
}

static void forget_pages(pmp_table_t *state)
{
    state->first_kept = HWADDR_MAX;
    state->last_kept = 0;
}

static uint64_t read_register(CPURISCVState *env, uint32_t csr)
{
    uint64_t value = 0;
    tilvenka_pmp_read(&env->pmp_state.unit, csr, &value);
    return value;
}

/* The TLB is flushed if what moved overlaps a page that entered it since the last flush here. All of it is flushed,
 * since it uses virtual addresses. Why the register doesn't read the value is logged as a guest error. */
static void write_register(CPURISCVState *env, uint32_t csr, target_ulong val)
{
    pmp_table_t *state = &env->pmp_state;
    uint64_t value = riscv_cpu_mxl(env) == MXL_RV32 ? (uint32_t)val : val;
    uint64_t first = 0, last = 0;
    uint32_t status = tilvenka_pmp_write_moved(&state->unit, csr, value, &first, &last);
    for (size_t i = 0; status >= TILVENKA_PMP_ABSENT && i < ARRAY_SIZE(reasons); i++) {
        if (status & reasons[i].bit) {
            qemu_log_mask(LOG_GUEST_ERROR, "hart %" PRIu64 ": CSR 0x%" PRIx32 " doesn't take 0x%" PRIx64 ": %s\n",
                          (uint64_t)env->mhartid, csr, value, reasons[i].words);
        }
    }
    if (status & TILVENKA_PMP_CHANGED) {
        forget_runs(state);
    }
    if ((status & TILVENKA_PMP_MOVED) && first <= state->last_kept && last >= state->first_kept) {
        forget_pages(state);
        tlb_flush(env_cpu(env));
    }
}

void pmpcfg_csr_write(CPURISCVState *env, uint32_t reg_index, target_ulong val)
{
    trace_pmpcfg_csr_write(env->mhartid, reg_index, val);
    write_register(env, TILVENKA_PMP_PMPCFG0 + reg_index, val);
}

target_ulong pmpcfg_csr_read(CPURISCVState *env, uint32_t reg_index)
{
    target_ulong val = read_register(env, TILVENKA_PMP_PMPCFG0 + reg_index);
    trace_pmpcfg_csr_read(env->mhartid, reg_index, val);
    return val;
}

void pmpaddr_csr_write(CPURISCVState *env, uint32_t addr_index, target_ulong val)
{
    trace_pmpaddr_csr_write(env->mhartid, addr_index, val);
    write_register(env, TILVENKA_PMP_PMPADDR0 + addr_index, val);
}

target_ulong pmpaddr_csr_read(CPURISCVState *env, uint32_t addr_index)
{
    target_ulong val = read_register(env, TILVENKA_PMP_PMPADDR0 + addr_index);
    trace_pmpaddr_csr_read(env->mhartid, addr_index, val);
    return val;
}

/* The mseccfg bits of other extensions, if the hart has these. */
static uint64_t bits_of_others(CPURISCVState *env)
{
    const RISCVCPUConfig *cfg = riscv_cpu_cfg(env);
    return (cfg->ext_zkr ? MSECCFG_USEED | MSECCFG_SSEED : 0) | (cfg->ext_zicfilp ? MSECCFG_MLPE : 0)
        | (cfg->ext_smmpm && riscv_cpu_mxl(env) == MXL_RV64 ? MSECCFG_PMM : 0);
}

/* env->mseccfg holds the unit's bits and those of others: QEMU looks there for the latter. */
void mseccfg_csr_write(CPURISCVState *env, target_ulong val)
{
    uint64_t others = bits_of_others(env);
    trace_mseccfg_csr_write(env->mhartid, val);
    if ((others & MSECCFG_PMM) && get_field(val, MSECCFG_PMM) == PMM_FIELD_RESERVED) {
        val = (val & ~MSECCFG_PMM) | (env->mseccfg & MSECCFG_PMM);
    }
    write_register(env, TILVENKA_PMP_MSECCFG, val & ~others);
    env->mseccfg = read_register(env, TILVENKA_PMP_MSECCFG) | (val & others);
}

target_ulong mseccfg_csr_read(CPURISCVState *env)
{
    trace_mseccfg_csr_read(env->mhartid, env->mseccfg);
    return env->mseccfg;
}

static void ask_run(const tilvenka_pmp_unit *unit, target_ulong mode, hwaddr addr, pmp_run_t *run)
{
    run->first = run->last = addr;
    uint32_t answer = tilvenka_pmp_run(unit, mode, addr, &run->first, &run->last);
    run->rights = tilvenka_pmp_is_no_access(answer) ? 0 : tilvenka_pmp_run_rights(answer);
}

/* Returns the run of a byte, which is kept until the registers change. */
static const pmp_run_t *run_of(pmp_table_t *state, target_ulong mode, hwaddr addr)
{
    pmp_run_t *kept = &state->runs[mode];
    if (unlikely(addr < kept->first || addr > kept->last)) {
        tilvenka_pmp_settle(&state->unit, ++state->questions);
        ask_run(&state->unit, mode, addr, kept);
    }
    return kept;
}

/* An access that extends past the run of its first byte has bytes of two entries, or of one and none: it fails. */
static bool is_open(const pmp_run_t *run, hwaddr last, pmp_priv_t privs, pmp_priv_t *allowed_privs)
{
    *allowed_privs = last <= run->last ? run->rights : 0;
    return (*allowed_privs & privs) == privs;
}

/* For a debugger or the monitor, while the hart may run: uses the registers as they are, and keeps nothing. */
static bool is_open_from_elsewhere(CPURISCVState *env, target_ulong mode, hwaddr addr, hwaddr last, pmp_priv_t privs,
                                   pmp_priv_t *allowed_privs)
{
    tilvenka_pmp_unit copy;
    pmp_run_t run;
    copy.registers = env->pmp_state.unit.registers;
    copy.map.runs = 0;
    ask_run(&copy, mode, addr, &run);
    return is_open(&run, last, privs, allowed_privs);
}

/* QEMU's sets of rights use the library's bits. If a caller doesn't know its size, and passes 0, everything up to the
 * end of the page must be open. */
bool pmp_hart_has_privs(CPURISCVState *env, hwaddr addr, target_ulong size, pmp_priv_t privs,
                        pmp_priv_t *allowed_privs, target_ulong mode)
{
    pmp_table_t *state = &env->pmp_state;
    hwaddr last = size != 0 ? addr + size - 1 : addr | ~TARGET_PAGE_MASK;
    if (unlikely(current_cpu != env_cpu(env))) {
        return is_open_from_elsewhere(env, mode, addr, last, privs, allowed_privs);
    }
    state->mode_told = mode;
    return is_open(run_of(state, mode, addr), last, privs, allowed_privs);
}

/* A page enters the TLB if all its bytes have one run, which holds in every mode or in none. A size of 1 makes QEMU ask
 * at every access. */
target_ulong pmp_get_tlb_size(CPURISCVState *env, hwaddr addr)
{
    pmp_table_t *state = &env->pmp_state;
    hwaddr first = addr & TARGET_PAGE_MASK, last = addr | ~TARGET_PAGE_MASK;
    const pmp_run_t *run = run_of(state, state->mode_told, addr);
    if (first < run->first || last > run->last) {
        return 1;
    }
    state->first_kept = MIN(state->first_kept, first);
    state->last_kept = MAX(state->last_kept, last);
    return TARGET_PAGE_SIZE;
}

int pmp_priv_to_page_prot(pmp_priv_t pmp_priv)
{
    return (pmp_priv & PMP_READ ? PAGE_READ : 0) | (pmp_priv & PMP_WRITE ? PAGE_WRITE : 0)
        | (pmp_priv & PMP_EXEC ? PAGE_EXEC : 0);
}

/* Returns the library's number for such a hart. */
static uint64_t hart_of(CPURISCVState *env)
{
    const RISCVCPUConfig *cfg = riscv_cpu_cfg(env);
#ifdef MIN_RISCV_PMP_GRANULARITY
    uint32_t entries = cfg->pmp_regions, grain = cfg->pmp_granularity;
#else
    uint32_t entries = MAX_RISCV_PMPS, grain = 4;
#endif
    return riscv_cpu_mxl(env) == MXL_RV32 ? TILVENKA_PMP_HART_RV32(entries, grain, 34, cfg->ext_smepmp)
                                          : TILVENKA_PMP_HART(entries, grain, 56, cfg->ext_smepmp);
}

void pmp_reset(CPURISCVState *env)
{
    pmp_table_t *state = &env->pmp_state;
    if (tilvenka_pmp_reset(&state->unit, hart_of(env)) != TILVENKA_PMP_UNCHANGED) {
        error_report("a PMP grain is a power of two from 4 to 4096");
        exit(1);
    }
    forget_runs(state);
    forget_pages(state);
    env->mseccfg = 0;
}

void pmp_pre_save(CPURISCVState *env)
{
    pmp_table_t *state = &env->pmp_state;
    tilvenka_pmp_registers registers;
    tilvenka_pmp_save(&state->unit, &registers);
    for (unsigned i = 0; i < MAX_RISCV_PMPS; i++) {
        state->pmp[i].addr_reg = registers.addresses[i];
        state->pmp[i].cfg_reg = registers.configurations[i];
    }
}

void pmp_post_load(CPURISCVState *env)
{
    pmp_table_t *state = &env->pmp_state;
    tilvenka_pmp_registers registers = {.mseccfg = env->mseccfg, .entries = hart_of(env)};
    for (unsigned i = 0; i < MAX_RISCV_PMPS; i++) {
        registers.addresses[i] = state->pmp[i].addr_reg;
        registers.configurations[i] = state->pmp[i].cfg_reg;
    }
    tilvenka_pmp_restore(&state->unit, &registers);
    forget_runs(state);
    env->mseccfg = read_register(env, TILVENKA_PMP_MSECCFG) | (env->mseccfg & bits_of_others(env));
}
