/* What QEMU's pmp.c takes from the rest of QEMU, as little as it needs. */
#ifndef QEMU_STUBS_CPU_H
#define QEMU_STUBS_CPU_H
#include <stdbool.h>
#include <stdint.h>

typedef uint64_t target_ulong;
typedef uint64_t hwaddr;
typedef struct CPUArchState CPURISCVState;

#define MAX_RISCV_PMPS ENTRIES
#define MIN_RISCV_PMP_GRANULARITY 4
#define TARGET_LONG_BITS 64
#include "pmp.h"

enum { PRV_U = 0, PRV_S = 1, PRV_M = 3 };
enum { PAGE_READ = 1, PAGE_WRITE = 2, PAGE_EXEC = 4 };
enum { MXL_RV64 = 2 };
enum { PMM_FIELD_RESERVED = 1 };
#define TARGET_PAGE_SIZE UINT64_C(4096)
#define TARGET_PAGE_MASK (-TARGET_PAGE_SIZE)
#define LOG_GUEST_ERROR 0

struct configuration {
    bool mmu;
    bool pmp;
    bool ext_smepmp;
    bool ext_smmpm;
    bool ext_zicfilp;
    /* Of 10.2. */
    uint8_t pmp_regions;
    uint32_t pmp_granularity;
};

struct CPUArchState {
    pmp_table_t pmp_state;
    target_ulong mseccfg;
    target_ulong mhartid;
    uint32_t misa_mxl;
    struct configuration cfg;
    bool is_flushed;
};

static inline const struct configuration *riscv_cpu_cfg(CPURISCVState *env) {
    return &env->cfg;
}

#define get_field(value, mask) (((value) & (uint64_t)(mask)) / ((mask) & ~((mask) << 1)))
#define riscv_cpu_mxl(env) ((env)->misa_mxl)
#define env_cpu(env) (env)
#define env_archcpu(env) (env)
#define tlb_flush(cpu) ((cpu)->is_flushed = true)
#define qemu_log_mask(...) ((void)0)
#define g_assert_not_reached() __builtin_unreachable()
#define trace_pmpcfg_csr_write(...) ((void)0)
#define trace_pmpcfg_csr_read(...) ((void)0)
#define trace_pmpaddr_csr_write(...) ((void)0)
#define trace_pmpaddr_csr_read(...) ((void)0)
#define trace_mseccfg_csr_write(...) ((void)0)
#define trace_mseccfg_csr_read(...) ((void)0)
#endif
