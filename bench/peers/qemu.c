/* QEMU's unit as a peer, which is compiled once for each version: PEER is its name. */
#include "../peer.h"
#include "cpu.h"

static CPURISCVState env;

static void write(const struct write *writes, size_t count) {
    for (size_t i = 0; i < count; i++) {
        const struct write *it = &writes[i];
        if (it->number == MSECCFG)
            mseccfg_csr_write(&env, it->value);
        else if (it->number >= PMPADDR0)
            pmpaddr_csr_write(&env, it->number - PMPADDR0, it->value);
        else
            pmpcfg_csr_write(&env, it->number - PMPCFG0, it->value);
    }
}

static void prepare(const struct write *writes, size_t count) {
    env = (CPURISCVState){.misa_mxl = MXL_RV64, .cfg = {.mmu = true, .pmp = true, .ext_smepmp = true,
                                                        .pmp_regions = ENTRIES, .pmp_granularity = 4}};
    write(writes, count);
}

static bool moves(struct write one, uint64_t *first, uint64_t *last) {
    *first = 0;
    *last = LAST_BYTE;
    env.is_flushed = false;
    write(&one, 1);
    return env.is_flushed;
}

static uint64_t read_register(uint16_t number) {
    if (number == MSECCFG)
        return mseccfg_csr_read(&env);
    return number >= PMPADDR0 ? pmpaddr_csr_read(&env, number - PMPADDR0) : pmpcfg_csr_read(&env, number - PMPCFG0);
}

static void read(const struct write *writes, size_t count, uint64_t *values) {
    for (size_t i = 0; i < count; i++)
        values[i] = read_register(writes[i].number);
}

static const pmp_priv_t needed[3] = {[FETCH] = PMP_EXEC, [LOAD] = PMP_READ, [STORE] = PMP_WRITE};

static inline unsigned answer_to(struct request it) {
    pmp_priv_t allowed;
    return pmp_hart_has_privs(&env, it.start, it.length, needed[it.kind], &allowed, it.mode) ? ALLOWED : 0;
}

/* What QEMU asks where its TLB takes a page in: whether the access is allowed, and whether entries end in the page. */
static inline unsigned rights_of(struct request it) {
    pmp_priv_t allowed = 0;
    bool is_allowed = pmp_hart_has_privs(&env, it.start, it.length, needed[it.kind], &allowed, it.mode);
    unsigned rights = is_allowed ? pmp_priv_to_page_prot(allowed) : 0;
    return pmp_get_tlb_size(&env, it.start) == TARGET_PAGE_SIZE ? rights : MIXED;
}

ASK_BY(decide, answer_to)
ASK_BY(fill, rights_of)

#define TEXT_OF(NAME) #NAME
#define NAME_OF(PEER) TEXT_OF(PEER)

const struct peer PEER = {
    .name = NAME_OF(PEER),
    .prepare = prepare,
    .change = write,
    .moves = moves,
    .write = write,
    .read = read,
    .decide = decide,
    .fill = fill,
};
