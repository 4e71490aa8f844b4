/* A memory bus of an RV64 hart with a software TLB, which asks the library when a page enters the TLB, and keeps the
 * pages that a CSR write didn't move. Reads a trace from standard input:
 *
 *     write CSR VALUE                  writes a CSR
 *     fetch|load U|S|M ADDRESS LENGTH  reads up to 8 bytes, as instruction or as data
 *     store U|S|M ADDRESS LENGTH VALUE
 *     migrate                          saves the registers and takes them back into a unit of other memory
 *     # ..                             a comment
 *
 * and prints the result of each line. A page with mixed rights stays out of the TLB; a few runs of bytes with equal
 * rights are kept instead. A page is asked for as physical memory, since this hart translates no addresses.
 *
 * An RV32 hart differs only in its reset: tilvenka_pmp_reset(&hart.pmp, TILVENKA_PMP_HART_RV32(16, 4, 34, true)). */
#include "tilvenka_pmp.h"

#include <inttypes.h>
#include <stdio.h>
#include <stdlib.h>
#include <string.h>

#define RAM_START UINT64_C(0x80000000)
enum { RAM_SIZE = 65536, PAGE = 4096, TLB_SIZE = 64, RUNS = 4, MODES = 4 };

struct translation {
    bool is_valid;
    uint64_t page;
    uint32_t rights;
};

struct run {
    bool is_valid;
    uint64_t first, last;
    uint32_t rights;
};

struct hart {
    tilvenka_pmp_unit pmp;
    uint64_t questions; /* asked since the registers changed */
    struct translation tlb[MODES][TLB_SIZE];
    struct run runs[MODES][RUNS];
    unsigned next_run;
    unsigned hits, fills;
    uint8_t ram[RAM_SIZE];
};

struct access {
    uint32_t mode, kind;
    uint64_t address, length;
};

/* Drops each page and each run that has a byte from first to last. */
static void forget(struct hart *hart, uint64_t first, uint64_t last) {
    for (unsigned mode = 0; mode < MODES; mode++) {
        for (unsigned place = 0; place < TLB_SIZE; place++) {
            struct translation *kept = &hart->tlb[mode][place];
            if (kept->page <= last && kept->page + (PAGE - 1) >= first)
                kept->is_valid = false;
        }
        for (unsigned place = 0; place < RUNS; place++) {
            struct run *kept = &hart->runs[mode][place];
            if (kept->first <= last && kept->last >= first)
                kept->is_valid = false;
        }
    }
}

static uint32_t write_csr(struct hart *hart, uint32_t csr, uint64_t value) {
    uint64_t first, last;
    uint32_t status = tilvenka_pmp_write_moved(&hart->pmp, csr, value, &first, &last);
    if (status & TILVENKA_PMP_CHANGED)
        hart->questions = 0;
    if (status & TILVENKA_PMP_MOVED)
        forget(hart, first, last);
    return status;
}

static void migrate(struct hart *hart) {
    tilvenka_pmp_registers snapshot;
    tilvenka_pmp_save(&hart->pmp, &snapshot);
    memset(&hart->pmp, 0xaa, sizeof hart->pmp);
    tilvenka_pmp_restore(&hart->pmp, &snapshot);
    hart->questions = 0;
    forget(hart, 0, UINT64_MAX);
}

/* Returns the unit for one question: its map is built once that pays off. */
static const tilvenka_pmp_unit *unit_to_ask(struct hart *hart) {
    tilvenka_pmp_settle(&hart->pmp, ++hart->questions);
    return &hart->pmp;
}

static uint32_t right_of(uint32_t kind) {
    static const uint32_t rights[3] = {TILVENKA_PMP_EXECUTE, TILVENKA_PMP_READ, TILVENKA_PMP_WRITE};
    return rights[kind];
}

/* Asks for the page's rights. Only rights of the whole page are kept. */
static uint32_t fill_page(struct hart *hart, uint32_t mode, uint64_t page) {
    uint32_t rights = tilvenka_pmp_rights(unit_to_ask(hart), mode, page, PAGE);
    hart->fills++;
    if (rights < TILVENKA_PMP_MIXED)
        hart->tlb[mode][page / PAGE % TLB_SIZE] = (struct translation){true, page, rights};
    return rights;
}

static bool has(const struct run *run, const struct access *access) {
    return run->is_valid && run->first <= access->address && access->address <= run->last
        && access->length - 1 <= run->last - access->address;
}

/* Asks for the run at the access's address, and returns its rights if the whole access is in it, or else none. */
static uint32_t fill_run(struct hart *hart, const struct access *access) {
    struct run *kept = &hart->runs[access->mode][hart->next_run++ % RUNS];
    uint32_t answer = tilvenka_pmp_run(unit_to_ask(hart), access->mode, access->address, &kept->first, &kept->last);
    kept->rights = tilvenka_pmp_run_rights(answer);
    kept->is_valid = !tilvenka_pmp_is_no_access(answer);
    return has(kept, access) ? kept->rights : 0;
}

/* Returns rights of the whole access: of its page or its run if one is kept, else by asking the unit. An access across
 * a page's end is in one run or in none. */
static uint32_t known_rights(struct hart *hart, const struct access *access) {
    uint64_t page = access->address / PAGE * PAGE;
    bool is_in_page = access->length - 1 < page + PAGE - access->address;
    const struct translation *kept = &hart->tlb[access->mode][page / PAGE % TLB_SIZE];
    if (is_in_page && kept->is_valid && kept->page == page) {
        hart->hits++;
        return kept->rights;
    }
    for (unsigned place = 0; place < RUNS; place++)
        if (has(&hart->runs[access->mode][place], access))
            return hart->runs[access->mode][place].rights;
    uint32_t rights = is_in_page ? fill_page(hart, access->mode, page) : TILVENKA_PMP_MIXED;
    return rights < TILVENKA_PMP_MIXED ? rights : fill_run(hart, access);
}

/* Returns the answer to an access. If its right is known, nothing is decided, and 0 only means "allowed". */
static uint32_t ask(struct hart *hart, const struct access *access) {
    if (known_rights(hart, access) & right_of(access->kind))
        return 0;
    return tilvenka_pmp_decide(unit_to_ask(hart), access->mode, access->kind, access->address, access->length);
}

/* Returns the memory of the access, or NULL if the bus has none. */
static uint8_t *memory_of(struct hart *hart, const struct access *access) {
    uint64_t offset = access->address - RAM_START;
    return offset <= RAM_SIZE && access->length <= RAM_SIZE - offset ? hart->ram + offset : NULL;
}

static void print_fault(uint32_t answer) {
    printf("fault %" PRIu32 ", ", tilvenka_pmp_fault(answer));
    if (tilvenka_pmp_is_no_access(answer))
        printf("no access\n");
    else if (tilvenka_pmp_is_unmatched(answer))
        printf("no entry\n");
    else
        printf("%sentry %" PRIu32 "\n", tilvenka_pmp_is_partial(answer) ? "split by " : "", tilvenka_pmp_entry(answer));
}

static void print_bytes(const uint8_t *bytes, uint64_t length) {
    printf("0x");
    for (uint64_t place = length; place > 0; place--)
        printf("%02x", bytes[place - 1]);
    printf("\n");
}

static void run_access(struct hart *hart, const struct access *access, uint64_t value) {
    uint32_t answer = ask(hart, access);
    uint8_t *memory = memory_of(hart, access);
    if (!tilvenka_pmp_is_allowed(answer)) {
        print_fault(answer);
    } else if (memory == NULL) {
        printf("no memory there\n");
    } else if (access->kind == TILVENKA_PMP_STORE) {
        for (uint64_t place = 0; place < access->length; place++)
            memory[place] = value >> 8 * place;
        printf("stored\n");
    } else {
        print_bytes(memory, access->length);
    }
}

/* The trace. */

static bool read_mode(const char *word, uint32_t *mode) {
    static const char names[] = {'U', 'S', 0, 'M'};
    for (*mode = 0; *mode < MODES; ++*mode)
        if (names[*mode] != 0 && word[0] == names[*mode] && word[1] == 0)
            return true;
    return false;
}

static bool read_kind(const char *word, uint32_t *kind) {
    static const char *const names[] = {"fetch", "load", "store"};
    for (*kind = 0; *kind < 3; ++*kind)
        if (strcmp(word, names[*kind]) == 0)
            return true;
    return false;
}

/* The words of a line, at most five. */
struct words {
    int count;
    char word[5][32];
};

static struct words read_words(const char *line) {
    struct words words = {0};
    words.count = sscanf(line, "%31s %31s %31s %31s %31s", words.word[0], words.word[1], words.word[2], words.word[3],
                         words.word[4]);
    return words;
}

static uint64_t number(const char *word) {
    return strtoull(word, NULL, 0);
}

static bool run_access_line(struct hart *hart, const struct words *words) {
    struct access access;
    if (words->count < 4 || !read_kind(words->word[0], &access.kind) || !read_mode(words->word[1], &access.mode))
        return false;
    access.address = number(words->word[2]);
    access.length = number(words->word[3]);
    if ((access.kind == TILVENKA_PMP_STORE) != (words->count == 5) || access.length > 8)
        return false;
    run_access(hart, &access, number(words->word[4]));
    return true;
}

static bool run_line(struct hart *hart, const char *line) {
    static const char *const written[] = {"written", "an odd configuration register", "no register of the unit"};
    struct words words = read_words(line);
    if (words.count == 3 && strcmp(words.word[0], "write") == 0 && number(words.word[1]) <= UINT32_MAX) {
        uint32_t status = write_csr(hart, number(words.word[1]), number(words.word[2]));
        printf("%s\n", written[tilvenka_pmp_is_done(status) ? 0 : status]);
        return true;
    }
    if (words.count == 1 && strcmp(words.word[0], "migrate") == 0) {
        migrate(hart);
        printf("migrated\n");
        return true;
    }
    return run_access_line(hart, &words);
}

int main(void) {
    static struct hart hart; /* zeroed, so its unit is in the reset state */
    char line[128];
    for (unsigned number = 1; fgets(line, sizeof line, stdin) != NULL; number++) {
        if (line[0] == '#' || line[0] == '\n')
            continue;
        printf("%u: ", number);
        if (!run_line(&hart, line)) {
            printf("not understood\n");
            return EXIT_FAILURE;
        }
    }
    printf("%u hits of the TLB, %u fills\n", hart.hits, hart.fills);
    return EXIT_SUCCESS;
}
