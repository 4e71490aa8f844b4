/* Asks your emulator's PMP and this library the same random questions, and tells where they differ. You write the three
 * functions below over your emulator, for an RV64 hart with sixteen entries and a grain of 4 bytes:
 *
 *     cc compare.c yours.c -ltilvenka_pmp -o compare && ./compare [SEED]
 *
 * The first difference is printed as a script for `pmp why`. A seed always makes the same questions. */
#include <inttypes.h>
#include <stdio.h>
#include <stdlib.h>
#include <tilvenka_pmp.h>

void peer_reset(void);
void peer_write(uint32_t csr, uint64_t value); /* as firmware writes it */
/* Makes an aligned access: 0 if it is done, its exception code if it is refused, or NOT_MADE. */
uint32_t peer_decide(tilvenka_pmp_mode mode, tilvenka_pmp_kind kind, uint64_t start, uint64_t length);

enum { NOT_MADE = 99, ROUNDS = 1000, WRITES = 12, ACCESSES = 4 };
static const uint64_t MEMORY = 0x80000000, SIZE = 0x10000; /* where your emulator has memory, and no code of its own */
static const uint64_t BITS = UINT64_C(0x1f1f1f1f1f1f1f1f); /* 0x9f.. locks entries too, even for M-mode's own code */
static tilvenka_pmp_unit unit;
static struct { uint32_t csr; uint64_t value; } written[WRITES];
static uint64_t state, asked, opened, closed;

static uint64_t pick(uint64_t count) { /* splitmix64 */
    uint64_t mixed = state += UINT64_C(0x9e3779b97f4a7c15);
    mixed = (mixed ^ mixed >> 30) * UINT64_C(0xbf58476d1ce4e5b9);
    mixed = (mixed ^ mixed >> 27) * UINT64_C(0x94d049bb133111eb);
    return count ? (mixed ^ mixed >> 31) % count : mixed ^ mixed >> 31;
}

/* Writes configurations, or an address: the end of a TOR region, a NAPOT region, 0 or any number. */
static void write_both(unsigned number) {
    const uint64_t place = (MEMORY + pick(SIZE)) / 4, ones = (UINT64_C(1) << pick(12)) - 1;
    const uint64_t addresses[] = {place, place, (place | ones) & ~(ones + 1), (place | ones) & ~(ones + 1), 0, pick(0)};
    const bool is_address = pick(3) > 0;
    const uint32_t csr = is_address ? TILVENKA_PMP_PMPADDR0 + pick(16) : TILVENKA_PMP_PMPCFG0 + 2 * pick(2);
    written[number].csr = csr;
    written[number].value = is_address ? addresses[pick(6)] : pick(0) & BITS;
    peer_write(csr, written[number].value);
    tilvenka_pmp_write(&unit, csr, written[number].value);
}

static void compare(unsigned writes) {
    static const char *const modes[] = {"U", "S", "", "M"}, *const kinds[] = {"fetch", "load", "store"};
    static const tilvenka_pmp_mode machine[] = {TILVENKA_PMP_USER, TILVENKA_PMP_SUPERVISOR, TILVENKA_PMP_MACHINE};
    const uint64_t length = UINT64_C(1) << pick(4), start = MEMORY + pick(SIZE / length) * length;
    const tilvenka_pmp_mode mode = machine[pick(3)];
    const tilvenka_pmp_kind kind = (tilvenka_pmp_kind)pick(3);
    const uint32_t answer = tilvenka_pmp_decide(&unit, mode, kind, start, length), code = tilvenka_pmp_fault(answer);
    const uint32_t yours = peer_decide(mode, kind, start, length);
    char text[TILVENKA_PMP_TEXT_SIZE];
    asked += yours != NOT_MADE;
    if (yours == NOT_MADE || yours == code)
        return;
    if (opened + closed == 0) {
        printf("pmp 1\n");
        for (unsigned number = 0; number < writes; number++)
            printf("write %s 0x%" PRIx64 "\n", tilvenka_pmp_csr_name(written[number].csr), written[number].value);
        printf("publish\n# pmp why FILE %s %s 0x%" PRIx64 " %" PRIu64 "\n", modes[mode], kinds[kind], start, length);
        printf("# the library: %s; yours: %s\n", tilvenka_pmp_answer_text(answer, text), yours ? "refused" : "allowed");
    }
    *(yours == 0 ? &opened : &closed) += 1;
}

int main(int count, char **words) {
    state = count > 1 ? strtoull(words[1], NULL, 0) : 0;
    for (unsigned round = 0; round < ROUNDS; round++) {
        peer_reset();
        tilvenka_pmp_reset(&unit, 16);
        for (unsigned number = 0; number < WRITES; number++) {
            write_both(number);
            for (unsigned access = 0; access < ACCESSES; access++)
                compare(number + 1);
        }
    }
    printf("# of %" PRIu64 " accesses yours allows %" PRIu64 " that the library refuses, and refuses %" PRIu64
           " that it allows\n", asked, opened, closed);
    return opened + closed > 0;
}
