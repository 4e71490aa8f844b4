/* What the parts of the harness share. Assembly reads it too. */
#ifndef HARNESS_H
#define HARNESS_H

/* Where things are, from the start of memory on; suite/case.py has the same places. */
#define DATA_PLACE 0x10000
#define CASES_PLACE 0x12000
#define CASES_SIZE 0x5000
#define KEPT_PLACE 0x17f00
#define STUB_PLACE 0x20000
#define ARENA_PLACE 0x100000
#define ARENA_SIZE 0x20000

/* A page table of Sv39 that maps the memory's gigabyte to itself for S-mode, and one of Sv39x4 for its guests. */
#define TABLE_PLACE 0x130000
#define GUEST_TABLE_PLACE 0x134000

/* FS and VS of mstatus, which are there where their extensions are. */
#define FLOATS_AND_VECTORS 0x2200
#define MPRV 0x20000
#define MPP 0x1800

/* Indices into the lists of instructions that `attempt` runs, eight bytes each, and the size of an operation. */
#define CSR_COUNT 82
#define OPERATION_SIZE 16

/* How many words of 32 bits the signature has: suite/elves.py writes the one that is expected. */
#define SIGNATURE_WORDS 44

#ifndef __ASSEMBLER__
#include <stdint.h>
extern volatile uint64_t tohost;
#include "board.h"

enum { MACHINE = 3, ILLEGAL = 2, BREAKPOINT = 3, ECALL = 8 };
#define ARENA (BOARD_MEMORY + ARENA_PLACE)
#define TABLE (BOARD_MEMORY + TABLE_PLACE)
#define GUEST_TABLE (BOARD_MEMORY + GUEST_TABLE_PLACE)
#define COMPRESSED_EBREAKS 0x9002900290029002
#define XLEN __riscv_xlen

struct outcome {
    uintptr_t cause;
    uintptr_t value;
};

/* Runs an instruction at `target`, with these in its registers, and comes back by the exception that it or the ecall
   behind it raises. `status` is set in mstatus before; the target is reached by mret where `by_return` isn't 0. */
struct outcome attempt(uintptr_t target, uintptr_t address, uintptr_t value, uintptr_t status, uintptr_t by_return);

extern const char csr_writes[], csr_reads[], csr_sets[], csr_clears[], machine_operations[], stub_operations[];
extern const char fence_addresses[], fence_code[], fence_guests[], set_satp[], set_hstatus[], set_vsatp[], set_hgatp[];
extern const char read_satp[], read_vsatp[], read_hgatp[], clear_supervisor[];
extern uint64_t cases[];
extern uint32_t begin_signature[];

struct kept {
    uint64_t mark;
    uint64_t place;
    uint64_t failed;
};

/* How many of the things that are judged here were wrong. */
extern uint64_t failed;

void harness(void);
void lost(void);

/* harness.c: what is told, registers, and memory. */
void put(char letter);
void put_number(uint64_t number);
struct outcome in_machine_mode(const char *place, unsigned index, uintptr_t argument);
int change_security(uint64_t bits, int is_set);
void fill(uint64_t from, uint64_t to);

/* access.c */
uint64_t read_mepc(void);
uint64_t read_mtval(void);
void put_answer(int is_allowed, uint64_t cause, uint64_t address, int is_here);
void begin_tables(void);
void load_extensions(void);
void perform(uint64_t word, uint64_t start);
#endif
#endif
