/* What the hart runs: firmware that switches between domains, and the program of a domain, made word by word. */
#ifndef GUEST_H
#define GUEST_H
#include "hart.h"
#include <string.h>

/* The registers that the host sets before the start, and those that it reads behind the end. */
enum { TEMPORARY = 5, OTHER = 6, TABLE = 8, TABLE_END = 9, BASE = 10, STRIDE = 11, LEFT = 18, SUM = 19, FAULTS = 20,
       PROGRAM = 21, HANDLER = 22, TABLE_START = 23, TIMES = 24, STATUS = 25 };

/* A row of the firmware's table: eight addresses, the configurations, the domain's first page. */
enum { ROW_WORDS = 10, SWITCHED = 8 };

/* Where the parts lie, each with a page or more of its own. */
#define FIRMWARE RAM_START
#define ROWS (RAM_START + 0x4000)
#define USER_CODE (RAM_START + 0x20000)

struct code {
    uint32_t *words;
    unsigned count;
};

static void emit(struct code *code, uint32_t word) {
    code->words[code->count++] = word;
}

static void emit_i(struct code *code, unsigned opcode, unsigned function, unsigned to, unsigned from, unsigned value) {
    emit(code, (value & 0xfff) << 20 | from << 15 | function << 12 | to << 7 | opcode);
}

static void load_double(struct code *code, unsigned to, unsigned from, unsigned offset) {
    emit_i(code, 0x03, 3, to, from, offset);
}

static void store_double(struct code *code, unsigned value, unsigned to, unsigned offset) {
    emit(code, offset >> 5 << 25 | value << 20 | to << 15 | 3 << 12 | (offset & 31) << 7 | 0x23);
}

static void add_number(struct code *code, unsigned to, unsigned from, int value) {
    emit_i(code, 0x13, 0, to, from, value);
}

static void add(struct code *code, unsigned to, unsigned a, unsigned b) {
    emit(code, b << 20 | a << 15 | to << 7 | 0x33);
}

static void exclusive_or(struct code *code, unsigned to, unsigned a, unsigned b) {
    emit(code, b << 20 | a << 15 | 4 << 12 | to << 7 | 0x33);
}

/* Function 0 where they are equal, 1 where they aren't. The offset is in instructions. */
static void branch(struct code *code, unsigned function, unsigned a, unsigned b, int instructions) {
    uint32_t offset = 4 * (uint32_t)instructions;
    emit(code, (offset >> 12 & 1) << 31 | (offset >> 5 & 63) << 25 | b << 20 | a << 15 | function << 12
         | (offset >> 1 & 15) << 8 | (offset >> 11 & 1) << 7 | 0x63);
}

static void write_register(struct code *code, unsigned csr, unsigned from) {
    emit_i(code, 0x73, 1, 0, from, csr);
}

static void read_register(struct code *code, unsigned to, unsigned csr) {
    emit_i(code, 0x73, 2, to, 0, csr);
}

enum { CSR_MSTATUS = 0x300, CSR_MTVEC = 0x305, CSR_MEPC = 0x341, CSR_MCAUSE = 0x342, CSR_MTVAL = 0x343 };
enum { WORD_MRET = 0x30200073, WORD_ECALL = 0x73, WORD_EBREAK = 0x100073, CALL_OF_USER = 8 };

/* Nine writes to the unit. Each value is loaded before its write, or all of them before the first write. */
static void emit_writes(struct code *code, bool is_loaded_first) {
    static const uint8_t values[SWITCHED + 1] = {12, 13, 14, 15, 16, 17, 28, 29, 30};
    for (unsigned place = 0; is_loaded_first && place <= SWITCHED; place++)
        load_double(code, values[place], TABLE, 8 * place);
    for (unsigned place = 0; place <= SWITCHED; place++) {
        if (!is_loaded_first)
            load_double(code, values[place], TABLE, 8 * place);
        write_register(code, place < SWITCHED ? PMPADDR0 + place : PMPCFG0, values[place]);
    }
}

/* The writes, and on to the domain of the row. Answers where the switch begins. */
static unsigned emit_switch(struct code *code, bool is_loaded_first) {
    write_register(code, CSR_MTVEC, HANDLER);
    write_register(code, CSR_MSTATUS, STATUS);
    unsigned start = code->count;
    emit_writes(code, is_loaded_first);
    load_double(code, BASE, TABLE, 8 * SWITCHED + 8);
    add_number(code, TABLE, TABLE, 8 * ROW_WORDS);
    branch(code, 1, TABLE, TABLE_END, 2);
    add_number(code, TABLE, TABLE_START, 0);
    write_register(code, CSR_MEPC, PROGRAM);
    emit(code, WORD_MRET);
    return start;
}

/* Firmware at the start of memory. A fault is counted, and its instruction passed over; a call ends the domain's turn.
   Answers where the handler is. */
static uint64_t emit_firmware(struct code *code, bool is_loaded_first) {
    unsigned start = emit_switch(code, is_loaded_first), handler = code->count;
    read_register(code, TEMPORARY, CSR_MCAUSE);
    add_number(code, OTHER, 0, CALL_OF_USER);
    branch(code, 0, TEMPORARY, OTHER, 8);
    add_number(code, FAULTS, FAULTS, 1);
    read_register(code, TEMPORARY, CSR_MTVAL);
    exclusive_or(code, SUM, SUM, TEMPORARY);
    read_register(code, TEMPORARY, CSR_MEPC);
    add_number(code, TEMPORARY, TEMPORARY, 4);
    write_register(code, CSR_MEPC, TEMPORARY);
    emit(code, WORD_MRET);
    add_number(code, LEFT, LEFT, -1);
    branch(code, 1, LEFT, 0, (int)start - (int)code->count);
    emit(code, WORD_EBREAK);
    return FIRMWARE + 4 * handler;
}

/* Loads from each of so many pages, a stride from each other, and a store to the first. */
static void emit_touches(struct code *code, unsigned pages) {
    add_number(code, OTHER, BASE, 0);
    for (unsigned page = 0; page < pages; page++) {
        load_double(code, TEMPORARY, OTHER, 0);
        add(code, SUM, SUM, TEMPORARY);
        add(code, OTHER, OTHER, STRIDE);
    }
    store_double(code, SUM, BASE, 8);
    emit(code, WORD_ECALL);
}

/* So often four loads at each of these distances from an address. */
static void emit_loads(struct code *code, unsigned from, const int offsets[2]) {
    add_number(code, OTHER, TIMES, 0);
    for (unsigned i = 0; i < 8; i++) {
        load_double(code, TEMPORARY, from, offsets[i % 2]);
        add(code, SUM, SUM, TEMPORARY);
    }
    add_number(code, OTHER, OTHER, -1);
    branch(code, 1, OTHER, 0, -17);
    emit(code, WORD_ECALL);
}

#endif
