/* QEMU's machine "virt": memory, the console and what resets the board or ends a run. */
#define BOARD_MEMORY UINT64_C(0x80000000)
#define BOARD_HAS_RESET

static inline void board_put(char letter) {
    *(volatile uint8_t *)0x10000000 = letter;
}

static inline void board_settle(void) {}

static inline void board_reset(void) {
    *(volatile uint32_t *)0x100000 = 0x7777;
    for (;;)
        ;
}

static inline void board_end(int status) {
    *(volatile uint32_t *)0x100000 = status ? 0x13333 : 0x5555;
}
