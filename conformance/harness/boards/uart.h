/* A board with a serial port, as SiFive's and others: an ns16550 with a register a byte, over which one image takes the
   cases. With BOARD_HAS_RESET software can ask for a reset, as QEMU's machine "virt" lets it; without it someone or
   something else has to reset the board where it waits. */
#define BOARD_MEMORY UINT64_C(0x80000000)
#define BOARD_TAKES_CASES
#define BOARD_HAS_RESET
#define BOARD_UART ((volatile uint8_t *)0x10000000)

static inline void board_put(char letter) {
    while (!(BOARD_UART[5] & 0x20))
        ;
    BOARD_UART[0] = letter;
}

/* Its queues are on. */
static inline void board_begin(void) {
    BOARD_UART[2] = 1;
}

static inline uint8_t board_get(void) {
    while (!(BOARD_UART[5] & 1))
        ;
    return BOARD_UART[0];
}

static inline void board_settle(void) {
    while (!(BOARD_UART[5] & 0x40))
        ;
}

static inline void board_reset(void) {
    board_settle();
    *(volatile uint32_t *)0x100000 = 0x7777;
    for (;;)
        ;
}

static inline void board_end(int status) {
    (void)status;
}
