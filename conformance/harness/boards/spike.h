/* Spike's layout, and that of other boards with a host: all goes by tohost, and software can ask for no reset. */
#define BOARD_MEMORY UINT64_C(0x80000000)

/* A letter for the console, which is the host's device 1 and command 1. */
static inline void board_put(char letter) {
    while (tohost != 0)
        ;
    tohost = UINT64_C(0x101) << 48 | (uint8_t)letter;
}

/* The host has taken the last letter. */
static inline void board_settle(void) {
    while (tohost != 0)
        ;
}

static inline void board_reset(void) {
    tohost = UINT64_C(0xdead) << 1 | 1;
    for (;;)
        ;
}

/* The host has seen tohost already. */
static inline void board_end(int status) {
    (void)status;
}
