/* The code, the data with the cases, and the stub lie where suite/case.py says. */
ENTRY(_start)
SECTIONS
{
    . = BOARD_MEMORY;
    .text : { *(.text.start) *(.text*) *(.rodata*) *(.srodata*) }
    ASSERT(. <= BOARD_MEMORY + 0x4000, "the code is larger than its rule")
    . = BOARD_MEMORY + 0x10000;
    .data : { *(.data*) *(.sdata*) *(.bss*) *(.sbss*) *(COMMON) . = ALIGN(16); *(.stack) }
    ASSERT(. <= BOARD_MEMORY + 0x12000, "the data are larger than their place")
    . = BOARD_MEMORY + 0x12000;
    .cases : { *(.cases) }
    . = BOARD_MEMORY + 0x20000;
    .stub : { *(.stub) }
}
