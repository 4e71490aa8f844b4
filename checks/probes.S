/* SPDX-License-Identifier: MIT OR Apache-2.0 */
/* What firmware starts in supervisor mode on a hart of QEMU's virt machine, RV32 or RV64: it tries each access of rows.h
 * in the row's mode, writes the row's number and the cause of the exception behind it to the console, and ends QEMU. After
 * a load or a store that is allowed comes a breakpoint; an allowed fetch finds no instruction. */
#if __riscv_xlen == 32
#define lwu lw
#endif

    .globl _start
_start:
    la t0, trap
    csrw stvec, t0
    la s0, rows
    li s1, 0
next:
    la t0, end
    beq s0, t0, done
    lw t0, 0(s0)                        /* SPP, the mode that sret leads to */
    li t1, 0x100
    csrc sstatus, t1
    csrs sstatus, t0
    lwu t0, 4(s0)
    csrw sepc, t0
    lwu a0, 8(s0)
    addi s0, s0, 12
    addi s1, s1, 1
    sret

    .align 2
trap:
    mv a0, s1
    li a1, ' '
    call tell
    csrr a0, scause
    li a1, '\n'
    call tell
    j next

#include "console.h"

load1:
    lb a1, 0(a0)
    ebreak
load2:
    lh a1, 0(a0)
    ebreak
load4:
    lw a1, 0(a0)
    ebreak
store1:
    sb zero, 0(a0)
    ebreak
store2:
    sh zero, 0(a0)
    ebreak
store4:
    sw zero, 0(a0)
    ebreak
fetch2:
    jr a0

    .equ U, 0
    .equ S, 0x100
    .macro row mode, kind, start, length
    .word \mode, \kind\length, \start
    .endm
    .align 2
rows:
#include "rows.h"
end:
