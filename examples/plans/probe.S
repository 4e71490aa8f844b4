/* SPDX-License-Identifier: MIT OR Apache-2.0 */
/* Firmware for QEMU's virt machine in the memory of boot.csv, a.csv or b.csv: it makes the CSR writes of steps.h, and
 * after each plan's `probe` tries each access of rows.h in the row's mode, and writes the row's number and the cause of
 * the exception after it to the console. After a load or a store that is allowed comes a breakpoint; an allowed fetch
 * finds no instruction. Then it ends QEMU. */

    .globl _start
_start:
    la t0, trap
    csrw mtvec, t0
#include "steps.h"
    j done

/* probe: tries the accesses, and returns to s2. */
probe:
    sfence.vma
    la s0, rows
    li s1, 0
next:
    la t0, end
    bne s0, t0, 1f
    jr s2
1:
    lwu t0, 0(s0)                       /* MPP, the mode that mret leads to */
    li t1, 0x1800
    csrc mstatus, t1
    csrs mstatus, t0
    lwu t0, 4(s0)
    csrw mepc, t0
    lwu a0, 8(s0)
    addi s0, s0, 12
    addi s1, s1, 1
    mret

    .align 2
trap:
    mv a0, s1
    li a1, ' '
    call tell
    csrr a0, mcause
    li a1, '\n'
    call tell
    j next

#include "console.h"

/* What makes an access: M-mode's in the firmware, S- and U-mode's in the memory that is open to them. */
    .macro accesses mode
\mode\()load1:
    lb a1, 0(a0)
    ebreak
\mode\()load4:
    lw a1, 0(a0)
    ebreak
\mode\()store1:
    sb zero, 0(a0)
    ebreak
\mode\()store4:
    sw zero, 0(a0)
    ebreak
\mode\()fetch2:
    jr a0
    .endm
    accesses M

    .equ MPP_M, 0x1800
    .equ MPP_S, 0x800
    .equ MPP_U, 0
    .macro row mode, kind, start, length
    .ifc \mode, M
    .word MPP_\mode, M\kind\length, \start
    .else
    .word MPP_\mode, S\kind\length, \start
    .endif
    .endm
    .align 2
rows:
#include "rows.h"
end:

    .section .open, "ax"
    accesses S
