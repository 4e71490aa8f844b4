/* SPDX-License-Identifier: MIT OR Apache-2.0 */
/* A monitor that switches between two domains in user mode, SWITCHES times, and ends: nine CSR writes, a fence, mret,
 * and an ecall back. Each domain loads from PAGES pages of its own. Both may execute entry 7, where this lies. */
#define DEVICE 0x100000
#define DONE 0x5555
/* Bits 55 to 2 of a NAPOT region. */
#define REGION(start, size) (((start) >> 2) | ((size) / 8 - 1))
/* Entries 0 to 6 lie side by side; the other domain has them 64 KiB above. */
#define ENTRY(n) REGION(0x80100000 + 0x1000 * (n), 0x1000)
#define APART (0x10000 >> 2)

    .globl _start
_start:
    la t0, trap
    csrw mtvec, t0
    li s0, SWITCHES
    li s1, 0                            /* what is added to an address */
    li t0, REGION(0x80000000, 0x100000)
    csrw pmpaddr7, t0

    .macro address entry
    li t0, ENTRY(\entry)
    add t0, t0, s1
    csrw pmpaddr\entry, t0
    .endm

switch:
    address 0
    address 1
    address 2
    address 3
    address 4
    address 5
    address 6
    li t0, REGION(0x80000000, 0x100000)
    csrw pmpaddr7, t0
    /* Entry 6 is for reading in the one, and for reading and writing in the other. */
    li t0, 0x1d191b1b1b1b1b1b
    snez t1, s1
    slli t1, t1, 49
    or t0, t0, t1
    csrw pmpcfg0, t0
    sfence.vma
    la t0, user
    csrw mepc, t0
    csrw mstatus, zero
    li a0, 0x80100000
    slli t0, s1, 2
    add a0, a0, t0
    mret

user:
    .set page, 0
    .rept PAGES
    lui t0, page
    add t0, t0, a0
    ld t1, 0(t0)
    .set page, page + 1
    .endr
    ecall

    .align 2
trap:
    csrr t0, mcause
    li t1, 8                            /* an ecall of user mode: anything else ends the run without the word DONE */
    li t2, DEVICE
    li t3, (3 << 16) | 0x3333
    bne t0, t1, end
    li t0, APART
    xor s1, s1, t0
    addi s0, s0, -1
    bnez s0, switch
    li t3, DONE
end:
    sw t3, 0(t2)
    j end
