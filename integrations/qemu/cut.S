/* SPDX-License-Identifier: MIT OR Apache-2.0 */
/* User mode loads ACCESSES times from a page that has a rule of its own inside, beside its bytes, and ends. */
#define DEVICE 0x100000
#define DONE 0x5555
#define PAGE 0x80100000

    .globl _start
_start:
    la t0, trap
    csrw mtvec, t0
    li t0, (PAGE + 0x800) >> 2          /* entry 0: a word of the page, without rights */
    csrw pmpaddr0, t0
    li t0, -1                           /* entry 1: all, for everything */
    csrw pmpaddr1, t0
    li t0, 0x1f10
    csrw pmpcfg0, t0
    sfence.vma
    la t0, user
    csrw mepc, t0
    csrw mstatus, zero
    mret

user:
    li a0, PAGE
    li s0, ACCESSES
again:
    ld t1, 0(a0)
    addi s0, s0, -1
    bnez s0, again
    ecall

    .align 2
trap:
    csrr t0, mcause
    li t1, 8                            /* an ecall of user mode: anything else ends the run with another status */
    li t2, DEVICE
    li t3, (3 << 16) | 0x3333
    bne t0, t1, end
    li t3, DONE
end:
    sw t3, 0(t2)
    j end
