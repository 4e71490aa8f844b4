# Where a hart begins, how one instruction is tried, and the instructions that are tried.
#include "harness.h"
    .file "start.S"    // Without a name here, the ELF has that of a temporary file.
    .option norelax
    .section .text.start, "ax"
    .globl _start
_start:
    csrw mie, zero
    csrr t0, mhartid
    bnez t0, park
    la t0, caught
    csrw mtvec, t0
    csrw mscratch, zero
    la sp, stack_end
    li t0, FLOATS_AND_VECTORS
    csrs mstatus, t0
    j harness
park:
    wfi
    j park

# A register's store and load, and a load of a word that RV64 alone has.
#if __riscv_xlen == 64
    .macro store_whole it:vararg
    sd \it
    .endm
    .macro load_whole it:vararg
    ld \it
    .endm
    .macro load_word it:vararg
    lwu \it
    .endm
#else
    .macro store_whole it:vararg
    sw \it
    .endm
    .macro load_whole it:vararg
    lw \it
    .endm
    .macro load_word it:vararg
    lw \it
    .endm
#endif
    .macro each_saved what
    .set place, 0
    .irp it, ra, s0, s1, s2, s3, s4, s5, s6, s7, s8, s9, s10, s11
    \what \it, place(sp)
    .set place, place + 8
    .endr
    .endm

# struct outcome attempt(target, address, value, status, by_return)
    .text
    .globl attempt
attempt:
    addi sp, sp, -112
    each_saved store_whole
    csrw mscratch, sp
    csrr t0, mstatus
    li t1, ~(MPRV | MPP)
    and t0, t0, t1
    or t0, t0, a3
    csrw mstatus, t0
    bnez a4, 1f
    # By this register a jump needs no landing pad where mseccfg has MLPE.
    mv t2, a0
    jr t2
1:  csrw mepc, a0
    mret

# Memory is touched again once MPRV is off.
    .balign 4
caught:
    li t0, MPRV
    csrc mstatus, t0
    csrrw sp, mscratch, zero
    beqz sp, 1f
    each_saved load_whole
    addi sp, sp, 112
    csrr a0, mcause
    mv a1, a2
    ret
1:  la sp, stack_end
    j lost

    .option norvc
    .macro write_csr number
    csrw \number, a1
    ecall
    .endm
    .macro read_csr number
    csrr a2, \number
    ecall
    .endm
    .macro set_csr number
    csrs \number, a1
    ecall
    .endm
    .macro clear_csr number
    csrc \number, a1
    ecall
    .endm
    .macro each_csr what
    .set number, 0x3a0
    .rept 80
    \what number
    .set number, number + 1
    .endr
    \what 0x747
    \what 0x757
    .endm

    .balign 8
    .globl csr_writes, csr_reads, csr_sets, csr_clears
csr_writes:
    each_csr write_csr
csr_reads:
    each_csr read_csr
csr_sets:
    each_csr set_csr
csr_clears:
    each_csr clear_csr

# Loads and stores of 1, 2, 4 and 8 bytes, loads without a sign of 1, 2 and 4, those of extensions, and an LR, an SC
# behind one and each AMO of 4 and of 8, in the order of operation_of in access.c. But for cbo.zero a store leaves
# memory as it is: vectors and numbers of floating point are those that were loaded from the arena.
    .option arch, +d, +v
    .macro operations
    .irp it, "lb a2, (a1)", "lh a2, (a1)", "lw a2, (a1)", "load_whole a2, (a1)", "sb a2, (a1)", "sh a2, (a1)", \
        "sw a2, (a1)", "store_whole a2, (a1)", "lbu a2, (a1)", "lhu a2, (a1)", "load_word a2, (a1)"
    .balign OPERATION_SIZE
    \it
    ecall
    .endr
    .irp it, "flw fa0, (a1)", "fld fa1, (a1)", "fsw fa0, (a1)", "fsd fa1, (a1)", \
        "li a3, 64; vsetvli zero, a3, e8, m8, ta, ma; vle8.v v8, (a1)", \
        "li a3, 64; vsetvli zero, a3, e8, m8, ta, ma; vse8.v v8, (a1)", ".insn i 0x0f, 2, x0, a1, 4", \
        ".insn i 0x0f, 2, x0, a1, 1", ".insn i 0x0f, 2, x0, a1, 2", \
        ".insn i 0x0f, 2, x0, a1, 0", \
        ".insn r 0x73, 4, 0x34, a2, a1, x0", ".insn r 0x73, 4, 0x36, a2, a1, x0", \
        ".insn r 0x73, 4, 0x35, x0, a1, a2", ".insn r 0x73, 4, 0x37, x0, a1, a2", \
        ".insn r 0x73, 4, 0x32, a2, a1, x3", ".insn r 0x73, 4, 0x34, a2, a1, x3"
    .balign OPERATION_SIZE
    \it
    ecall
    .endr
    .irp it, "lr.w a2, (a1)", "lr.w a3, (a1); sc.w a3, a2, (a1)", "amoswap.w a3, a2, (a1)", \
        "amoadd.w a3, zero, (a1)", "amoxor.w a3, zero, (a1)", "amoand.w a3, a2, (a1)", "amoor.w a3, a2, (a1)", \
        "amomin.w a3, a2, (a1)", "amomax.w a3, a2, (a1)", "amominu.w a3, a2, (a1)", "amomaxu.w a3, a2, (a1)"
    .balign OPERATION_SIZE
    \it
    ecall
    .endr
#if __riscv_xlen == 64
    .irp it, "lr.d a2, (a1)", "lr.d a3, (a1); sc.d a3, a2, (a1)", "amoswap.d a3, a2, (a1)", \
        "amoadd.d a3, zero, (a1)", "amoxor.d a3, zero, (a1)", "amoand.d a3, a2, (a1)", "amoor.d a3, a2, (a1)", \
        "amomin.d a3, a2, (a1)", "amomax.d a3, a2, (a1)", "amominu.d a3, a2, (a1)", "amomaxu.d a3, a2, (a1)"
    .balign OPERATION_SIZE
    \it
    ecall
    .endr
#endif
    .endm

    .balign OPERATION_SIZE
    .globl machine_operations, fence_addresses, fence_code, fence_guests, set_satp, set_hstatus, set_vsatp, set_hgatp
    .globl read_satp, read_vsatp, read_hgatp, clear_supervisor
machine_operations:
    operations
fence_addresses:
    sfence.vma
    ecall
fence_code:
    fence.i
    ecall
# hfence.vvma and hfence.gvma
fence_guests:
    .word 0x22000073
    .word 0x62000073
    ecall
set_satp:
    csrw satp, a1
    ecall
read_satp:
    csrr a2, satp
    ecall
set_vsatp:
    csrw 0x280, a1
    ecall
read_vsatp:
    csrr a2, 0x280
    ecall
set_hgatp:
    csrw 0x680, a1
    ecall
read_hgatp:
    csrr a2, 0x680
    ecall
set_hstatus:
    csrw 0x680, zero
    csrw 0x280, zero
    csrw 0x600, a1
    ecall
# Neither translation nor delegation is reset by what a reset has to do.
clear_supervisor:
    csrw satp, zero
    csrw medeleg, zero
    csrw mideleg, zero
    ecall

    .section .stub, "ax"
    .balign OPERATION_SIZE
    .globl stub_operations
stub_operations:
    operations

    .section .data
    .balign 64
    .globl tohost, fromhost
    .type tohost, @object
    .size tohost, 8
    .type fromhost, @object
    .size fromhost, 8
tohost:
    .dword 0
    .balign 64
fromhost:
    .dword 0

# What tools compare: how many cases ended, and how much was wrong in each of the first ones.
    .balign 16
    .globl begin_signature, end_signature
begin_signature:
    .fill SIGNATURE_WORDS, 4, 0
end_signature:
    .word 0

    .section .stack, "aw"
    .space 4096
stack_end:

    .section .cases, "aw"
    .globl cases
cases:
    .ascii "conformance cases       "
    .dword CASES_SIZE
    .fill CASES_SIZE - 32, 1, 0
