/* SPDX-License-Identifier: MIT OR Apache-2.0 */
/* case.h: what the cases of reports share, on QEMU's machine virt: a start in machine mode, a visit to a mode, a line
 * on the console for each value that is compared with the manual's, and an end with status 0 where all were the
 * manual's. */
#define UART 0x10000000
#define DEVICE 0x100000
#define PASS 0x5555
#define FAIL 0x3333
#define RESET 0x7777
/* Memory that a reset leaves as it is. */
#define KEPT 0x80f00000
#define USER 0
#define SUPERVISOR 1
#define MACHINE 3
/* All of memory, as an address register of RV64 has it in mode NAPOT. */
#define ALL 0x3fffffffffffff

/* visit MODE, LABEL: executes in the mode from the label on until an exception, as that of an ecall. Then machine mode
 * goes on, with mcause in s0, mtval in s1 and mepc in s2. */
    .macro visit mode, label
    li t0, MACHINE << 11
    csrc mstatus, t0
    li t0, \mode << 11
    csrs mstatus, t0
    la t0, \label
    csrw mepc, t0
    la s9, behind\@
    mret
behind\@:
    .endm

/* expect REGISTER, VALUE, TEXT: writes a line with what the register has, and whether that is the manual's value. */
    .macro expect register, value, text
    mv s3, \register
    li s4, \value
    la s5, text\@
    call compare
    .pushsection .rodata
text\@:
    .asciz "\text"
    .popsection
    .endm

/* close_word LABEL: closes the word there to S and U by entry 0, NA4 without rights, where entry 1 opens all memory. */
    .macro close_word label
    la t0, \label
    srli t0, t0, 2
    csrw pmpaddr0, t0
    li t0, ALL                          /* NAPOT, with all rights */
    csrw pmpaddr1, t0
    li t0, 0x1f10
    csrw pmpcfg0, t0
    .endm

/* finish STATUS: ends QEMU's run. */
    .macro finish status
    li t0, (\status << 16) | FAIL
    j stop
    .endm

/* reset_board STAGE: resets the board. Behind it the case begins again, with the stage in a0, which is 0 at first. */
    .macro reset_board stage
    li t0, KEPT
    li t1, \stage
    sw t1, 0(t0)
    li t0, RESET
    j stop
    .endm

    .option norelax
    .globl _start
_start:
    la t0, caught
    csrw mtvec, t0
    la s9, lost
    li s11, PASS
    li a0, KEPT
    lw a0, 0(a0)
    j case

/* end: the status is 0 where all lines said right, and 1 where one said wrong. */
end:
    mv t0, s11
stop:
    li t1, DEVICE
    sw t0, 0(t1)
    j stop

    .balign 4
caught:
    csrr s0, mcause
    csrr s1, mtval
    csrr s2, mepc
    mv t0, s9
    la s9, lost
    jr t0

/* An exception that no visit waits for: status 2. */
lost:
    expect s0, 0, "an exception that isn't waited for: mcause"
    finish 2

compare:
    mv s6, ra
    la a0, right
    beq s3, s4, 1f
    la a0, wrong
    li s11, (1 << 16) | FAIL
1:  call put_text
    mv a0, s5
    call put_text
    la a0, is
    call put_text
    mv a0, s3
    call put_number
    beq s3, s4, 2f
    la a0, not
    call put_text
    mv a0, s4
    call put_number
2:  li a0, '\n'
    call put
    jr s6

put:
    li t0, UART
    sb a0, 0(t0)
    ret

put_text:
    li t0, UART
1:  lbu t1, 0(a0)
    beqz t1, 2f
    sb t1, 0(t0)
    addi a0, a0, 1
    j 1b
2:  ret

/* In hexadecimal, without zeros before it. */
put_number:
    li t0, UART
    li t1, __riscv_xlen - 4
1:  srl t2, a0, t1
    bnez t2, 2f
    beqz t1, 2f
    addi t1, t1, -4
    j 1b
2:  srl t2, a0, t1
    andi t2, t2, 15
    la t3, digits
    add t3, t3, t2
    lbu t3, 0(t3)
    sb t3, 0(t0)
    addi t1, t1, -4
    bgez t1, 2b
    ret

    .section .rodata
right:
    .asciz "right: "
wrong:
    .asciz "wrong: "
is:
    .asciz ": 0x"
not:
    .asciz ", not 0x"
digits:
    .ascii "0123456789abcdef"
    .text
