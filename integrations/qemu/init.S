/* SPDX-License-Identifier: MIT OR Apache-2.0 */
/* The first program of Linux, in user mode: it writes a line and turns the machine off. */
#define WRITE 64
#define REBOOT 142

    .section .rodata
line:
    .ascii "user mode runs\n"
end:

    .text
    .globl _start
_start:
    li a0, 1
    la a1, line
    la a2, end
    sub a2, a2, a1
    li a7, WRITE
    ecall
    li a0, 0xfee1dead
    li a1, 672274793
    li a2, 0x4321fedc                   /* off */
    li a7, REBOOT
    ecall
    j .
