/* SPDX-License-Identifier: MIT OR Apache-2.0 */
/* For firmware that tries accesses: `tell` writes to the console of QEMU's virt machine, and `done` ends it. */
#define CONSOLE 0x10000000
#define DEVICE 0x100000
#define DONE 0x5555

done:
    li t0, DONE
    li t1, DEVICE
    sw t0, 0(t1)
    j done

    .macro put byte
1:
    lbu t2, 5(t0)
    andi t2, t2, 0x20                   /* set when the console takes a byte */
    beqz t2, 1b
    sb \byte, 0(t0)
    .endm

/* tell: writes two decimal digits of a0, and the byte a1. */
tell:
    li t0, CONSOLE
    li t1, 10
    divu t3, a0, t1
    addi t3, t3, '0'
    put t3
    remu t3, a0, t1
    addi t3, t3, '0'
    put t3
    put a1
    ret
