# Stores: what a byte and a half leave beside them, loads right behind, and data and addresses that
# are just made.
.option norvc
.option norelax
.text
.globl _start
_start:
    lui x15, %hi(begin_signature)
    addi x15, x15, %lo(begin_signature)
    lui x14, %hi(words)
    addi x14, x14, %lo(words)
    lui x8, 0x9abce
    addi x8, x8, -272
    lui x9, 0x12345
    addi x9, x9, 1656

# A byte to each lane and a half to each place, of words whose other bytes are kept.
    sb x8, 0(x14)
    sb x8, 5(x14)
    sb x8, 10(x14)
    sb x8, 15(x14)
    sb x9, 16(x14)
    sb x9, 21(x14)
    sb x9, 26(x14)
    sb x9, 31(x14)
    sh x8, 32(x14)
    sh x8, 38(x14)
    sh x9, 40(x14)
    sh x9, 46(x14)
    sw x8, 52(x14)
    lw x1, 0(x14)
    lw x2, 4(x14)
    lw x3, 8(x14)
    lw x4, 12(x14)
    sw x1, 0(x15)
    sw x2, 4(x15)
    sw x3, 8(x15)
    sw x4, 12(x15)
    lw x1, 16(x14)
    lw x2, 20(x14)
    lw x3, 24(x14)
    lw x4, 28(x14)
    sw x1, 16(x15)
    sw x2, 20(x15)
    sw x3, 24(x15)
    sw x4, 28(x15)
    lw x1, 32(x14)
    lw x2, 36(x14)
    lw x3, 40(x14)
    lw x4, 44(x14)
    sw x1, 32(x15)
    sw x2, 36(x15)
    sw x3, 40(x15)
    sw x4, 44(x15)
    lw x1, 48(x14)
    lw x2, 52(x14)
    lw x3, 56(x14)
    sw x1, 48(x15)
    sw x2, 52(x15)
    sw x3, 56(x15)

# A word, and right behind it the word and each part of it.
    sw x9, 0(x14)
    lw x1, 0(x14)
    sw x8, 0(x14)
    lb x2, 0(x14)
    sw x9, 0(x14)
    lb x3, 1(x14)
    sw x8, 0(x14)
    lb x4, 1(x14)
    sw x1, 60(x15)
    sw x2, 64(x15)
    sw x3, 68(x15)
    sw x4, 72(x15)
    sw x9, 0(x14)
    lb x1, 2(x14)
    sw x8, 0(x14)
    lbu x2, 2(x14)
    sw x9, 0(x14)
    lbu x3, 3(x14)
    sw x8, 0(x14)
    lb x4, 3(x14)
    sw x1, 76(x15)
    sw x2, 80(x15)
    sw x3, 84(x15)
    sw x4, 88(x15)
    sw x9, 0(x14)
    lh x1, 0(x14)
    sw x8, 0(x14)
    lh x2, 2(x14)
    sw x9, 0(x14)
    lhu x3, 2(x14)
    sw x8, 0(x14)
    lhu x4, 0(x14)
    sw x1, 92(x15)
    sw x2, 96(x15)
    sw x3, 100(x15)
    sw x4, 104(x15)

# A part, and right behind it the word, the part, and another part.
    sw x0, 4(x14)
    sb x8, 4(x14)
    lw x1, 4(x14)
    sb x9, 6(x14)
    lw x2, 4(x14)
    sh x8, 6(x14)
    lw x3, 4(x14)
    sh x9, 4(x14)
    lw x4, 4(x14)
    sw x1, 108(x15)
    sw x2, 112(x15)
    sw x3, 116(x15)
    sw x4, 120(x15)
    sb x8, 5(x14)
    lb x1, 5(x14)
    sb x8, 7(x14)
    lbu x2, 7(x14)
    sb x8, 4(x14)
    lb x3, 5(x14)
    sh x9, 6(x14)
    lh x4, 4(x14)
    sw x1, 124(x15)
    sw x2, 128(x15)
    sw x3, 132(x15)
    sw x4, 136(x15)
    sh x8, 4(x14)
    lb x1, 5(x14)
    sh x8, 6(x14)
    lbu x2, 6(x14)
    sb x9, 7(x14)
    lh x3, 6(x14)
    sb x9, 4(x14)
    lhu x4, 4(x14)
    sw x1, 140(x15)
    sw x2, 144(x15)
    sw x3, 148(x15)
    sw x4, 152(x15)

# Stores behind each other to one word, and to others.
    sw x8, 8(x14)
    sw x9, 8(x14)
    lw x1, 8(x14)
    sb x8, 8(x14)
    sb x8, 9(x14)
    lw x2, 8(x14)
    sb x8, 11(x14)
    sh x8, 8(x14)
    lw x3, 8(x14)
    sw x9, 8(x14)
    sb x8, 9(x14)
    lw x4, 8(x14)
    sw x1, 156(x15)
    sw x2, 160(x15)
    sw x3, 164(x15)
    sw x4, 168(x15)
    sw x8, 8(x14)
    sw x9, 12(x14)
    lw x1, 8(x14)
    lw x2, 12(x14)
    sw x9, 8(x14)
    lw x3, 12(x14)
    lw x4, 8(x14)
    sw x1, 172(x15)
    sw x2, 176(x15)
    sw x3, 180(x15)
    sw x4, 184(x15)
    sb x8, 8(x14)
    sb x8, 9(x14)
    sb x9, 10(x14)
    sb x9, 11(x14)
    lw x1, 8(x14)
    sh x8, 14(x14)
    sh x8, 12(x14)
    lw x2, 12(x14)
    sw x1, 188(x15)
    sw x2, 192(x15)

# Behind a load of the word, before one, and with something between.
    lw x1, 8(x14)
    sw x9, 8(x14)
    lw x2, 8(x14)
    sw x8, 8(x14)
    addi x5, x0, 3
    lw x3, 8(x14)
    sb x9, 9(x14)
    fence
    lw x4, 8(x14)
    sw x1, 196(x15)
    sw x2, 200(x15)
    sw x3, 204(x15)
    sw x4, 208(x15)
    sw x9, 8(x14)
    fence
    lw x1, 8(x14)
    sw x8, 8(x14)
    fence
    fence
    lbu x2, 10(x14)
    sw x1, 212(x15)
    sw x2, 216(x15)

# What is stored is just made, or made by the one before; so is the address.
    addi x1, x0, 1
    add x1, x8, x9
    sw x1, 16(x14)
    lw x2, 16(x14)
    addi x1, x0, 1
    sub x1, x8, x9
    addi x5, x0, 3
    sw x1, 16(x14)
    lw x3, 16(x14)
    sw x2, 220(x15)
    sw x3, 224(x15)
    addi x1, x14, 24
    addi x1, x14, 20
    sw x8, 0(x1)
    addi x1, x14, 24
    addi x1, x14, 20
    lw x2, 0(x1)
    addi x5, x0, 24
    add x1, x14, x5
    sw x9, 0(x1)
    add x1, x14, x0
    add x1, x14, x5
    lw x3, 0(x1)
    sw x2, 228(x15)
    sw x3, 232(x15)
    addi x5, x0, 28
    addi x1, x14, 0
    add x1, x14, x5
    addi x4, x0, 3
    sw x1, 0(x1)             # the address itself
    lw x2, 0(x1)
    sw x2, 236(x15)
    sw x8, 0(x1)
    sw x0, 0(x1)
    lw x2, 0(x1)
    sw x2, 240(x15)

# Each line of an address: a word at each power of two from the base, all of which are kept.
    lui x14, %hi(far_words)
    addi x14, x14, %lo(far_words)
    addi x1, x0, 4
    addi x2, x0, 1
    addi x3, x0, 18
store_lines:
    add x4, x14, x1
    sw x2, 0(x4)
    add x1, x1, x1
    addi x2, x2, 3
    addi x3, x3, -1
    bne x3, x0, store_lines
    addi x1, x0, 4
    addi x3, x0, 18
    addi x5, x0, 0
load_lines:
    add x4, x14, x1
    lw x2, 0(x4)
    slli x5, x5, 1
    add x5, x5, x2
    add x1, x1, x1
    addi x3, x3, -1
    bne x3, x0, load_lines
    lw x1, 0(x14)
    sw x5, 244(x15)
    sw x1, 248(x15)
    lui x5, %hi(tohost)
    addi x6, x0, 1
    sw x6, %lo(tohost)(x5)
halt:
    jal x0, halt

.data
words:
    .word 0x11223344
    .word 0x55667788
    .word 0x99aabbcc
    .word 0xddeeff01
    .word 0xa1b2c3d4
    .word 0xe5f60718
    .word 0x293a4b5c
    .word 0x6d7e8f90
    .word 0x11223344
    .word 0x55667788
    .word 0x99aabbcc
    .word 0xddeeff01
    .word 0xa1b2c3d4
    .word 0xe5f60718
    .word 0x293a4b5c
.data
tohost:
    .word 0
    .word 0
begin_signature:
    .fill 63, 4, 0xdeadbeef
end_signature:
far_words:
    .word 0x600dcafe
    .zero 524288
