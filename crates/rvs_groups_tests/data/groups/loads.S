# Loads: each byte and each half of a word with either sign, and words that are used at once.
.option norvc
.option norelax
.text
.globl _start
_start:
    lui x15, %hi(begin_signature)
    addi x15, x15, %lo(begin_signature)
    lui x14, %hi(bytes)
    addi x14, x14, %lo(bytes)

# Each lane, with and without its sign.
    lb x1, 0(x14)
    lb x2, 1(x14)
    lb x3, 2(x14)
    lb x4, 3(x14)
    lb x5, 4(x14)
    lb x6, 5(x14)
    lb x7, 6(x14)
    lb x8, 7(x14)
    sw x1, 0(x15)
    sw x2, 4(x15)
    sw x3, 8(x15)
    sw x4, 12(x15)
    sw x5, 16(x15)
    sw x6, 20(x15)
    sw x7, 24(x15)
    sw x8, 28(x15)
    lbu x1, 0(x14)
    lbu x2, 1(x14)
    lbu x3, 2(x14)
    lbu x4, 3(x14)
    lbu x5, 4(x14)
    lbu x6, 5(x14)
    lbu x7, 6(x14)
    lbu x8, 7(x14)
    sw x1, 32(x15)
    sw x2, 36(x15)
    sw x3, 40(x15)
    sw x4, 44(x15)
    sw x5, 48(x15)
    sw x6, 52(x15)
    sw x7, 56(x15)
    sw x8, 60(x15)
    lh x1, 0(x14)
    lh x2, 2(x14)
    lh x3, 4(x14)
    lh x4, 6(x14)
    lhu x5, 0(x14)
    lhu x6, 2(x14)
    lhu x7, 4(x14)
    lhu x8, 6(x14)
    sw x1, 64(x15)
    sw x2, 68(x15)
    sw x3, 72(x15)
    sw x4, 76(x15)
    sw x5, 80(x15)
    sw x6, 84(x15)
    sw x7, 88(x15)
    sw x8, 92(x15)
    lw x1, 0(x14)
    lw x2, 4(x14)
    lw x3, 8(x14)
    lw x4, 12(x14)
    sw x1, 96(x15)
    sw x2, 100(x15)
    sw x3, 104(x15)
    sw x4, 108(x15)

# A word that is used at once, as either source and as both, and behind one more instruction.
    addi x6, x0, 5
    lw x6, 8(x14)
    addi x7, x6, 1
    sw x7, 112(x15)
    addi x6, x0, 5
    addi x8, x0, 9
    lw x6, 8(x14)
    sub x7, x8, x6
    sw x7, 116(x15)
    addi x6, x0, 5
    lw x6, 8(x14)
    add x7, x6, x6
    sw x7, 120(x15)
    addi x6, x0, 5
    lw x6, 8(x14)
    addi x8, x0, 1
    sub x7, x6, x8
    sw x7, 124(x15)
    addi x6, x0, 5
    lb x6, 1(x14)
    xor x7, x6, x8
    sw x7, 128(x15)
    addi x6, x0, 5
    lhu x6, 2(x14)
    slli x7, x6, 4
    sw x7, 132(x15)

# As what is stored.
    addi x6, x0, 5
    lw x6, 12(x14)
    sw x6, 16(x14)
    lw x7, 16(x14)
    sw x7, 136(x15)
    addi x6, x0, 5
    lbu x6, 3(x14)
    sb x6, 17(x14)
    lw x7, 16(x14)
    sw x7, 140(x15)

# As an address, of a load and of a store.
    addi x6, x14, 4
    lw x6, 20(x14)
    lw x7, 0(x6)
    sw x7, 144(x15)
    addi x6, x14, 4
    addi x8, x0, 77
    lw x6, 20(x14)
    sw x8, 4(x6)
    lw x7, 32(x14)
    lw x9, 8(x14)
    sw x7, 148(x15)
    sw x9, 152(x15)
    addi x6, x14, 20
    lw x6, 0(x6)             # its own base
    lw x6, 0(x6)
    sw x6, 156(x15)

# As the sources of a branch, which is taken, or isn't.
    addi x6, x0, 5
    addi x8, x0, 5
    addi x7, x0, 1
    lw x6, 8(x14)
    beq x6, x8, equal_1
    addi x7, x7, 2
equal_1:
    sw x7, 160(x15)
    lw x8, 8(x14)
    bne x6, x8, unequal_1
    addi x7, x7, 4
unequal_1:
    sw x7, 164(x15)
    addi x6, x0, 5
    lb x6, 0(x14)
    blt x6, x0, less_1
    addi x7, x7, 8
less_1:
    sw x7, 168(x15)
    lw x6, 12(x14)
    lw x8, 8(x14)
    bltu x8, x6, less_2
    addi x7, x7, 16
less_2:
    sw x7, 172(x15)

# As the target of a jump.
    addi x7, x0, 1
    lui x6, %hi(wrong_target)
    addi x6, x6, %lo(wrong_target)
    lw x6, 24(x14)
    jalr x8, 0(x6)
wrong_target:
    addi x7, x7, 2
target:
    sw x7, 176(x15)
    sw x8, 180(x15)

# A load that is overwritten right behind, and one that overwrites what is just made.
    lw x6, 8(x14)
    addi x6, x0, 3
    sw x6, 184(x15)
    addi x6, x0, 3
    lw x6, 8(x14)
    sw x6, 188(x15)
    lw x6, 8(x14)
    lw x6, 12(x14)
    addi x7, x6, 0
    sw x7, 192(x15)
    lw x6, 12(x14)
    addi x12, x14, 0
    lw x6, 8(x12)
    addi x7, x6, 0
    sw x7, 196(x15)

# A source of the instruction before, which that reads as it was.
    lw x6, 12(x14)
    addi x7, x6, 0
    lw x6, 8(x14)
    sw x7, 200(x15)
    sw x6, 204(x15)

# To x0, which is read at once.
    lw x0, 8(x14)
    add x7, x0, x0
    sw x7, 208(x15)
    lb x0, 0(x14)
    addi x7, x0, 6
    sw x7, 212(x15)
    lhu x0, 0(x14)
    sub x7, x6, x0
    sw x7, 216(x15)

# With a fence between.
    addi x6, x0, 5
    lw x6, 8(x14)
    fence
    addi x7, x6, 1
    sw x7, 220(x15)

# Far from the base, both ways, over the end of 4096 bytes.
    lui x6, %hi(begin_signature)
    addi x6, x6, %lo(begin_signature)
    addi x6, x6, 2047
    lw x7, -2047(x6)
    lw x8, -2043(x6)
    sw x7, 224(x15)
    sw x8, 228(x15)
    addi x6, x14, -2047
    lw x7, 2047(x6)
    sw x7, 232(x15)
    lui x5, %hi(tohost)
    addi x6, x0, 1
    sw x6, %lo(tohost)(x5)
halt:
    jal x0, halt

.data
bytes:
    .byte 0x80, 0x7f, 0x01, 0xff, 0x7f, 0x80, 0xfe, 0x00
    .word 0x13579bdf
    .word 0xeca86420
    .word 0x55aa55aa
    .word pointed
    .word target
    .word 0
pointed:
    .word 0x0badcafe
    .word 0
.data
tohost:
    .word 0
    .word 0
begin_signature:
    .fill 59, 4, 0xdeadbeef
end_signature:
