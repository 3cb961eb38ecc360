# Misaligned data, for cores that have it: loads and stores at each place of a word and over its
# end, and loads right behind stores that they share bytes with.
.option norvc
.option norelax
.text
.globl _start
_start:
    lui x15, %hi(begin_signature)
    addi x15, x15, %lo(begin_signature)
    lui x14, %hi(words)
    addi x14, x14, %lo(words)
    lui x8, 0x9abce
    addi x8, x8, -272
    lui x9, 0x12345
    addi x9, x9, 1656
    lh x1, 1(x14)
    lh x2, 3(x14)
    lh x3, 5(x14)
    lh x4, 7(x14)
    sw x1, 0(x15)
    sw x2, 4(x15)
    sw x3, 8(x15)
    sw x4, 12(x15)
    lhu x1, 1(x14)
    lhu x2, 3(x14)
    lhu x3, 5(x14)
    lhu x4, 7(x14)
    sw x1, 16(x15)
    sw x2, 20(x15)
    sw x3, 24(x15)
    sw x4, 28(x15)
    lw x1, 1(x14)
    lw x2, 2(x14)
    lw x3, 3(x14)
    addi x4, x14, 7
    lw x4, -2(x4)
    sw x1, 32(x15)
    sw x2, 36(x15)
    sw x3, 40(x15)
    sw x4, 44(x15)

# Stores, and all that they leave.
    sh x8, 1(x14)
    sh x9, 7(x14)
    lw x1, 0(x14)
    lw x2, 4(x14)
    lw x3, 8(x14)
    sw x1, 48(x15)
    sw x2, 52(x15)
    sw x3, 56(x15)
    sw x8, 1(x14)
    lw x1, 0(x14)
    lw x2, 4(x14)
    sw x9, 6(x14)
    lw x3, 4(x14)
    lw x4, 8(x14)
    sw x1, 60(x15)
    sw x2, 64(x15)
    sw x3, 68(x15)
    sw x4, 72(x15)
    sw x8, 11(x14)
    lw x1, 8(x14)
    lw x2, 12(x14)
    sw x1, 76(x15)
    sw x2, 80(x15)

# Behind a store to some of its bytes.
    sw x9, 0(x14)
    lw x1, 1(x14)
    sw x8, 4(x14)
    lw x2, 2(x14)
    sh x9, 3(x14)
    lh x3, 3(x14)
    sb x8, 4(x14)
    lhu x4, 3(x14)
    sw x1, 84(x15)
    sw x2, 88(x15)
    sw x3, 92(x15)
    sw x4, 96(x15)
    sw x9, 5(x14)
    lw x1, 5(x14)
    lb x2, 8(x14)
    sw x8, 9(x14)
    lh x3, 11(x14)
    sw x1, 100(x15)
    sw x2, 104(x15)
    sw x3, 108(x15)
    lui x5, %hi(tohost)
    addi x6, x0, 1
    sw x6, %lo(tohost)(x5)
halt:
    jal x0, halt

.data
words:
    .word 0x80917f01
    .word 0x7e0181fe
    .word 0x01fe8f10
    .word 0x7003c2b5
    .word 0
.data
tohost:
    .word 0
    .word 0
begin_signature:
    .fill 28, 4, 0xdeadbeef
end_signature:
