# x0, which drops what is written to it, also where the next instruction reads it; then the
# registers x1 to x15 at once, of which none is lost, or one with another.
.option norvc
.option norelax
.text
.globl _start
_start:
    lui x15, %hi(begin_signature)
    addi x15, x15, %lo(begin_signature)
    lui x14, %hi(words)
    addi x14, x14, %lo(words)
    lui x8, 0x9abce
    addi x8, x8, -272
    addi x9, x0, 77
    addi x0, x8, 3
    addi x1, x0, 5
    add x0, x8, x9
    add x2, x0, x0
    sub x0, x8, x9
    sub x3, x9, x0
    or x0, x8, x9
    sw x0, 0(x14)
    lw x4, 0(x14)
    sw x1, 0(x15)
    sw x2, 4(x15)
    sw x3, 8(x15)
    sw x4, 12(x15)
    lui x0, 0x12345
    add x1, x0, x9
    auipc x0, 0x12345
    add x2, x9, x0
    xor x0, x8, x9
    xori x3, x0, 1
    slti x0, x9, 100
    slli x4, x0, 3
    sw x1, 16(x15)
    sw x2, 20(x15)
    sw x3, 24(x15)
    sw x4, 28(x15)
    slli x0, x9, 3
    sub x1, x0, x9
    sra x0, x8, x9
    sll x2, x0, x9
    sltu x0, x9, x8
    sll x3, x9, x0
    andi x0, x8, -1
    sltu x4, x0, x9
    sw x1, 32(x15)
    sw x2, 36(x15)
    sw x3, 40(x15)
    sw x4, 44(x15)
    lw x0, 4(x14)
    addi x1, x0, 1
    lbu x0, 4(x14)
    add x2, x9, x0
    sltiu x0, x9, 100
    addi x7, x0, 0
    srai x0, x8, 3
    fence
    addi x3, x0, 2
    sw x1, 48(x15)
    sw x2, 52(x15)
    sw x7, 56(x15)
    sw x3, 60(x15)

    and x0, x8, x8
    add x1, x0, x9
    sll x0, x8, x9
    add x2, x9, x0
    srl x0, x8, x9
    or x3, x0, x9
    slt x0, x8, x9
    or x4, x9, x0
    sw x1, 64(x15)
    sw x2, 68(x15)
    sw x3, 72(x15)
    sw x4, 76(x15)
    xori x0, x9, 2
    add x1, x0, x9
    srli x0, x8, 3
    add x2, x9, x0
    lb x0, 4(x14)
    sub x3, x0, x9
    lh x0, 4(x14)
    xor x4, x9, x0
    sw x1, 80(x15)
    sw x2, 84(x15)
    sw x3, 88(x15)
    sw x4, 92(x15)
    lhu x0, 4(x14)
    xor x1, x0, x9
    fence
    add x2, x0, x9
    sw x1, 96(x15)
    sw x2, 100(x15)

# Links, and what a branch reads.
    jal x0, over_1
    addi x9, x9, 1
over_1:
    addi x1, x0, 1
    jal x0, over_2
over_2:
    add x2, x9, x0
    lui x6, %hi(over_3)
    addi x6, x6, %lo(over_3)
    jalr x0, 0(x6)
over_3:
    addi x3, x0, 3
    lui x6, %hi(over_4)
    addi x6, x6, %lo(over_4)
    jalr x0, 0(x6)
over_4:
    sub x4, x9, x0
    sw x1, 104(x15)
    sw x2, 108(x15)
    sw x3, 112(x15)
    sw x4, 116(x15)
    addi x1, x0, 1
    addi x0, x9, 0
    beq x0, x0, over_5
    addi x1, x1, 2
over_5:
    ori x0, x9, 1
    bne x0, x9, over_6
    addi x1, x1, 4
over_6:
    lw x0, 4(x14)
    bgeu x0, x9, over_7
    addi x1, x1, 8
over_7:
    add x0, x14, x0
    addi x0, x0, 4
    add x2, x0, x14
    lw x3, 4(x2)
    sw x1, 120(x15)
    sw x2, 124(x15)
    sw x3, 128(x15)

# As two results for one register: the one to x0 isn't the later one.
    addi x1, x0, 5
    add x0, x8, x9
    addi x2, x1, 1
    addi x0, x0, 9
    addi x0, x0, 10
    add x3, x0, x2
    sw x1, 132(x15)
    sw x2, 136(x15)
    sw x3, 140(x15)
    sw x0, 144(x15)

# Each register has a word of its own, 0x01010101 times its number, while x1 has the address.
    lui x1, %hi(all_registers)
    addi x1, x1, %lo(all_registers)
    lui x2, 0x02020
    addi x2, x2, 514
    lui x3, 0x03030
    addi x3, x3, 771
    lui x4, 0x04040
    addi x4, x4, 1028
    lui x5, 0x05050
    addi x5, x5, 1285
    lui x6, 0x06060
    addi x6, x6, 1542
    lui x7, 0x07070
    addi x7, x7, 1799
    lui x8, 0x08081
    addi x8, x8, -2040
    lui x9, 0x09091
    addi x9, x9, -1783
    lui x10, 0x0a0a1
    addi x10, x10, -1526
    lui x11, 0x0b0b1
    addi x11, x11, -1269
    lui x12, 0x0c0c1
    addi x12, x12, -1012
    lui x13, 0x0d0d1
    addi x13, x13, -755
    lui x14, 0x0e0e1
    addi x14, x14, -498
    lui x15, 0x0f0f1
    addi x15, x15, -241
# What is written to x0 goes to no other.
    add x0, x14, x13
    addi x0, x15, 3
    lui x0, 0x55555
    lw x0, 0(x1)
    jal x0, kept
kept:
    sw x2, 0(x1)
    sw x3, 4(x1)
    sw x4, 8(x1)
    sw x5, 12(x1)
    sw x6, 16(x1)
    sw x7, 20(x1)
    sw x8, 24(x1)
    sw x9, 28(x1)
    sw x10, 32(x1)
    sw x11, 36(x1)
    sw x12, 40(x1)
    sw x13, 44(x1)
    sw x14, 48(x1)
    sw x15, 52(x1)
# Each bit the other way.
    xori x2, x2, -1
    xori x3, x3, -1
    xori x4, x4, -1
    xori x5, x5, -1
    xori x6, x6, -1
    xori x7, x7, -1
    xori x8, x8, -1
    xori x9, x9, -1
    xori x10, x10, -1
    xori x11, x11, -1
    xori x12, x12, -1
    xori x13, x13, -1
    xori x14, x14, -1
    xori x15, x15, -1
    sw x2, 56(x1)
    sw x3, 60(x1)
    sw x4, 64(x1)
    sw x5, 68(x1)
    sw x6, 72(x1)
    sw x7, 76(x1)
    sw x8, 80(x1)
    sw x9, 84(x1)
    sw x10, 88(x1)
    sw x11, 92(x1)
    sw x12, 96(x1)
    sw x13, 100(x1)
    sw x14, 104(x1)
    sw x15, 108(x1)
# x1 in the place of x15.
    addi x15, x1, 0
    lui x1, 0x01010
    addi x1, x1, 257
    sw x1, 112(x15)
    sw x2, 116(x15)
    sw x3, 120(x15)
    sw x4, 124(x15)
    sw x5, 128(x15)
    sw x6, 132(x15)
    sw x7, 136(x15)
    sw x8, 140(x15)
    sw x9, 144(x15)
    sw x10, 148(x15)
    sw x11, 152(x15)
    sw x12, 156(x15)
    sw x13, 160(x15)
    sw x14, 164(x15)
    xori x1, x1, -1
    sw x1, 168(x15)

# Each as destination and as either source, with other words.
    sub x1, x1, x2
    sub x2, x2, x3
    sub x3, x3, x4
    sub x4, x4, x5
    sub x5, x5, x6
    sub x6, x6, x7
    sub x7, x7, x8
    sub x8, x8, x9
    sub x9, x9, x10
    sub x10, x10, x11
    sub x11, x11, x12
    sub x12, x12, x13
    sub x13, x13, x14
    sub x14, x14, x1
    sw x1, 172(x15)
    sw x2, 176(x15)
    sw x3, 180(x15)
    sw x4, 184(x15)
    sw x5, 188(x15)
    sw x6, 192(x15)
    sw x7, 196(x15)
    sw x8, 200(x15)
    sw x9, 204(x15)
    sw x10, 208(x15)
    sw x11, 212(x15)
    sw x12, 216(x15)
    sw x13, 220(x15)
    sw x14, 224(x15)
    lui x5, %hi(tohost)
    addi x6, x0, 1
    sw x6, %lo(tohost)(x5)
halt:
    jal x0, halt

.data
words:
    .word 0xffffffff
    .word 0x89abcdef
.data
tohost:
    .word 0
    .word 0
begin_signature:
    .fill 37, 4, 0xdeadbeef
all_registers:
    .fill 57, 4, 0xdeadbeef
end_signature:
