# Atomic instructions: reservations that are kept, used up, or were never made; results that are
# used at once; words of either sign in memory; the bits aq and rl, which order what others see and
# change nothing here.
.option norvc
.option norelax
.text
.globl _start
_start:
    lui x15, %hi(begin_signature)
    addi x15, x15, %lo(begin_signature)
    lui x14, %hi(word)
    addi x14, x14, %lo(word)
    addi x13, x14, 8
    lui x8, 0x12345
    addi x8, x8, 1656
    addi x9, x0, 9

# Without a reservation nothing is stored.
    addi x1, x0, 7
    sc.w x1, x8, (x14)
    lw x2, 0(x14)
    sw x1, 0(x15)
    sw x2, 4(x15)

# A reservation is used up by a store, so that a second one fails; then it can be made again.
    lr.w x1, (x14)
    sc.w x2, x8, (x14)
    sc.w x3, x9, (x14)
    lw x4, 0(x14)
    sw x1, 8(x15)
    sw x2, 12(x15)
    sw x3, 16(x15)
    sw x4, 20(x15)
    lr.w x1, (x14)
    sc.w x2, x9, (x14)
    lw x3, 0(x14)
    sw x1, 24(x15)
    sw x2, 28(x15)
    sw x3, 32(x15)

# It is used up too by one that may fail, to another word. Whether that one does isn't looked at.
    lr.w x1, (x14)
    sc.w x0, x8, (x13)
    sc.w x2, x8, (x14)
    lw x3, 0(x14)
    sw x9, 0(x13)
    sw x2, 36(x15)
    sw x3, 40(x15)
    sc.w x0, x8, (x14)
    addi x1, x0, 3
    lw x2, 0(x14)
    sw x1, 44(x15)
    sw x2, 48(x15)

# A second lr.w takes the place of the first.
    lr.w x1, (x14)
    lr.w x2, (x13)
    sc.w x3, x8, (x13)
    lw x4, 0(x13)
    sw x1, 52(x15)
    sw x2, 56(x15)
    sw x3, 60(x15)
    sw x4, 64(x15)

# It is kept while something is computed, over a branch that is taken and one that isn't.
    lr.w x1, (x14)
    addi x1, x1, 5
    beq x1, x0, kept_1
    bne x1, x0, kept_1
    addi x1, x1, 100
kept_1:
    slli x1, x1, 2
    xor x1, x1, x9
    sc.w x2, x1, (x14)
    lw x3, 0(x14)
    sw x2, 68(x15)
    sw x3, 72(x15)

# Whether it stored is used at once: in a sum, by a branch; and where x0 takes it.
    lr.w x1, (x14)
    addi x2, x0, 5
    sc.w x2, x8, (x14)
    addi x3, x2, 3
    addi x4, x0, 0
    sc.w x4, x8, (x14)
    addi x5, x4, 3
    sw x3, 76(x15)
    sw x5, 80(x15)
again:
    lr.w x1, (x14)
    addi x1, x1, 1
    sc.w x1, x1, (x14)
    bne x1, x0, again
    lw x2, 0(x14)
    sw x2, 84(x15)
    lr.w x1, (x14)
    sc.w x0, x9, (x14)
    lw x2, 0(x14)
    add x3, x0, x0
    lr.w x0, (x14)
    sc.w x4, x8, (x14)
    sw x2, 88(x15)
    sw x3, 92(x15)
    sw x4, 96(x15)

# What lr.w read is used at once.
    addi x1, x0, 5
    lr.w x1, (x14)
    sc.w x2, x1, (x14)
    sw x2, 100(x15)
    addi x1, x0, 5
    lr.w x1, (x13)
    amoadd.w x2, x1, (x14)
    lw x3, 0(x14)
    sw x2, 104(x15)
    sw x3, 108(x15)

# What an atomic instruction read is used at once, and memory is read right behind it.
    addi x1, x0, 5
    amoswap.w x1, x9, (x14)
    lw x2, 0(x14)
    addi x3, x0, 5
    amoadd.w x3, x9, (x14)
    add x4, x3, x9
    sw x1, 112(x15)
    sw x2, 116(x15)
    sw x4, 120(x15)
    addi x1, x0, 5
    amoor.w x1, x8, (x14)
    bne x1, x9, used_1
    addi x2, x2, 1
used_1:
    amoand.w x3, x9, (x14)
    amoxor.w x4, x3, (x14)
    lw x5, 0(x14)
    sw x2, 124(x15)
    sw x3, 128(x15)
    sw x4, 132(x15)
    sw x5, 136(x15)
    sw x8, 0(x14)
    amoadd.w x1, x9, (x14)
    amoadd.w x2, x9, (x14)
    sw x9, 0(x14)
    amoswap.w x3, x8, (x14)
    lb x4, 1(x14)
    sw x1, 140(x15)
    sw x2, 144(x15)
    sw x3, 148(x15)
    sw x4, 152(x15)
    add x1, x8, x9
    amoswap.w x2, x1, (x14)
    addi x3, x14, 0
    addi x3, x14, 8
    amoswap.w x4, x9, (x3)
    amoswap.w x5, x4, (x14)
    lw x1, 0(x14)
    sw x2, 156(x15)
    sw x4, 160(x15)
    sw x5, 164(x15)
    sw x1, 168(x15)

# To x0, and with x0.
    amoadd.w x0, x9, (x14)
    add x1, x0, x0
    lw x2, 0(x14)
    amoswap.w x3, x0, (x14)
    amoor.w x4, x0, (x14)
    sw x1, 172(x15)
    sw x2, 176(x15)
    sw x3, 180(x15)
    sw x4, 184(x15)

# The lesser and the greater where memory has a word above 0, which generated tests don't have.
    lui x10, 0xedcbb
    addi x10, x10, -1656
    sw x8, 0(x14)
    amomin.w x1, x10, (x14)
    sw x8, 4(x14)
    addi x11, x14, 4
    amomax.w x2, x10, (x11)
    lw x3, 0(x14)
    lw x4, 4(x14)
    sw x1, 188(x15)
    sw x2, 192(x15)
    sw x3, 196(x15)
    sw x4, 200(x15)
    sw x8, 0(x14)
    amominu.w x1, x10, (x14)
    sw x8, 4(x14)
    amomaxu.w x2, x10, (x11)
    lw x3, 0(x14)
    lw x4, 4(x14)
    sw x1, 204(x15)
    sw x2, 208(x15)
    sw x3, 212(x15)
    sw x4, 216(x15)
    sw x8, 0(x14)
    amomin.w x1, x9, (x14)
    sw x8, 4(x14)
    amomax.w x2, x9, (x11)
    lw x3, 0(x14)
    lw x4, 4(x14)
    sw x1, 220(x15)
    sw x2, 224(x15)
    sw x3, 228(x15)
    sw x4, 232(x15)
    sw x8, 0(x14)
    amominu.w x1, x9, (x14)
    sw x8, 4(x14)
    amomaxu.w x2, x9, (x11)
    lw x3, 0(x14)
    lw x4, 4(x14)
    sw x1, 236(x15)
    sw x2, 240(x15)
    sw x3, 244(x15)
    sw x4, 248(x15)
    sw x8, 0(x14)
    amoadd.w x1, x8, (x14)
    lw x2, 0(x14)
    amoand.w x3, x10, (x14)
    lw x4, 0(x14)
    sw x1, 252(x15)
    sw x2, 256(x15)
    sw x3, 260(x15)
    sw x4, 264(x15)

# With aq, rl and both.
    .word 0x100720af         # lr.w with neither: x1, (x14)
    .word 0x1e87212f         # sc.w x2, x8, (x14) with both
    .word 0x060721af         # amoadd.w x3, x0, (x14) with both
    .word 0x0c97222f         # amoswap.w x4, x9, (x14) with aq
    sw x1, 268(x15)
    sw x2, 272(x15)
    sw x3, 276(x15)
    sw x4, 280(x15)
    .word 0x140720af         # lr.w x1, (x14) with aq
    .word 0x1a87212f         # sc.w x2, x8, (x14) with rl
    .word 0x228721af         # amoxor.w x3, x8, (x14) with rl
    lw x4, 0(x14)
    sw x1, 284(x15)
    sw x2, 288(x15)
    sw x3, 292(x15)
    sw x4, 296(x15)
    lui x5, %hi(tohost)
    addi x6, x0, 1
    sw x6, %lo(tohost)(x5)
halt:
    jal x0, halt

.data
word:
    .word 0x89abcdef
    .word 0
    .word 0x89abcdef
    .word 0
.data
tohost:
    .word 0
    .word 0
begin_signature:
    .fill 75, 4, 0xdeadbeef
end_signature:
