# Products, quotients and remainders with what stands right behind them and isn't of their kind:
# stores, loads, branches and jumps; and what they would write to x0.
.option norvc
.option norelax
.text
.globl _start
_start:
    lui x15, %hi(begin_signature)
    addi x15, x15, %lo(begin_signature)
    lui x14, %hi(words)
    addi x14, x14, %lo(words)
    lui x8, 0x9abce
    addi x8, x8, -272
    addi x9, x0, 77

# To x0, which is read at once.
    mul x0, x8, x9
    add x1, x0, x9
    mulh x0, x8, x9
    sub x2, x9, x0
    mulhsu x0, x8, x9
    or x3, x0, x9
    mulhu x0, x8, x9
    xor x4, x9, x0
    sw x1, 0(x15)
    sw x2, 4(x15)
    sw x3, 8(x15)
    sw x4, 12(x15)
    div x0, x8, x9
    add x1, x0, x9
    divu x0, x8, x9
    sub x2, x9, x0
    rem x0, x8, x9
    or x3, x0, x9
    remu x0, x8, x9
    xor x4, x9, x0
    sw x1, 16(x15)
    sw x2, 20(x15)
    sw x3, 24(x15)
    sw x4, 28(x15)
    sw x0, 32(x15)

# As what is stored, and as an address.
    addi x6, x0, 5
    mul x6, x8, x9
    sw x6, 0(x14)
    lw x7, 0(x14)
    sw x7, 36(x15)
    addi x6, x0, 5
    divu x6, x8, x9
    sh x6, 0(x14)
    lw x7, 0(x14)
    sw x7, 40(x15)
    addi x4, x0, 3
    divu x5, x14, x4
    addi x6, x14, 4
    mul x6, x5, x4           # the address, or one or two below
    lbu x7, 8(x6)
    sw x7, 44(x15)
    addi x6, x14, 8
    addi x10, x0, 1
    divu x6, x14, x10
    lw x7, 4(x6)
    addi x6, x14, 8
    mul x6, x14, x10
    sw x9, 8(x6)
    lw x5, 8(x14)
    sw x7, 48(x15)
    sw x5, 52(x15)

# As the sources of a branch, and as the target of a jump.
    addi x7, x0, 1
    addi x6, x0, 5
    rem x6, x9, x9
    beq x6, x0, made_1
    addi x7, x7, 2
made_1:
    addi x6, x0, 5
    mulhu x6, x8, x9
    bltu x9, x6, made_2
    addi x7, x7, 4
made_2:
    div x6, x8, x9
    blt x6, x0, made_3
    addi x7, x7, 8
made_3:
    remu x6, x9, x8
    bne x6, x9, made_4
    addi x7, x7, 16
made_4:
    sw x7, 56(x15)
    lui x6, %hi(made_5)
    addi x6, x6, %lo(made_5)
    addi x5, x6, 0
    addi x6, x6, -4
    mul x6, x5, x10
    jalr x1, 0(x6)
    addi x7, x7, 32
made_5:
    lui x5, %hi(made_6)
    addi x5, x5, %lo(made_6)
    addi x6, x5, -4
    divu x6, x5, x10
    jalr x1, 0(x6)
    addi x7, x7, 64
made_6:
    sw x7, 60(x15)

# On what is just loaded, and just linked.
    addi x6, x0, 5
    lw x6, 4(x14)
    mul x7, x6, x9
    addi x6, x0, 5
    lw x6, 4(x14)
    div x5, x8, x6
    jal x1, made_7
made_7:
    remu x4, x1, x9
    sw x7, 64(x15)
    sw x5, 68(x15)
    sw x4, 72(x15)

# Behind a branch that is taken none is done, and a jump doesn't end one that was begun.
    addi x6, x0, 5
    addi x7, x0, 6
    beq x0, x0, made_8
    div x6, x8, x9
    mul x7, x8, x9
made_8:
    sw x6, 76(x15)
    sw x7, 80(x15)
    div x6, x8, x9
    jal x0, made_9
    addi x6, x0, 7
made_9:
    add x7, x6, x9
    remu x5, x8, x9
    fence
    add x4, x5, x9
    sw x6, 84(x15)
    sw x7, 88(x15)
    sw x5, 92(x15)
    sw x4, 96(x15)
    lui x5, %hi(tohost)
    addi x6, x0, 1
    sw x6, %lo(tohost)(x5)
halt:
    jal x0, halt

.data
words:
    .word 0
    .word 0xfffffff5
    .word 0x89abcdef
.data
tohost:
    .word 0
    .word 0
begin_signature:
    .fill 25, 4, 0xdeadbeef
end_signature:
