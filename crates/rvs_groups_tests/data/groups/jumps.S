# Jumps and branches: links that are used at once, targets whose lowest bit is set, branches on what
# is just made, what stands behind a jump, jumps behind jumps, and fences between them.
.option norvc
.option norelax
.text
.globl _start
_start:
    lui x15, %hi(begin_signature)
    addi x15, x15, %lo(begin_signature)
    lui x14, %hi(word)
    addi x14, x14, %lo(word)

# A link that is used at once, forwards and backwards.
    jal x1, link_1
link_1:
    addi x2, x1, 1
    sw x1, 0(x15)
    sw x2, 4(x15)
    jal x0, link_3
link_2:
    add x2, x1, x1
    jal x0, link_4
link_3:
    addi x1, x0, 0
    jal x1, link_2
link_4:
    sw x1, 8(x15)
    sw x2, 12(x15)
    lui x6, %hi(link_5)
    addi x6, x6, %lo(link_5)
    addi x1, x0, 0
    jalr x1, 0(x6)
link_5:
    sub x2, x6, x1
    sw x1, 16(x15)
    sw x2, 20(x15)
    lui x6, %hi(link_6)
    addi x6, x6, %lo(link_6)
    jalr x6, 0(x6)           # its own base
    addi x6, x6, 100
link_6:
    addi x2, x6, 4
    sw x6, 24(x15)
    sw x2, 28(x15)
    lui x6, %hi(link_7)
    addi x6, x6, %lo(link_7)
    jalr x1, 0(x6)
link_7:
    sw x1, 0(x14)
    lw x2, 0(x14)
    sw x2, 32(x15)
    jal x1, call_1
    jal x0, link_8
call_1:
    jalr x3, 0(x1)           # back by the link that is just made
link_8:
    sw x1, 36(x15)
    sw x3, 40(x15)
    lui x6, %hi(link_9)
    addi x6, x6, %lo(link_9)
    addi x8, x0, 4
    sub x6, x6, x8
    add x6, x6, x8
    jalr x1, 0(x6)           # a target that is just made
    addi x1, x1, 7
link_9:
    sw x1, 44(x15)
    auipc x1, 0
    addi x2, x1, 0
    auipc x3, 0xfffff
    add x3, x3, x3
    sw x1, 48(x15)
    sw x2, 52(x15)
    sw x3, 56(x15)

# Targets whose lowest bit is set: by the base, by the offset, and by neither where both have it.
    addi x7, x0, 1
    lui x6, %hi(odd_1)
    addi x6, x6, %lo(odd_1)
    addi x6, x6, 1
    jalr x1, 0(x6)
    addi x7, x7, 2
odd_1:
    sw x7, 60(x15)
    sw x1, 64(x15)
    lui x6, %hi(odd_2)
    addi x6, x6, %lo(odd_2)
    jalr x1, 1(x6)
    addi x7, x7, 4
odd_2:
    sw x7, 68(x15)
    sw x1, 72(x15)
    lui x6, %hi(odd_3)
    addi x6, x6, %lo(odd_3)
    addi x6, x6, -1
    jalr x1, 1(x6)
    addi x7, x7, 8
odd_3:
    sw x7, 76(x15)
    sw x1, 80(x15)
    lui x6, %hi(odd_4)
    addi x6, x6, %lo(odd_4)
    addi x6, x6, 3
    jalr x1, -2(x6)
    addi x7, x7, 16
odd_4:
    sw x7, 84(x15)
    sw x1, 88(x15)
    lui x6, %hi(odd_5)
    addi x6, x6, %lo(odd_5)
    addi x6, x6, 2047
    jalr x1, -2046(x6)
    addi x7, x7, 32
odd_5:
    sw x7, 92(x15)
    sw x1, 96(x15)
    lui x6, %hi(odd_6)
    addi x6, x6, %lo(odd_6)
    addi x6, x6, -2047
    jalr x6, 2047(x6)
    addi x7, x7, 64
odd_6:
    sw x7, 100(x15)
    sw x6, 104(x15)

# Each branch on what is just made, where what was there before tells otherwise; as rs1 and as rs2.
    addi x7, x0, 0
    addi x8, x0, 5
    addi x6, x0, 4
    addi x6, x0, 5
    beq x6, x8, made_1
    addi x7, x7, 1
made_1:
    addi x6, x0, 4
    beq x8, x6, made_2
    addi x7, x7, 2
made_2:
    addi x6, x0, 5
    bne x6, x8, made_3
    addi x7, x7, 4
made_3:
    addi x6, x0, 4
    bne x8, x6, made_4
    addi x7, x7, 8
made_4:
    addi x6, x0, 9
    blt x6, x8, made_5
    addi x7, x7, 16
made_5:
    addi x6, x0, -1
    blt x6, x8, made_6
    addi x7, x7, 32
made_6:
    bltu x6, x8, made_7
    addi x7, x7, 64
made_7:
    addi x6, x0, 1
    bltu x6, x8, made_8
    addi x7, x7, 128
made_8:
    addi x6, x0, 9
    bge x8, x6, made_9
    addi x7, x7, 256
made_9:
    addi x6, x0, 2
    bge x8, x6, made_10
    addi x7, x7, 512
made_10:
    addi x6, x0, -1
    bgeu x8, x6, made_11
    addi x7, x7, 1024
made_11:
    addi x6, x0, 2
    bgeu x8, x6, made_12
    xori x7, x7, -1
made_12:
    sw x7, 108(x15)

# On what the one before it made, and on results of other kinds.
    addi x7, x0, 0
    addi x6, x0, 4
    addi x6, x0, 5
    addi x9, x0, 1
    beq x6, x8, before_1
    addi x7, x7, 1
before_1:
    add x6, x0, x9
    add x6, x8, x9
    xor x10, x8, x9
    bne x8, x6, before_2
    addi x7, x7, 2
before_2:
    add x6, x8, x0
    add x6, x9, x0
    sub x10, x8, x9
    beq x8, x6, before_3
    addi x7, x7, 4
before_3:
    slt x6, x9, x8
    beq x6, x9, before_4
    addi x7, x7, 8
before_4:
    slli x6, x9, 3
    blt x6, x8, before_5
    addi x7, x7, 16
before_5:
    lui x6, 0x80000
    blt x6, x0, before_6
    addi x7, x7, 32
before_6:
    sub x6, x9, x8
    sra x6, x6, x9
    bge x0, x6, before_7
    addi x7, x7, 64
before_7:
    sw x7, 112(x15)

# What stands behind a jump isn't done: results, loads, stores and jumps, one and two behind.
    addi x7, x0, 1
    sw x0, 0(x14)
    beq x0, x0, behind_1
    lw x7, 4(x14)
    sw x8, 0(x14)
behind_1:
    lw x6, 0(x14)
    sw x7, 116(x15)
    sw x6, 120(x15)
    jal x0, behind_2
    sw x8, 0(x14)
    lw x7, 4(x14)
behind_2:
    lw x6, 0(x14)
    sw x7, 124(x15)
    sw x6, 128(x15)
    lui x6, %hi(behind_3)
    addi x6, x6, %lo(behind_3)
    jalr x1, 0(x6)
    sw x8, 0(x14)
    addi x7, x7, 2
behind_3:
    lw x6, 0(x14)
    sw x7, 132(x15)
    sw x6, 136(x15)
    bne x8, x0, behind_4
    jal x0, behind_wrong
    addi x7, x7, 4
behind_4:
    sw x7, 140(x15)
    bge x8, x0, behind_5
    addi x7, x7, 8
    sw x8, 0(x14)
behind_5:
    lw x6, 0(x14)
    sw x7, 144(x15)
    sw x6, 148(x15)
    beq x0, x0, behind_6
    beq x0, x0, behind_wrong
behind_6:
    sw x7, 152(x15)
    jal x0, behind_7
behind_wrong:
    addi x7, x7, 1024
behind_7:
    sw x7, 156(x15)

# Branches behind branches, jumps to jumps, and a branch behind a load and behind a store.
    addi x7, x0, 1
    bne x0, x0, chain_1
    beq x0, x0, chain_2
chain_1:
    addi x7, x7, 2
chain_2:
    beq x0, x0, chain_3
    addi x7, x7, 4
chain_3:
    jal x0, chain_5
chain_4:
    jal x0, chain_6
chain_5:
    jal x1, chain_4
    addi x7, x7, 8
chain_6:
    sw x7, 160(x15)
    sw x1, 164(x15)
    blt x0, x0, chain_7
    bltu x0, x0, chain_7
    bge x0, x0, chain_8
chain_7:
    addi x7, x7, 16
chain_8:
    lw x6, 4(x14)
    bne x0, x8, chain_9
    addi x7, x7, 32
chain_9:
    sw x6, 0(x14)
    bgeu x8, x0, chain_10
    addi x7, x7, 64
chain_10:
    sw x7, 168(x15)

# Loops, whose last branch isn't taken.
    addi x6, x0, 7
    addi x7, x0, 0
loop_1:
    add x7, x7, x6
    addi x6, x6, -1
    bne x6, x0, loop_1
    sw x7, 172(x15)
    sw x6, 176(x15)
loop_2:
    addi x6, x6, 3
    addi x7, x7, 1
    blt x6, x7, loop_2
    sw x7, 180(x15)
    sw x6, 184(x15)
loop_3:
    addi x7, x7, -5
    bge x7, x8, loop_3
    sw x7, 188(x15)

# Fences, of which all fields but the first are read as anything: between a result and its reader,
# before and behind jumps.
    addi x6, x0, 5
    addi x6, x0, 6
    fence
    add x7, x6, x6
    addi x6, x0, 7
    .word 0x0110000f         # fence w, w
    add x8, x6, x7
    addi x6, x0, 8
    .word 0x8330000f         # fence.tso
    beq x6, x7, fence_1
    addi x7, x7, 1
    fence
fence_1:
    fence
    jal x1, fence_2
    fence
fence_2:
    fence
    add x9, x1, x7
    .word 0x0ff3038f         # with registers, which are not read and not written
    sw x7, 192(x15)
    sw x8, 196(x15)
    sw x9, 200(x15)
    sw x6, 204(x15)
    lui x5, %hi(tohost)
    addi x6, x0, 1
    sw x6, %lo(tohost)(x5)
halt:
    jal x0, halt

.data
word:
    .word 0
    .word 0x89abcdef
.data
tohost:
    .word 0
    .word 0
begin_signature:
    .fill 52, 4, 0xdeadbeef
end_signature:
