# Jumps over more than 2048 bytes: the upper bits of the distance of jal, each alone, forwards and
# backwards, and the ends of the distances of branches. Between them are words that are no
# instructions.
.option norvc
.option norelax
.text
.globl _start
_start:
    addi x9, x0, 1
    jal x0, branch_1

# The way back ends here.
finish:
    lui x15, %hi(links_back)
    addi x15, x15, %lo(links_back)
    sw x1, 0(x15)
    sw x2, 4(x15)
    sw x3, 8(x15)
    sw x4, 12(x15)
    sw x5, 16(x15)
    sw x6, 20(x15)
    sw x7, 24(x15)
    sw x8, 28(x15)
    lui x5, %hi(tohost)
    addi x6, x0, 1
    sw x6, %lo(tohost)(x5)
halt:
    jal x0, halt

# Forwards by 2^12 bytes up to 2^19, and backwards by 2^19 down to 2^12.
up_12:
    jal x1, up_13
down_12:
    jal x0, finish
    .zero 4088
up_13:
    jal x2, up_14
down_13:
    jal x1, down_12
# Here branches lie between: by 4092 bytes, -4096, 2052 and -2052.
branch_1:
    beq x0, x0, branch_2
    .zero 252
branch_4:
    addi x9, x9, 8
    bge x9, x0, branch_5
branch_6:
    addi x9, x9, 16
    lui x15, %hi(begin_signature)
    addi x15, x15, %lo(begin_signature)
    sw x9, 0(x15)
    jal x0, up_12
    .zero 2024
branch_5:
    addi x9, x9, 4
    bltu x0, x9, branch_6
    .zero 1772
branch_2:
    addi x9, x9, 2
    jal x0, branch_3
    .zero 252
branch_3:
    bne x9, x0, branch_4
    .zero 3828
up_14:
    jal x3, up_15
down_14:
    jal x2, down_13
    .zero 16376
up_15:
    jal x4, up_16
down_15:
    jal x3, down_14
    .zero 32760
up_16:
    jal x5, up_17
down_16:
    jal x4, down_15
    .zero 65528
up_17:
    jal x6, up_18
down_17:
    jal x5, down_16
    .zero 131064
up_18:
    jal x7, up_19
down_18:
    jal x6, down_17
    .zero 262136
up_19:
    jal x8, up_20
down_19:
    jal x7, down_18
    .zero 524280
up_20:
    jal x0, turn
down_20:
    jal x8, down_19
turn:
    lui x15, %hi(links)
    addi x15, x15, %lo(links)
    sw x1, 0(x15)
    sw x2, 4(x15)
    sw x3, 8(x15)
    sw x4, 12(x15)
    sw x5, 16(x15)
    sw x6, 20(x15)
    sw x7, 24(x15)
    sw x8, 28(x15)
    addi x1, x0, 0
    addi x2, x0, 0
    addi x3, x0, 0
    addi x4, x0, 0
    addi x5, x0, 0
    addi x6, x0, 0
    addi x7, x0, 0
    addi x8, x0, 0
    jal x0, down_20

.data
tohost:
    .word 0
    .word 0
begin_signature:
    .word 0xdeadbeef
links:
    .fill 8, 4, 0xdeadbeef
links_back:
    .fill 8, 4, 0xdeadbeef
end_signature:
