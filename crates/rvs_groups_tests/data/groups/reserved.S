# A reservation of one word doesn't let another be stored to, 64 KiB away. The manual lets a core
# reserve more than the word, so this test alone may fail on a core that keeps to it.
.option norvc
.option norelax
.text
.globl _start
_start:
    lui x15, %hi(begin_signature)
    addi x15, x15, %lo(begin_signature)
    lui x14, %hi(word)
    addi x14, x14, %lo(word)
    lui x13, %hi(other)
    addi x13, x13, %lo(other)
    lui x8, 0x12345
    addi x8, x8, 1656
    lr.w x1, (x14)
    sc.w x2, x8, (x13)
    lw x3, 0(x13)
    sw x1, 0(x15)
    sw x2, 4(x15)
    sw x3, 8(x15)
    lr.w x1, (x14)
    lr.w x2, (x13)
    sc.w x3, x8, (x14)
    lw x4, 0(x14)
    sw x1, 12(x15)
    sw x2, 16(x15)
    sw x3, 20(x15)
    sw x4, 24(x15)
    lui x5, %hi(tohost)
    addi x6, x0, 1
    sw x6, %lo(tohost)(x5)
halt:
    jal x0, halt

.data
word:
    .word 0x89abcdef
.data
tohost:
    .word 0
    .word 0
begin_signature:
    .fill 7, 4, 0xdeadbeef
end_signature:
    .zero 65536
other:
    .word 0x76543210
