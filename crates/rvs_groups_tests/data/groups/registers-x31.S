# The registers x1 to x31 at once: a bit that is stuck, a register that is lost, two that are one.
.option norvc
.option norelax
.text
.globl _start
_start:
# Each register has a word of its own, 0x01010101 times its number, while x1 has the address.
    lui x1, %hi(begin_signature)
    addi x1, x1, %lo(begin_signature)
    lui x2, 0x02020
    addi x2, x2, 514
    lui x3, 0x03030
    addi x3, x3, 771
    lui x4, 0x04040
    addi x4, x4, 1028
    lui x5, 0x05050
    addi x5, x5, 1285
    lui x6, 0x06060
    addi x6, x6, 1542
    lui x7, 0x07070
    addi x7, x7, 1799
    lui x8, 0x08081
    addi x8, x8, -2040
    lui x9, 0x09091
    addi x9, x9, -1783
    lui x10, 0x0a0a1
    addi x10, x10, -1526
    lui x11, 0x0b0b1
    addi x11, x11, -1269
    lui x12, 0x0c0c1
    addi x12, x12, -1012
    lui x13, 0x0d0d1
    addi x13, x13, -755
    lui x14, 0x0e0e1
    addi x14, x14, -498
    lui x15, 0x0f0f1
    addi x15, x15, -241
    lui x16, 0x10101
    addi x16, x16, 16
    lui x17, 0x11111
    addi x17, x17, 273
    lui x18, 0x12121
    addi x18, x18, 530
    lui x19, 0x13131
    addi x19, x19, 787
    lui x20, 0x14141
    addi x20, x20, 1044
    lui x21, 0x15151
    addi x21, x21, 1301
    lui x22, 0x16161
    addi x22, x22, 1558
    lui x23, 0x17171
    addi x23, x23, 1815
    lui x24, 0x18182
    addi x24, x24, -2024
    lui x25, 0x19192
    addi x25, x25, -1767
    lui x26, 0x1a1a2
    addi x26, x26, -1510
    lui x27, 0x1b1b2
    addi x27, x27, -1253
    lui x28, 0x1c1c2
    addi x28, x28, -996
    lui x29, 0x1d1d2
    addi x29, x29, -739
    lui x30, 0x1e1e2
    addi x30, x30, -482
    lui x31, 0x1f1f2
    addi x31, x31, -225
# What is written to x0 goes to no other.
    add x0, x30, x29
    addi x0, x15, 3
    lui x0, 0x55555
    lw x0, 0(x1)
    jal x0, kept
kept:
    sw x2, 0(x1)
    sw x3, 4(x1)
    sw x4, 8(x1)
    sw x5, 12(x1)
    sw x6, 16(x1)
    sw x7, 20(x1)
    sw x8, 24(x1)
    sw x9, 28(x1)
    sw x10, 32(x1)
    sw x11, 36(x1)
    sw x12, 40(x1)
    sw x13, 44(x1)
    sw x14, 48(x1)
    sw x15, 52(x1)
    sw x16, 56(x1)
    sw x17, 60(x1)
    sw x18, 64(x1)
    sw x19, 68(x1)
    sw x20, 72(x1)
    sw x21, 76(x1)
    sw x22, 80(x1)
    sw x23, 84(x1)
    sw x24, 88(x1)
    sw x25, 92(x1)
    sw x26, 96(x1)
    sw x27, 100(x1)
    sw x28, 104(x1)
    sw x29, 108(x1)
    sw x30, 112(x1)
    sw x31, 116(x1)
# Each bit the other way.
    xori x2, x2, -1
    xori x3, x3, -1
    xori x4, x4, -1
    xori x5, x5, -1
    xori x6, x6, -1
    xori x7, x7, -1
    xori x8, x8, -1
    xori x9, x9, -1
    xori x10, x10, -1
    xori x11, x11, -1
    xori x12, x12, -1
    xori x13, x13, -1
    xori x14, x14, -1
    xori x15, x15, -1
    xori x16, x16, -1
    xori x17, x17, -1
    xori x18, x18, -1
    xori x19, x19, -1
    xori x20, x20, -1
    xori x21, x21, -1
    xori x22, x22, -1
    xori x23, x23, -1
    xori x24, x24, -1
    xori x25, x25, -1
    xori x26, x26, -1
    xori x27, x27, -1
    xori x28, x28, -1
    xori x29, x29, -1
    xori x30, x30, -1
    xori x31, x31, -1
    sw x2, 120(x1)
    sw x3, 124(x1)
    sw x4, 128(x1)
    sw x5, 132(x1)
    sw x6, 136(x1)
    sw x7, 140(x1)
    sw x8, 144(x1)
    sw x9, 148(x1)
    sw x10, 152(x1)
    sw x11, 156(x1)
    sw x12, 160(x1)
    sw x13, 164(x1)
    sw x14, 168(x1)
    sw x15, 172(x1)
    sw x16, 176(x1)
    sw x17, 180(x1)
    sw x18, 184(x1)
    sw x19, 188(x1)
    sw x20, 192(x1)
    sw x21, 196(x1)
    sw x22, 200(x1)
    sw x23, 204(x1)
    sw x24, 208(x1)
    sw x25, 212(x1)
    sw x26, 216(x1)
    sw x27, 220(x1)
    sw x28, 224(x1)
    sw x29, 228(x1)
    sw x30, 232(x1)
    sw x31, 236(x1)
# x1 in the place of x31.
    addi x31, x1, 0
    lui x1, 0x01010
    addi x1, x1, 257
    sw x1, 240(x31)
    sw x2, 244(x31)
    sw x3, 248(x31)
    sw x4, 252(x31)
    sw x5, 256(x31)
    sw x6, 260(x31)
    sw x7, 264(x31)
    sw x8, 268(x31)
    sw x9, 272(x31)
    sw x10, 276(x31)
    sw x11, 280(x31)
    sw x12, 284(x31)
    sw x13, 288(x31)
    sw x14, 292(x31)
    sw x15, 296(x31)
    sw x16, 300(x31)
    sw x17, 304(x31)
    sw x18, 308(x31)
    sw x19, 312(x31)
    sw x20, 316(x31)
    sw x21, 320(x31)
    sw x22, 324(x31)
    sw x23, 328(x31)
    sw x24, 332(x31)
    sw x25, 336(x31)
    sw x26, 340(x31)
    sw x27, 344(x31)
    sw x28, 348(x31)
    sw x29, 352(x31)
    sw x30, 356(x31)
    xori x1, x1, -1
    sw x1, 360(x31)

# Each as destination and as either source, with other words.
    sub x1, x1, x2
    sub x2, x2, x3
    sub x3, x3, x4
    sub x4, x4, x5
    sub x5, x5, x6
    sub x6, x6, x7
    sub x7, x7, x8
    sub x8, x8, x9
    sub x9, x9, x10
    sub x10, x10, x11
    sub x11, x11, x12
    sub x12, x12, x13
    sub x13, x13, x14
    sub x14, x14, x15
    sub x15, x15, x16
    sub x16, x16, x17
    sub x17, x17, x18
    sub x18, x18, x19
    sub x19, x19, x20
    sub x20, x20, x21
    sub x21, x21, x22
    sub x22, x22, x23
    sub x23, x23, x24
    sub x24, x24, x25
    sub x25, x25, x26
    sub x26, x26, x27
    sub x27, x27, x28
    sub x28, x28, x29
    sub x29, x29, x30
    sub x30, x30, x1
    sw x1, 364(x31)
    sw x2, 368(x31)
    sw x3, 372(x31)
    sw x4, 376(x31)
    sw x5, 380(x31)
    sw x6, 384(x31)
    sw x7, 388(x31)
    sw x8, 392(x31)
    sw x9, 396(x31)
    sw x10, 400(x31)
    sw x11, 404(x31)
    sw x12, 408(x31)
    sw x13, 412(x31)
    sw x14, 416(x31)
    sw x15, 420(x31)
    sw x16, 424(x31)
    sw x17, 428(x31)
    sw x18, 432(x31)
    sw x19, 436(x31)
    sw x20, 440(x31)
    sw x21, 444(x31)
    sw x22, 448(x31)
    sw x23, 452(x31)
    sw x24, 456(x31)
    sw x25, 460(x31)
    sw x26, 464(x31)
    sw x27, 468(x31)
    sw x28, 472(x31)
    sw x29, 476(x31)
    sw x30, 480(x31)
    lui x5, %hi(tohost)
    addi x6, x0, 1
    sw x6, %lo(tohost)(x5)
halt:
    jal x0, halt

.data
tohost:
    .word 0
    .word 0
begin_signature:
    .fill 121, 4, 0xdeadbeef
end_signature:
