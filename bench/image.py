#!/usr/bin/env python3
"""Writes an image whose program goes round a loop of sixteen instructions: sums, shifts, a product,
comparisons, two stores and two loads, a branch that is taken or not, a jump.

usage: image.py STEPS
"""
import sys

TOHOST, BEGIN, END = 0x81000000, 0x81000010, 0x81000020


def r(funct7, rs2, rs1, funct3, rd):
    return funct7 << 25 | rs2 << 20 | rs1 << 15 | funct3 << 12 | rd << 7 | 0x33


def i(imm, rs1, funct3, rd, opcode=0x13):
    return (imm & 0xFFF) << 20 | rs1 << 15 | funct3 << 12 | rd << 7 | opcode


def load(imm, rs1, funct3, rd):
    return i(imm, rs1, funct3, rd, 0x03)


def store(imm, rs2, rs1, funct3):
    imm &= 0xFFF
    return imm >> 5 << 25 | rs2 << 20 | rs1 << 15 | funct3 << 12 | (imm & 31) << 7 | 0x23


def branch(distance, rs2, rs1, funct3):
    d = distance & 0x1FFF
    high = (d >> 12) << 31 | (d >> 5 & 63) << 25
    low = (d >> 1 & 15) << 8 | (d >> 11 & 1) << 7
    return high | rs2 << 20 | rs1 << 15 | funct3 << 12 | low | 0x63


def upper(bits, rd):
    return bits << 12 | rd << 7 | 0x37


def program(rounds):
    low = (rounds & 0xFFF) - 2 * (rounds & 0x800)
    start = [upper(0x81000, 5), upper((rounds - low) >> 12, 6), i(low, 6, 0, 6)]
    body = [
        i(1, 7, 0, 7),
        r(0, 7, 8, 0, 8),
        store(16, 8, 5, 2),
        load(16, 5, 2, 9),
        r(0, 9, 8, 4, 10),
        i(3, 9, 1, 11),
        r(0x20, 11, 8, 0, 12),
        store(21, 12, 5, 0),
        load(21, 5, 4, 13),
        r(1, 13, 8, 0, 14),
        i(0xFF, 14, 7, 15),
        r(0, 15, 14, 3, 16),
        branch(8, 0, 16, 0),
        i(1, 17, 0, 17),
        4 << 20 | 1 << 7 | 0x6F,  # jal x1, 4 bytes on
        i(-1, 6, 0, 6),
    ]
    end = [i(1, 0, 0, 18), store(0, 18, 5, 2)]
    return start + body + [branch(-4 * len(body), 0, 6, 1)] + end


def main():
    words = program(max(1, int(sys.argv[1]) // 16))
    lines = ["rvimage 1", f"text {len(words)}"]
    lines += [f"{word:08x}" for word in words]
    lines += ["data 16"] + ["00000000"] * 16
    lines += [f"tohost {TOHOST:08x}", f"begin {BEGIN:08x}", f"end {END:08x}"]
    print("\n".join(lines))


main()
