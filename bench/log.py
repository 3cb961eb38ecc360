#!/usr/bin/env python3
"""Writes an execution log of about so many bytes to standard output.

usage: log.py BYTES [STYLE] [SEED]

STYLE is one of
  reference: the lines that `rvsuite reference` writes
  spike: those of `spike --log-commits`: loads and stores have their addresses and values too
  words: those of `spike -l --log-commits`: a line with the disassembled word before each
  sail: those of Sail's emulator: the disassembled word, and what was written on a line of its own

The instructions are random ones of RV32I and M over all registers, with operand words that are small, at the
edges or random, so that groups of corner values are hit and missed."""
import random
import sys

R = {  # mnemonic: (funct3, funct7)
    "add": (0, 0), "sub": (0, 32), "sll": (1, 0), "slt": (2, 0), "sltu": (3, 0), "xor": (4, 0), "srl": (5, 0),
    "sra": (5, 32), "or": (6, 0), "and": (7, 0), "mul": (0, 1), "mulh": (1, 1), "mulhsu": (2, 1), "mulhu": (3, 1),
    "div": (4, 1), "divu": (5, 1), "rem": (6, 1), "remu": (7, 1),
}
I = {"addi": 0, "slti": 2, "sltiu": 3, "xori": 4, "ori": 6, "andi": 7}
LOADS = {"lb": 0, "lh": 1, "lw": 2, "lbu": 4, "lhu": 5}
STORES = {"sb": 0, "sh": 1, "sw": 2}
BRANCHES = {"beq": 0, "bne": 1, "blt": 4, "bge": 5, "bltu": 6, "bgeu": 7}
EDGES = [0, 1, 2, 0x7FFFFFFF, 0x80000000, 0x80000001, 0xFFFFFFFE, 0xFFFFFFFF, 0x55555555, 0xAAAAAAAA]


def word_of(rng):
    rd, rs1, rs2 = (rng.randrange(32) for _ in range(3))
    kind = rng.randrange(20)
    if kind < 9:
        funct3, funct7 = R[rng.choice(list(R))]
        return funct7 << 25 | rs2 << 20 | rs1 << 15 | funct3 << 12 | rd << 7 | 0x33, rd
    if kind < 14:
        return rng.randrange(4096) << 20 | rs1 << 15 | I[rng.choice(list(I))] << 12 | rd << 7 | 0x13, rd
    if kind < 16:
        return rng.randrange(4096) << 20 | rs1 << 15 | LOADS[rng.choice(list(LOADS))] << 12 | rd << 7 | 0x03, rd
    if kind < 17:
        imm = rng.randrange(4096)
        return (imm >> 5) << 25 | rs2 << 20 | rs1 << 15 | STORES[rng.choice(list(STORES))] << 12 | (imm & 31) << 7 | 0x23, 0
    if kind < 19:
        bits = rng.randrange(4096)
        return (bits >> 5) << 25 | rs2 << 20 | rs1 << 15 | BRANCHES[rng.choice(list(BRANCHES))] << 12 | (bits & 31) << 7 | 0x63, 0
    return rng.randrange(1 << 20) << 12 | rd << 7 | 0x37, rd


def value_of(rng):
    kind = rng.randrange(4)
    if kind == 0:
        return rng.choice(EDGES)
    if kind == 1:
        return 1 << rng.randrange(32)
    if kind == 2:
        return rng.randrange(64)
    return rng.randrange(1 << 32)


def memory_of(rng, word):
    """What Spike says of the memory that a load or a store touches."""
    opcode, funct3 = word & 127, word >> 12 & 7
    if opcode not in (0x03, 0x23):
        return ""
    size = 1 << (funct3 & 3)
    address = f" mem 0x{0x80001000 + rng.randrange(1024) * size:08x}"
    return address if opcode == 0x03 else f"{address} 0x{rng.randrange(1 << 8 * size):0{2 * size}x}"


def block_of(style, rng):
    """Lines of instructions, each in parts around its address."""
    for number in range(20000):
        word, rd = word_of(rng)
        value = f"0x{value_of(rng):08x}"
        said = f" (0x{word:08x})"
        if style == "sail":
            yield f"[{number}] [M]: 0x", f"{said} addi x1, x2, 0x10\n" + (f"x{rd} <- {value}\n" if rd else "")
            continue
        tail = f" x{rd:<2} {value}" if rd else ""
        if style != "reference":
            tail += memory_of(rng, word)
        before = f"{said} addi    ra, sp, 16\ncore   0: 3 0x" if style == "words" else None
        yield ("core   0: 0x" if before else "core   0: 3 0x"), before, f"{said}{tail}\n"


def main():
    limit = int(sys.argv[1])
    style = sys.argv[2] if len(sys.argv) > 2 else "reference"
    rng = random.Random(int(sys.argv[3]) if len(sys.argv) > 3 else 1)
    # A block of lines is made once and repeated at other addresses.
    block = list(block_of(style, rng))
    written, pc = 0, 0x80000000
    out = sys.stdout.buffer
    while written < limit:
        lines = []
        for parts in block:
            lines.append(f"{pc:08x}".join(part for part in parts if part))
            pc = 0x80000000 + (pc + 4) % 0x1000000
        data = "".join(lines).encode()
        out.write(data)
        written += len(data)


main()
