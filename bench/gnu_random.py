#!/usr/bin/env python3
"""Prints an assembler text of random lines, for gnu_random.sh.

usage: gnu_random.py SEED

The text is in the form that `gnu_words.py dump` takes. Its lines use symbols of text and data that
come before or behind them; all distances lie within the fields."""
import random
import sys

choose = random.Random(int(sys.argv[1]))
SYMBOLS = [f"t{k}" for k in range(40)] + [f"d{k}" for k in range(20)]
R = "add sub sll slt sltu xor srl sra or and mul mulh mulhsu mulhu div divu rem remu".split()
I = "addi slti sltiu xori ori andi jalr lb lh lw lbu lhu".split()


def register():
    return f"x{choose.randrange(32)}"


def symbol():
    return choose.choice(SYMBOLS)


def immediate(low, high):
    return choose.choice([low, high, 0, -1 if low < 0 else 1, choose.randint(low, high)])


def low():
    return choose.choice([f"%lo({symbol()})", str(immediate(-2048, 2047))])


def upper():
    return choose.choice([f"%hi({symbol()})", str(immediate(0, 0xFFFFF))])


def value():
    number = immediate(-(2**31), 2**32 - 1)
    return choose.choice([symbol(), str(number), hex(abs(number))])


def values():
    return ", ".join(value() for _ in range(choose.randint(1, 4)))


def with_immediate(op):
    if op in ("jalr", "lb", "lh", "lw", "lbu", "lhu"):
        return f"{op} {register()}, {low()}({register()})"
    return f"{op} {register()}, {register()}, {low()}"


def statement():
    target = f"t{choose.randrange(40)}"
    shift, store = choose.choice(["slli", "srli", "srai"]), choose.choice(["sb", "sh", "sw"])
    branch = choose.choice("beq bne blt bge bltu bgeu".split())
    return choose.choice([
        lambda: f"{choose.choice(R)} {register()}, {register()}, {register()}",
        lambda: with_immediate(choose.choice(I)),
        lambda: f"{shift} {register()}, {register()}, {immediate(0, 31)}",
        lambda: f"{store} {register()}, {low()}({register()})",
        lambda: f"{branch} {register()}, {register()}, {target}",
        lambda: f"jal {register()}, {target}",
        lambda: f"j {target}",
        lambda: f"{choose.choice(['lui', 'auipc'])} {register()}, {upper()}",
        lambda: choose.choice(["nop", "fence", "ecall", "ebreak"]),
        lambda: f".word {values()}",
        lambda: f".align {choose.randrange(5)}",
    ])()


def datum():
    return choose.choice([
        lambda: f".word {values()}",
        lambda: f".half {immediate(-32768, 65535)}, {immediate(-32768, 65535)}",
        lambda: f".byte {immediate(-128, 255)}, 1, 2, 3",
        lambda: f".zero {4 * choose.randrange(5)}",
        lambda: f".fill {choose.randrange(4)}, 4, {immediate(0, 2**32 - 1)}",
        lambda: f".align {choose.randrange(2, 5)}",
    ])()


def spread(names, lines):
    """The lines with each name as a label at a random place, on its own or before a statement."""
    out = list(lines)
    for name in names:
        at = choose.randint(0, len(out))
        if at < len(out) and ":" not in out[at] and choose.random() < 0.5:
            out[at] = f"{name}: {out[at].strip()}"
        else:
            out.insert(at, f"{name}:")
    return [line if ":" in line else "    " + line for line in out]


text = spread([f"t{k}" for k in range(40)], [statement() for _ in range(choose.randint(50, 300))])
data = spread([f"d{k}" for k in range(20)], [datum() for _ in range(choose.randint(10, 60))])
print("    .option norvc\n    .option norelax\n    .text\n    .globl _start\n_start:")
print("\n".join(text))
print("    .data\n    .align 4\nscratch:\n" + "\n".join(data))
print("    .align 2\ntohost: .word 0, 0\n    .align 4\nbegin_signature:\nend_signature:")
