#!/usr/bin/env python3
"""Writes coverage group files that the search for choices of operands is quick or slow on.

usage: solver.py stock | one | every | wide | worst > FILE

stock  the points of a stock label of add, 246 of them, all solved
one    one label of beq with 2,048 points, 513 of them solved
every  one label of all 48 mnemonics with 1,365 points, which some mnemonic solves
wide   one label of 32 mnemonics with 2,048 points, which no mnemonic solves
worst  a point of beq that names both values and the immediate in a product alone, with sixteen constants, so that
       each distance and each pair of words is tried and nothing hits"""
import sys

R = "add sub sll slt sltu xor srl sra or and mul mulh mulhsu mulhu div divu rem remu".split()
I = "addi slti sltiu xori ori andi slli srli srai".split()
REST = "lb lh lw lbu lhu jalr sb sh sw beq bne blt bge bltu bgeu lui auipc jal fence ecall ebreak".split()


def node(name, keys):
    print(f"  {name}:")
    for key in keys:
        print(f"    '{key}': 0")


def stock():
    print("add:\n  config:\n    - check ISA:=regex(.*I.*)\n  mnemonics:\n    add: 0")
    for place in ["rs1", "rs2", "rd"]:
        node(place, [f"x{r}" for r in range(32)])
    node("op_comb", ["rs1 == rd != rs2", "rs2 == rd != rs1", "rs1 == rs2 == rd", "rs1 == rs2 != rd",
                     "rs1 != rs2 and rs1 != rd and rs2 != rd"])
    keys = [f"{n} == {v}" for n in ["rs1_val", "rs2_val"] for v in ["(-2**(xlen-1))", "0", "(2**(xlen-1)-1)", "1"]]
    keys += [f"rs1_val {a} 0 and rs2_val {b} 0" for a in "><" for b in "><"]
    node("val_comb", keys + ["rs1_val == rs2_val", "rs1_val != rs2_val"])
    print("    'abstract_comb':\n      'sp_dataset(xlen)': 0")
    for family in ["walking_ones", "walking_zeros", "alternate"]:
        for n in ["rs1_val", "rs2_val"]:
            print(f"      '{family}(\"{n}\", xlen)': 0")


def one():
    print("beq:\n  mnemonics:\n    beq: 0")
    node("val_comb", [f"imm_val == {2 * k} and rs1_val == {k}" for k in range(2047)])


def every():
    print("every:")
    node("mnemonics", R + I + REST)
    node("val_comb", [f"rs1_val == {k} and imm_val > {k % 9}" for k in range(1365 - 48)])


def wide():
    print("wide:")
    print("  config:\n    - check ISA:=regex(.*I.*)")
    node("mnemonics", R[:14] + I + REST[:9])
    node("val_comb", [f"rs1_val == {5000 + k} and rs1_val == {9000 + k}" for k in range(2048 - 32)])


def worst():
    print("beq:\n  mnemonics:\n    beq: 0")
    node("val_comb", [" or ".join(f"rs1_val * rs2_val * imm_val == {1000003 + 1000 * k}" for k in range(16))])


{"stock": stock, "one": one, "every": every, "wide": wide, "worst": worst}[sys.argv[1]]()
