#!/usr/bin/env python3
"""Writes coverage groups for all mnemonics of RV32I and M that a log may hit.

usage: counted_groups.py small | stock | users

small: one label a mnemonic with about 45 points, some 2,000 in all: registers, a few comparisons, corner values.
stock: one label for the 45 mnemonics with operands, with the points of a stock label of add: all registers in each
place, comparisons of registers, corner values, sign combinations, and the families of both values.
users: one label a mnemonic in the shape of the groups that come with public architecture tests, some 8,000 points
in all: what `stock` has, and pairs of edge values, shift amounts, branches by sign and order, and addresses by
their place in a word."""
import sys

R = "add sub sll slt sltu xor srl sra or and mul mulh mulhsu mulhu div divu rem remu".split()
I = "addi slti sltiu xori ori andi slli srli srai".split()
LOADS = "lb lh lw lbu lhu jalr".split()
STORES = "sb sh sw".split()
BRANCHES = "beq bne blt bge bltu bgeu".split()
UPPER = "lui auipc jal".split()
OPS = [" == rs2", " != rs2"]


def node(name, keys):
    print(f"  {name}:")
    for key in keys:
        print(f"    '{key}': 0")


def small():
    for op in R + I + LOADS + STORES + BRANCHES + UPPER:
        print(f"{op}:")
        node("mnemonics", [op])
        node("rd" if op not in STORES + BRANCHES else "rs1", [f"x{r}" for r in range(1, 32, 2)])
        node("op_comb", ["rs1 == rs2" if op in R + STORES + BRANCHES else "rd == x0"])
        if op in UPPER:
            node("val_comb", [f"imm_val == {v}" for v in range(0, 80, 4)])
            continue
        names = ["rs1_val", "rs2_val"] if op in R + STORES + BRANCHES else ["rs1_val", "imm_val"]
        keys = [f"{n} == {v}" for n in names for v in ["(-2**(xlen-1))", "0", "(2**(xlen-1)-1)", "1"]]
        keys += [f"{names[0]} > 0 and {names[1]} > 0", f"{names[0]} < 0 and {names[1]} < 0"]
        keys += [f"rs1_val == {1 << k}" for k in range(1, 18)]
        node("val_comb", keys)


def stock():
    print("all:")
    node("mnemonics", R + I + LOADS + STORES + BRANCHES + UPPER)
    for place in ["rs1", "rs2", "rd"]:
        node(place, [f"x{r}" for r in range(32)])
    node("op_comb", ["rs1 == rd != rs2", "rs2 == rd != rs1", "rs1 == rs2 == rd", "rs1 == rs2 != rd",
                     "rs1 != rs2 and rs1 != rd and rs2 != rd"])
    keys = [f"{n} == {v}" for n in ["rs1_val", "rs2_val"] for v in ["(-2**(xlen-1))", "0", "(2**(xlen-1)-1)", "1"]]
    keys += [f"rs1_val {a} 0 and rs2_val {b} 0" for a in "><" for b in "><"]
    keys += ["rs1_val == rs2_val", "rs1_val != rs2_val"]
    node("val_comb", keys)
    print("    'abstract_comb':")
    for family in ["walking_ones", "walking_zeros", "alternate"]:
        for n in ["rs1_val", "rs2_val"]:
            print(f"      '{family}(\"{n}\", xlen)': 0")


EDGES = ["(-2**(xlen-1))", "0", "(2**(xlen-1)-1)", "1"]
LOGICAL = "sltu sltiu mulhu divu remu".split()


def corners(*names):
    return [f"{name} == {value}" for name in names for value in EDGES]


def signs(first, second):
    return [f"{first} {a} 0 and {second} {b} 0" for a in "><" for b in "><"] + \
        [f"{first} {a} {second}" for a in ("==", "!=")]


def shifts(amount):
    keys = [f"rs1_val {a} 0 and {amount} == 0" for a in "><"]
    keys += [f"rs1_val {a} 0 and {amount} > 0 and {amount} < xlen" for a in "><"]
    keys += [f"rs1_val == {amount} and {amount} > 0 and {amount} < xlen"]
    return keys + [f"rs1_val == {v} and {amount} >= 0 and {amount} < xlen" for v in EDGES]


def families(name, size, signed):
    return [f'{family}("{name}", {size}{"" if signed else ", False"})'
            for family in ("walking_ones", "walking_zeros", "alternate")]


def branches(signed):
    places = [""] if signed else ["rs2_val > 0 and "]
    return [f"rs1_val {a} 0 and {place}imm_val {b} 0 and rs1_val {order} rs2_val"
            for place in places for a in ("><" if signed else ">") for b in "><" for order in ("==", ">", "<")]


def users_of(op):
    """The comparisons of registers, the keys over numbers and the families of a mnemonic's label."""
    signed = op not in LOGICAL
    three = [f"rs1 == rs2{a}" for a in (" != rd", " == rd")] + ["rs1 == rd != rs2", "rs2 == rd != rs1",
                                                              "rs1 != rs2 and rs1 != rd and rs2 != rd"]
    both = families("rs1_val", "xlen", signed) + families("rs2_val", "xlen", signed)
    if op in ("sll", "srl", "sra"):
        return three, shifts("rs2_val"), families("rs1_val", "xlen", True) + families("rs2_val", 5, False)
    if op in R:
        pairs = [f"sp_dataset(xlen{'' if signed else ', signed=False'})"] if op not in ("div", "divu", "rem", "remu") else []
        corner = ["rs1_val == -2**(xlen-1) and rs2_val == -0x01", "rs2_val == 0x00"] if op in ("div", "rem") else []
        return three, corners("rs1_val", "rs2_val") + signs("rs1_val", "rs2_val") + corner, pairs + both
    if op in ("slli", "srli", "srai"):
        return ["rs1 == rd", "rs1 != rd"], shifts("imm_val"), families("rs1_val", "xlen", True) + families("imm_val", 5, False)
    if op in I:
        keys = corners("rs1_val") + signs("rs1_val", "imm_val") + [f"imm_val == {v}" for v in (-2048, 0, 2047, 1)]
        pairs = 'sp_dataset(xlen, ["rs1_val", "imm_val"])'
        return ["rs1 == rd", "rs1 != rd"], keys, [pairs] + families("rs1_val", "xlen", signed) + families("imm_val", 12, signed)
    if op in BRANCHES:
        keys = corners("rs1_val", "rs2_val") + branches(op not in ("bltu", "bgeu"))
        return ["rs1 == rs2", "rs1 != rs2"], keys, ["sp_dataset(xlen)"] + both
    if op in UPPER:
        return [], ["imm_val == 0", "imm_val > 0"], families("imm_val", 20, False) if op != "jal" else []
    if op == "jalr":
        return ["rs1 == rd", "rs1 != rd"], ["imm_val == 0", "imm_val > 0", "imm_val < 0"], families("imm_val", 12, True)
    step = {"b": 1, "h": 2, "w": 4}[op[1]]
    keys = [f"ea_align == {k} and (imm_val % 4) == {m}" for k in range(0, 4, step) for m in range(4)]
    alike = ["rs1 == rd", "rs1 != rd"] if op in LOADS else ["rs1 == rs2", "rs1 != rs2"]
    return alike, keys + ["imm_val > 0", "imm_val < 0", "imm_val == 0"], []


def users():
    for op in R + I + LOADS + STORES + BRANCHES + UPPER:
        print(f"{op}:")
        node("mnemonics", [op])
        for place in ["rs1"] * (op not in UPPER) + ["rs2"] * (op in R + STORES + BRANCHES) + \
                ["rd"] * (op not in STORES + BRANCHES):
            node(place, [f"x{r}" for r in range(32)])
        alike, keys, called = users_of(op)
        if alike:
            node("op_comb", alike)
        node("val_comb", keys)
        if called:
            print("    'abstract_comb':")
            for call in called:
                print(f"      '{call}': 0")


{"small": small, "stock": stock, "users": users}[sys.argv[1]]()
