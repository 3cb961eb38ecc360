#!/usr/bin/env python3
"""Writes coverage groups for gnu.sh: a label for each mnemonic of RV32I, M and A, and two for many.

usage: gnu_groups.py > FILE

The labels of A are selected by a specification that has A, all others by one that has M.

Each label has all registers in each place, comparisons of registers, edge values and families of
each operand, pairs of signs, and immediates at the edges of their fields; loads and stores have
each place in a word; branches and jumps have distances of powers of two up to 2048, and branches go
both ways."""

R = "add sub sll slt sltu xor srl sra or and mul mulh mulhsu mulhu div divu rem remu".split()
I = "addi slti sltiu xori ori andi".split()
SHIFTS = "slli srli srai".split()
LOADS = "lb lh lw lbu lhu".split()
STORES = "sb sh sw".split()
BRANCHES = "beq bne blt bge bltu bgeu".split()
UPPER = "lui auipc".split()
ATOMIC = """sc.w amoswap.w amoadd.w amoxor.w amoand.w amoor.w amomin.w amomax.w amominu.w
    amomaxu.w""".split()
FAR = [s * d for d in [4, 8, 12, 16, 32, 64, 128, 256, 512, 1024, 2044, 2048] for s in (1, -1)]
EDGES = ["(-2**(xlen-1))", "(-2**(xlen-1))+1", "-2", "-1", "0", "1", "2", "(2**(xlen-1)-1)",
         "(2**xlen)-1", "2**31"]


def node(name, keys, families=()):
    print(f"  {name}:")
    for key in dict.fromkeys(keys):
        print(f"    '{key}': 0")
    if families:
        print("    abstract_comb:")
        for key in families:
            print(f"      '{key}': 0")


def signs(a, b):
    return [f"{a} {x} 0 and {b} {y} 0" for x in (">", "<", "==") for y in (">", "<", "==")]


def families(*calls):
    names = ["walking_ones", "walking_zeros", "alternate", "edge_dataset"]
    return [f'{name}("{var}", {size})' for var, size in calls for name in names]


def label(name, ops, places, regs, keys, calls, extension="M"):
    print(f"{name}:")
    print(f"  config:\n    - check ISA:=regex(.*{extension}.*)")
    node("mnemonics", ops)
    for place in places:
        node(place, [f"x{r}" for r in range(32)])
    if regs:
        node("op_comb", regs)
    node("val_comb", keys, families(*calls))


def main():
    three = ["rs1 == rd != rs2", "rs2 == rd != rs1", "rs1 == rs2 == rd", "rs1 == rs2 != rd",
             "rs1 != rs2 and rs1 != rd and rs2 != rd", "rd == x0"]
    two = ["rs1 == rd", "rs1 != rd", "rd == x0 and rs1 != x0"]
    pair = ["rs1 == rs2", "rs1 != rs2"]
    ends = ["0", "1", "-1", "-2**31", "2**31-1"]
    corner = [f"rs1_val == {a} and rs2_val == {b}" for a in ends for b in ends]
    edges1 = [f"rs1_val == {v}" for v in EDGES]
    edges2 = [f"rs2_val == {v}" for v in EDGES]
    same = ["rs1_val == rs2_val", "rs1_val != rs2_val"]
    for op in R:
        label(op, [op], ["rs1", "rs2", "rd"], three,
              edges1 + edges2 + signs("rs1_val", "rs2_val") + same + corner,
              [("rs1_val", "xlen"), ("rs2_val", "xlen")])
    for op in I:
        label(op, [op], ["rs1", "rd"], two, edges1 + signs("rs1_val", "imm_val"),
              [("rs1_val", "xlen"), ("imm_val", 12)])
    for op in SHIFTS:
        label(op, [op], ["rs1", "rd"], two, edges1 + [f"imm_val == {n}" for n in range(32)],
              [("rs1_val", "xlen")])
    imms = ["> 0", "< 0", "== 0", "== 2047", "== -2048", "% 4 == 1"]
    places = [f"ea_align == {a} and imm_val {c}" for a in range(4) for c in imms]
    for op in LOADS:
        label(op, [op], ["rs1", "rd"], two, places, [("imm_val", 12)])
    for op in STORES:
        label(op, [op], ["rs1", "rs2"], pair, places + edges2 + signs("rs2_val", "imm_val"),
              [("imm_val", 12), ("rs2_val", "xlen")])
    ways = [f"imm_val == {d} and rs1_val {c} rs2_val" for d in FAR for c in ["==", "<", ">"]]
    for op in BRANCHES:
        label(op, [op], ["rs1", "rs2"], pair,
              edges1 + edges2 + ways + corner + signs("rs1_val", "rs2_val"), [("imm_val", 12)])
    fields = ["0", "1", "2**20-1", "2**19", "2**19-1", "0x55555"]
    for op in UPPER:
        label(op, [op], ["rd"], ["rd == x0"], [f"imm_val == {v}" for v in fields], [])
    label("jal", ["jal"], ["rd"], ["rd == x0"], [f"imm_val == {d}" for d in FAR], [("imm_val", 12)])
    jumps = [0, 1, -1, 2, 3, 4, -4, 2046, 2047, -2047, -2048]
    label("jalr", ["jalr"], ["rs1", "rd"], two, [f"imm_val == {v}" for v in jumps],
          [("imm_val", 12)])
    word = "rs1_val == -2130706432"
    for op in ATOMIC:
        label(op, [op], ["rs1", "rs2", "rd"], three + pair,
              edges2 + [word, "rs1_val == 5", "rs1_val == rs2_val", "rs1_val < rs2_val"],
              [("rs2_val", "xlen")], "A")
    label("lr.w", ["lr.w"], ["rs1", "rd"], two, [word, "rs1_val == 5"], [], "A")
    label("atomic", ["lr.w"] + ATOMIC, ["rs1", "rs2", "rd"], three + pair, edges2 + [word],
          [("rs2_val", "xlen")], "A")
    print("fence:\n  mnemonics: {fence: 0}")
    ops = R + I + SHIFTS + LOADS + STORES + BRANCHES + UPPER + ["jal", "jalr", "fence"]
    label("all.in-one_1", ops, ["rs1", "rs2", "rd"], three + pair,
          edges1 + edges2 + ways + places + same, [("rs1_val", "xlen"), ("imm_val", 12)])


main()
