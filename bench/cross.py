#!/usr/bin/env python3
"""Writes a coverage group file with one cross point whose two places list COUNT mnemonics each.

usage: cross.py COUNT > FILE"""
import sys

OPS = "add sub xor or and sll srl sra slt sltu mul addi xori ori andi".split()
count = int(sys.argv[1])
ops = ",".join(OPS[k % len(OPS)] for k in range(count))
print("add:\n  mnemonics:\n    add: 0\n  cross_comb:")
print(f"    '[({ops}) : ({ops})] :: [a=rd : ?] :: [? : rs1==a]': 0")
