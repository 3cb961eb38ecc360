#!/usr/bin/env python3
"""Writes a coverage group file near its limits: 4,194,304 bytes at most.

usage: groups.py points|wide|repeated|skipped > FILE

points    256 labels of one mnemonic and 255 expressions each, with long keys
wide      labels of 2,016 points and 32 mnemonics, one, and 255 small ones
repeated  one label whose 2,047 expressions come again from families and keys
skipped   keys that are listed and not counted, as many as fit
"""
import sys

LIMIT = 4_194_304


def long_key(label, place):
    """An expression of about 180 bytes and some 65 tokens."""
    a = label * 4096 + place
    return (
        f"(rs1_val * {a % 97 + 2} - rs2_val) % {a % 31 + 3} == {a % 3} and rs1_val != {a}"
        f" or not (rs2_val < -{a} + 2**{a % 31} and imm_val >= (xlen - {a % 30}) * 4)"
        f" and {a % 8} <= ea_align + {a % 11} < 2**{a % 20 + 1} != rs1_val + rs2_val * rs2_val"
    )


def points():
    """All labels, each with as many points as the sum allows."""
    for label in range(256):
        lines = [f"l{label}:", "  mnemonics: {add: 0}", "  val_comb:"]
        lines += [f"    '{long_key(label, place)}': 0" for place in range(255)]
        yield "\n".join(lines) + "\n"


def wide():
    """One label whose points times mnemonics are near the sum."""
    names = (
        "lui auipc jal jalr beq bne blt bge bltu bgeu lb lh lw lbu lhu sb sh sw addi slti sltiu"
        " xori ori andi slli srli srai add sub sll slt sltu"
    ).split()
    lines = ["wide:", "  mnemonics:"] + [f"    {name}: 0" for name in names] + ["  val_comb:"]
    lines += [f"    'rs1_val == {place} and rs2_val == {place * 7}': 0" for place in range(1984)]
    yield "\n".join(lines) + "\n"
    for label in range(255):
        yield f"l{label}:\n  mnemonics: {{add: 0}}\n"


def repeated():
    """Every value of the families stands as a key before them."""
    lines = ["again:", "  mnemonics: {add: 0}", "  val_comb:"]
    lines += [f"    'rs1_val == {2 ** bit}': 0" for bit in range(31)]
    lines += [f"    'rs2_val == {place}': 0" for place in range(2000)]
    lines += ["    abstract_comb:"]
    for spaces in range(2800):
        lines += [f"      'walking_ones{' ' * spaces}(\"rs1_val\", 31, False)': 0"]
    yield "\n".join(lines) + "\n"


def skipped():
    """Keys with operators that aren't read."""
    lines = ["s:", "  mnemonics: {add: 0}", "  val_comb:"]
    size = sum(len(line) + 1 for line in lines)
    place = 0
    while True:
        line = f"    'rs1_val & {place} == 0': 0"
        if size + len(line) + 1 > LIMIT:
            break
        lines.append(line)
        size += len(line) + 1
        place += 1
        if place == 499_000:
            break
    yield "\n".join(lines) + "\n"


def main():
    kinds = {"points": points, "wide": wide, "repeated": repeated, "skipped": skipped}
    if len(sys.argv) != 2 or sys.argv[1] not in kinds:
        sys.exit(__doc__)
    size = 0
    for part in kinds[sys.argv[1]]():
        size += len(part)
        if size > LIMIT:
            break
        sys.stdout.write(part)


if __name__ == "__main__":
    main()
