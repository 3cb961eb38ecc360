#!/usr/bin/env python3
"""Writes assembler texts that a careless assembler would be slow or large on, one file each.

usage: asm_texts.py FOLDER

Each is accepted, or refused at its end for want of the three needed symbols, so that it is read whole."""
import os
import sys

END = ".data\nbegin_signature:\nend_signature:\ntohost: .word 0\n"


def texts():
    words = ", ".join(["0x12345678"] * 8)
    yield "words8", f".word {words}\n" * (4 * 1024 * 1024 // 8)
    yield "words1", ".word 305419896\n" * (4 * 1024 * 1024)
    yield "zeros", (".word " + ", ".join(["0"] * 4096) + "\n") * 1024
    yield "long", (".word " + ", ".join(["0x" + "0" * 42 + "12345678"] * 100) + "\n") * 12400
    yield "data", ".data\n" + ".word 1\n" * (256 * 1024 - 4)
    yield "addi", "addi x1, x2, 3\n" * 1000000
    yield "empty", "\n" * 67108000
    yield "places", (".word " + ", ".join(["s"] * 100) + "\n") * 41943 + "s:\n"
    yield "branches", "".join(f"beq x1, x2, l{k}\nlui x5, %hi(d{k})\nl{k}:\n" for k in range(100000))


def main(folder):
    os.makedirs(folder, exist_ok=True)
    for name, text in texts():
        with open(os.path.join(folder, name + ".S"), "w", encoding="ascii") as file:
            file.write(text[: 67108864 - len(END)] + END)


if __name__ == "__main__":
    main(sys.argv[1])
