#!/usr/bin/env python3
"""Compares the words of a test as rvsuite makes them with those of GNU's executable, for gnu.sh.

usage: gnu_words.py log LOG TEXT
           checks that each executed word of rvsuite's LOG stands at its address in TEXT, the bytes
           from the address on that the variable TEXT has, by default 0x80000000, and prints how
           many there are
       gnu_words.py dump TEST
           prints TEST with a jump over all of it in front, to a loop that copies text and data,
           executed or not, into the signature, so that rvsuite's signature is its image
       gnu_words.py image TEXT DATA WORDS
           prints the signature of WORDS words that such a dump has by GNU's TEXT and DATA
"""
import os
import re
import struct
import sys


def words_of(name):
    with open(name, "rb") as file:
        bytes_ = file.read()
    return list(struct.unpack(f"<{len(bytes_) // 4}I", bytes_[: len(bytes_) // 4 * 4]))


def log(log_name, text_name):
    text, count = words_of(text_name), 0
    base = int(os.environ.get("TEXT", "0x80000000"), 16)
    for line in open(log_name):
        found = re.match(r"core +0: 3 0x([0-9a-f]{8}) \(0x([0-9a-f]{8})\)", line)
        at, word = (int(x, 16) for x in found.groups())
        place = (at - base) // 4
        if not 0 <= place < len(text) or text[place] != word:
            has = "".join(f"0x{other:08x}" for other in text[place : place + 1])
            sys.exit(f"{log_name}: at 0x{at:08x} is 0x{word:08x}, in GNU's text {has or 'nothing'}")
        count += 1
    print(count)


LOOP = """gnu_dump:
    lui x7, %hi(begin_signature)
    addi x7, x7, %lo(begin_signature)
    lui x5, %hi(_start)
    addi x5, x5, %lo(_start)
    lui x6, %hi(gnu_end)
    addi x6, x6, %lo(gnu_end)
gnu_text:
    lw x8, 0(x5)
    sw x8, 0(x7)
    addi x5, x5, 4
    addi x7, x7, 4
    bne x5, x6, gnu_text
    lui x5, %hi(scratch)
    addi x5, x5, %lo(scratch)
    lui x6, %hi(begin_signature)
    addi x6, x6, %lo(begin_signature)
gnu_data:
    lw x8, 0(x5)
    sw x8, 0(x7)
    addi x5, x5, 4
    addi x7, x7, 4
    bne x5, x6, gnu_data
    lui x5, %hi(tohost)
    addi x5, x5, %lo(tohost)
    addi x6, x0, 1
    sw x6, 0(x5)
gnu_end:
"""


def dump(name):
    """The copy has room for all that the statements make, and its words behind the image stay 0."""
    lines = open(name).read().split("\n")
    room = 64
    for line in lines:
        directive = re.match(r"\s+\.(fill|zero|align|p2align) (\d+)", line)
        name, count = directive.groups() if directive else ("", line.count(",") + 1)
        room += 2 ** int(count) if "align" in name else int(count)
    left_out = r"(begin|end)_signature:|#! steps"
    text = "\n".join(line for line in lines if not re.match(left_out, line))
    text = text.replace("\n_start:\n", "\n_start:\n    j gnu_dump\n", 1)
    text = text.replace("\n    .data\n", "\n" + LOOP + "    .data\n", 1)
    print(f"{text}begin_signature:\n    .fill {room}, 4, 0\nend_signature:")


def image(text_name, data_name, words):
    text, data = words_of(text_name), words_of(data_name)
    front = len(data) - int(words)
    for word in text + data[:front] + [0] * (int(words) - len(text) - front):
        print(f"{word:08x}")


if len(sys.argv) > 1 and sys.argv[1] in ("log", "dump", "image"):
    globals()[sys.argv[1]](*sys.argv[2:])
else:
    sys.exit(__doc__)
