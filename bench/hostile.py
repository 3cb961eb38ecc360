#!/usr/bin/env python3
"""Runs `rvsuite` on inputs that a careless reader would be slow or large on, one of each sort that
`texts.py`, `asm_texts.py` and `elf_files.py` don't make, at half its size and whole: bytes, what is
answered, seconds of the processor (the better of two runs), megabytes.

usage: hostile.py PROGRAM FOLDER [NAME ..]

FOLDER is made, and keeps the last input. SCALE=0.01 makes all of them smaller."""
import itertools
import os
import random
import re
import subprocess
import sys

PROGRAM, FOLDER = os.path.abspath(sys.argv[1]), os.path.abspath(sys.argv[2])
SCALE = float(os.environ.get("SCALE", "1"))
ISA = "hart_ids: [0]\nhart0:\n  ISA: RV32IM\n"
ADD = "add:\n  mnemonics:\n    add: 0\n"
END = ".data\nbegin_signature:\nend_signature:\ntohost: .word 0\n"
HALT = "lui x5, %hi(tohost)\naddi x6, x0, 1\nsw x6, %lo(tohost)(x5)\n"
CHECK = "  parts:\n    '0':\n      check: ['check ISA:=regex(.*I.*)']\n"
MOST = 67108864
REFERENCE = "reference --isa i.yaml --test t.S --signature s"
RUN = "run --isa i.yaml --cgf c.cgf --device d.yaml --work w"
DATABASE = "run --isa i.yaml --database b.yaml --device d.yaml --work w"


def put(name, text):
    with open(os.path.join(FOLDER, name), "w", encoding="ascii") as file:
        for part in [text] if isinstance(text, str) else text:
            file.write(part)


def filled(size, parts, end=""):
    """Parts as long as they fit in front of the end, and the end."""
    room, taken = size - len(end), []
    for part in parts:
        room -= len(part)
        if room < 0:
            break
        taken.append(part)
    return "".join(taken) + end


def endless(form, start=0):
    k = start
    while True:
        yield form % k
        k += 1


def isa_name(scale):
    """The name of an extension that fills a specification."""
    put("i.yaml", ISA.replace("RV32IM", "RV32IZ" + "a" * int(65400 * scale)))
    return "validate --isa i.yaml"


def isa_keys(scale):
    """A specification of keys that aren't read."""
    put("i.yaml", filled(int(65536 * scale), endless("k%d:\n"), ISA))
    return "validate --isa i.yaml"


def device_self(scale):
    """A device's word of placeholders for rvsuite itself."""
    put("d.yaml", "name: d\ncommand: ['" + "{self}" * int(10900 * scale) + "']\n")
    return RUN


def device_test(scale):
    """The same for a test with a long name."""
    put("d.yaml", "name: d\ncommand: [d, '" + "{test}" * int(10900 * scale) + "']\n")
    place = "w" + ("/" + "d" * 200) * 19
    os.makedirs(os.path.join(FOLDER, place), exist_ok=True)
    return RUN.replace("--work w", f"--work {place}")


def device_words(scale):
    """A device of many words."""
    put("d.yaml", "name: d\ncommand: [sh, -c, 'exit 0'" + ", a" * int(21800 * scale) + "]\n")
    return RUN


def device_signature(scale):
    """A device that leaves as many words as a signature may have."""
    put("left", "0000000f\r\n" * int(262144 * scale))
    put("d.yaml", "name: d\ncommand: [cp, left, '{signature}']\n")
    return RUN


def signatures(scale):
    """Two signatures of which all words differ."""
    put("left", "0000000f\r\n" * int(262144 * scale))
    put("right", "FFFFFFF0\r\n" * int(262144 * scale))
    return "compare left right"


def image(scale):
    """The largest image."""
    text, data = int(4194304 * scale), int(262144 * scale)
    end = "tohost 81000000\nbegin 81000000\nend 81000000\n"
    words = [f"text {text}\r\n", "0000000B\r\n" * text, f"data {data}\r\n", "00000000\r\n" * data]
    put("t.img", ["rvimage 1\r\n", *words, end])
    return REFERENCE.replace("t.S", "t.img")


def image_line(scale):
    """An image with a line that never ends."""
    put("t.img", ["rvimage 1\ntext 4194304\n", "0" * int(67108000 * scale)])
    return REFERENCE.replace("t.S", "t.img")


def labels(scale):
    """A text of labels."""
    put("t.S", filled(int(MOST * scale), endless("l%d:\n"), END))
    return REFERENCE


def waiting(scale):
    """A text of words that wait for symbols that never come, each for another."""
    put("t.S", filled(int(MOST * scale), endless(".word l%d\n"), END))
    return REFERENCE


def long_line(scale):
    """A text of one line of numbers."""
    put("t.S", [".data\n.byte 0", ",0" * (int(MOST * scale) // 2 - 100), "\n", END])
    return REFERENCE


def no_order(scale):
    """A text of labels in no order, so that a look-up passes none that lie close to each other."""
    places = (0x9E3779 * k % 0x1000000 for k in itertools.count())
    put("t.S", filled(int(MOST * scale), ("l%x:\n" % place for place in places), END))
    return REFERENCE


def alike(scale):
    """Labels that a table takes for one where its hash has no key: their first 24 characters lead
    the hash of `indexmap` to 0 whatever follows."""
    word = 1 << 64
    multiplier, start = 0x9E3779B97F4A7C15, 0x243F6A8885A308D3
    letters = b"ABCDEFGHIJKLMNOPQRSTUVWXYZabcdefghijklmnopqrstuvwxyz0123456789_.$"
    rng = random.Random(1)
    while True:
        first = bytes([rng.choice(letters[:52])] + [rng.choice(letters) for _ in range(15)])
        left = int.from_bytes(first[:8], "little") ^ (start + 32) % word
        product = left * (int.from_bytes(first[8:], "little") ^ multiplier)
        state = (product % word ^ product // word).to_bytes(8, "little")
        if all(byte in letters for byte in state):
            break
    front = (first + state).decode()
    put("t.S", filled(int(MOST * scale), (f"{front}{k:08d}:\n" for k in itertools.count()), END))
    return REFERENCE


def far(scale):
    """A label of far branches, made, run and judged by the reference itself."""
    count = int(1020 * scale)
    distances = [sign + str(2048 - 4 * k) for k in range(count // 2) for sign in ("", "-")]
    keys = [f"    'imm_val == {distance}': 0\n" for distance in distances]
    put("c.cgf", ["far:\n  mnemonics: {beq: 0, bne: 0}\n  val_comb:\n", *keys])
    return RUN


def far_points(scale):
    """As many points of branches as a label may have, by registers and far distances."""
    count = int(2046 * scale)
    keys = [f"    'imm_val == {-2048 + 4 * (k % 2)} and rs1_val == {k}': 0\n" for k in range(count)]
    put("c.cgf", ["far:\n  mnemonics: {beq: 0, bne: 0}\n  val_comb:\n", *keys])
    return RUN


def limits(scale):
    """Groups at all limits at once: bytes, nodes, depth, labels, points, and points times
    mnemonics; expressions of 256 tokens."""
    names = (
        "lui auipc jal jalr beq bne blt bge bltu bgeu lb lh lw lbu lhu sb sh sw addi slti sltiu"
        " xori ori andi slli srli srai add sub sll slt sltu"
    ).split()
    deep = "datasets:\n  a: &a [" + ",".join("x" * 100) + "]\n"
    deep += "  b: &b [" + ",".join(["*a"] * 60) + "]\n  c: [" + ",".join(["*b"] * 60) + "]\n"
    deep += "  d: " + "[" * 29 + "]" * 29 + "\n"
    mnemonics = ", ".join(f"{name}: 0" for name in names)
    wide = ["wide:\n  mnemonics: {" + mnemonics + "}\n  val_comb:\n"]
    count = int(2006 * scale)
    for place in range(count):
        terms = [f"rs1_val - rs2_val == imm_val + {place}"] * 15
        terms += ["rs1_val * rs2_val == imm_val - rs1_val"] * 16
        wide.append(f"    '{' or '.join(terms)}{' ' * 600}': 0\n")
    small = [f"l{k}: {{mnemonics: {{add: 0}}}}\n" for k in range(255)]
    text = deep + "".join(small) + "".join(wide)
    put("c.cgf", [text, "#" * (int(4194303 * scale) - len(text)), "\n"])


def limits_normal(scale):
    limits(scale)
    return "normalize --isa i.yaml --cgf c.cgf"


def a_log(size):
    script = os.path.join(os.path.dirname(os.path.abspath(__file__)), "log.py")
    with open(os.path.join(FOLDER, "t.log"), "wb") as file:
        subprocess.run([sys.executable, script, str(int(size))], stdout=file, check=True)
        file.truncate(int(size))


def limits_coverage(scale):
    limits(1)
    a_log(250000 * scale)
    return "coverage --isa i.yaml --cgf c.cgf --log t.log"


def limits_propagate(scale):
    limits(1)
    a_log(250000 * scale)
    return "propagate --isa i.yaml --cgf c.cgf --log t.log --signature 0x0:0xffffffff"


def tests(scale):
    """As many tests as a database may have, each judged."""
    count = int(4096 * scale)
    put("b.yaml", [f"t/{k}.S:\n{CHECK}" for k in range(count)])
    os.makedirs(os.path.join(FOLDER, "t"), exist_ok=True)
    for k in range(count):
        put(f"t/{k}.S", HALT + END.replace("end_", ".word 7\nend_", 1))
    put("d.yaml", "name: d\ncommand: ['true']\n")
    return DATABASE


def large_tests(scale):
    """A database of large tests: 16 MiB of text each."""
    put("t.S", [HALT, ".word 1\n" * (4194304 - 3), END])
    count = int(16 * scale)
    for k in range(count):
        name = os.path.join(FOLDER, f"{k}.S")
        if not os.path.exists(name):
            os.symlink("t.S", name)
    put("b.yaml", [f"{k}.S:\n{CHECK}" for k in range(count)])
    put("d.yaml", "name: d\ncommand: ['true', '{elf}']\n")
    return DATABASE


def changed_test(scale):
    """A database whose second test the device of the first makes as long as it may be."""
    put("a.S", HALT + END)
    put("c.S", HALT + END)
    put("b.yaml", f"a.S:\n{CHECK}c.S:\n{CHECK}")
    put("d.yaml", f"name: d\ncommand: [sh, -c, 'yes nop | head -c {int(MOST * scale)} >c.S']\n")
    return DATABASE


LOG = "propagate --isa i.yaml --cgf c.cgf --log t.log --signature 0x0:0xffffffff"
LINES = 200000000


def tokens(scale):
    """A log of long lines of register names without a value."""
    line = "core   0: 3 0x80000000 (0x00600293)" + " x5" * 1353 + "\n"
    put("t.log", (line for _ in range(int(LINES * scale) // len(line))))
    return LOG


def spaces(scale):
    """A log of long lines of spaces."""
    line = "core" + " " * 4050 + "0: 3 0x80000000 (0x00600293)\n"
    put("t.log", (line for _ in range(int(LINES * scale) // len(line))))
    return LOG


def no_end(scale):
    """A log of one line."""
    put("t.log", ("x" * 1000000 for _ in range(int(LINES * scale) // 1000000)))
    return LOG


def no_lines(scale):
    """A log of empty lines."""
    put("t.log", ("\n" * 1000000 for _ in range(int(LINES * scale) // 1000000)))
    return LOG


def saves(scale):
    """A log whose every second line saves, with all places open."""
    lines = []
    for k in range(1, 32):
        word = 0x33 | k << 7 | k << 15
        lines.append(f"core   0: 3 0x80000000 (0x{word:08x}) x{k:<2} 0x00000000\n")
        lines.append(f"core   0: 3 0x80000004 (0x{0x2023 | k << 20:08x})\n")
    block = "".join(lines)
    put("t.log", (block for _ in range(int(LINES * scale) // len(block))))
    script = os.path.join(os.path.dirname(os.path.abspath(__file__)), "counted_groups.py")
    with open(os.path.join(FOLDER, "c.cgf"), "wb") as file:
        subprocess.run([sys.executable, script, "users"], stdout=file, check=True)
    return LOG


# What each has to answer: the status, and a pattern of the last line on either stream.
ROWS = {
    isa_name: (3, r"rvsuite: i.yaml: isa 4 hart0.ISA"),
    isa_keys: (0, r"unread k\d+"),
    device_self: (4, r"rvsuite: cannot run w/add.S"),
    device_test: (4, r"rvsuite: cannot run w/.*"),
    device_words: (1, r"total 1 tests, 0 pass, 1 fail"),
    device_signature: (1, r"total 1 tests, 0 pass, 1 fail"),
    signatures: (1, r"FAIL word 0 is 0000000f and fffffff0, (\d+) of \1 words differ"),
    image: (3, r"rvsuite: t.img: trap 1 pc 0x80000000 0x0000000b"),
    image_line: (3, r"rvsuite: t.img: image 1 line 3"),
    labels: (3, r"rvsuite: t.S: trap 4 pc 0x80000000 0x80000000"),
    waiting: (3, r"rvsuite: t.S: asm [58] line \d+"),
    long_line: (3, r"rvsuite: t.S: asm 9 line 2"),
    no_order: (3, r"rvsuite: t.S: trap 4 pc 0x80000000 0x80000000"),
    alike: (3, r"rvsuite: t.S: trap 4 pc 0x80000000 0x80000000"),
    far: (0, r"total 1 tests, 1 pass, 0 fail"),
    far_points: (0, r"total 1 tests, 1 pass, 0 fail"),
    limits_normal: (0, r"    '.*': 0"),
    limits_coverage: (0, r"total hit \d+ of \d+"),
    limits_propagate: (0, r"total reached \d+ of \d+"),
    tests: (1, r"total \d+ tests, 0 pass, \d+ fail"),
    large_tests: (0, r"total \d+ tests, \d+ pass, 0 fail"),
    changed_test: (3, r"rvsuite: c.S: asm .*"),
    tokens: (0, r"total reached \d+ of \d+"),
    spaces: (0, r"total reached 0 of \d+"),
    no_end: (0, r"total reached 0 of \d+"),
    no_lines: (0, r"total reached 0 of \d+"),
    saves: (0, r"total reached \d+ of \d+"),
}


def begin():
    os.makedirs(os.path.join(FOLDER, "w"), exist_ok=True)
    put("i.yaml", ISA)
    put("c.cgf", ADD)
    words = "'{self}', reference, --isa, i.yaml, --test, '{test}', --signature, '{signature}'"
    put("d.yaml", f"name: self\ncommand: [{words}]\n")


def measured(words, wanted):
    """Bytes read, the answer, and the better of two runs."""
    best = None
    for _ in range(2):
        with open(f"{FOLDER}/out", "wb") as out, open(f"{FOLDER}/err", "wb") as err:
            timed = ["/usr/bin/env", "time", "-f", "%U %S %M", "-o", f"{FOLDER}/time"]
            ran = subprocess.run(
                [*timed, PROGRAM, *words.split(" ")],
                cwd=FOLDER,
                stdin=subprocess.DEVNULL,
                stdout=out,
                stderr=err,
            )
        with open(f"{FOLDER}/time") as file:
            user, system, most = file.read().split("\n")[-2].split(" ")
        with open(f"{FOLDER}/out", "rb") as out, open(f"{FOLDER}/err", "rb") as err:
            out.seek(max(0, os.path.getsize(f"{FOLDER}/out") - 100000))
            lines = (out.read() + err.read()).decode().splitlines() or [""]
        if ran.returncode != wanted[0] or not re.fullmatch(wanted[1], lines[-1]):
            print("DIFFERS", words[:200], ran.returncode, lines[-1][:300], flush=True)
        seconds = float(user) + float(system)
        best = min(best or seconds, seconds)
    return lines[-1], best, int(most) / 1024


def size_of(words):
    """The bytes of the files that the words name."""
    names = [f"{FOLDER}/{word}" for word in words.split(" ") if word != "s"]
    return sum(os.path.getsize(name) for name in names if os.path.isfile(name))


def main():
    names = sys.argv[3:]
    for make, wanted in ROWS.items():
        if names and make.__name__ not in names:
            continue
        for part in (0.5, 1):
            begin()
            words = make(SCALE * part)
            answer, seconds, most = measured(words, wanted)
            told = f"{size_of(words)} | {answer[:60]} | {seconds:.2f} | {most:.0f}"
            print(f"| {make.__name__} | {told} |", flush=True)


main()
