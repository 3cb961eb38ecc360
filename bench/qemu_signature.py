#!/usr/bin/env python3
"""Runs an executable of a test on QEMU's RV32 machine till `tohost` is 1; writes its signature.

usage: qemu_signature.py ELF SIGNATURE [SECONDS]

QEMU (qemu-system-riscv32, machine virt, its memory from 0x80000000) is watched over its monitor.
The words from begin_signature to end_signature are written in lower-case hexadecimal digits, one a
line. Where `tohost` isn't 1 within SECONDS (60), nothing is written and the exit status is 1."""
import json
import os
import re
import subprocess
import sys
import tempfile
import time


QEMU = """qemu-system-riscv32 -M virt -bios none -display none -serial none -monitor none
    -qmp stdio -kernel""".split()


def main(elf, signature, seconds="60"):
    readelf = ["readelf", "-sW", elf]
    names = subprocess.run(readelf, check=True, capture_output=True, text=True).stdout
    found = re.findall(r"^ *\d+: ([0-9a-f]+) .* (\S+)$", names, re.M)
    at = {name: int(value, 16) for value, name in found}
    size = at["end_signature"] - at["begin_signature"]
    qemu = subprocess.Popen(
        QEMU + [elf], stdin=subprocess.PIPE, stdout=subprocess.PIPE, text=True)

    def call(command, **arguments):
        qemu.stdin.write(json.dumps({"execute": command, "arguments": arguments}) + "\n")
        qemu.stdin.flush()
        for line in qemu.stdout:
            answer = json.loads(line)
            if "return" in answer or "error" in answer:
                return answer["return"]
        sys.exit("qemu_signature.py: QEMU ended")

    try:
        call("qmp_capabilities")
        end = time.monotonic() + float(seconds)
        look = {"command-line": f"xp /1wx {at['tohost']}"}
        while " 0x00000001" not in call("human-monitor-command", **look):
            if time.monotonic() > end:
                return f"qemu_signature.py: no store to tohost within {seconds} seconds"
            time.sleep(0.005)
        call("stop")
        words = b""
        if size:
            with tempfile.TemporaryDirectory() as folder:
                memory = os.path.join(folder, "memory")
                call("pmemsave", val=at["begin_signature"], size=size, filename=memory)
                with open(memory, "rb") as file:
                    words = file.read()
    finally:
        qemu.kill()
        qemu.wait()
    with open(signature, "w") as file:
        for place in range(0, size, 4):
            file.write(f"{int.from_bytes(words[place:place + 4], 'little'):08x}\n")
    return 0


if len(sys.argv) not in (3, 4):
    sys.exit(__doc__)
sys.exit(main(*sys.argv[1:]))
