#!/usr/bin/env bash
# A core that is a simulator, as a device of rvsuite that takes executables: runs the executable $1, and writes its
# signature to $2. Needs readelf and QEMU, and no assembler; for another simulator change the lines that start it.
set -eu
work=$(mktemp -d) && trap 'rm -rf "$work"' EXIT
elf=$1
address() { readelf -sW "$elf" | awk -v name="$1" '$8 == name { print "0x" $2 }'; }
begin=$(address begin_signature) end=$(address end_signature)
# The simulator runs the executable, and then the memory from begin to end is written out. QEMU isn't told when the test
# has stored 1 to `tohost`, so it is given a second.
{ sleep 1; echo "pmemsave $begin $((end - begin)) \"$work/memory\""; echo quit; } |
    qemu-system-riscv32 -M virt -bios none -display none -monitor stdio -kernel "$elf" >"$work/said"
od -An -v -t x4 -w4 "$work/memory" | tr -d ' ' >"$2"
