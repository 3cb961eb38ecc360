#!/usr/bin/env bash
# A core that is a simulator, as a device of rvsuite: assembles the test $1, with text at $3 and data at $4, runs it, and
# writes its signature to $2.
# Needs the GNU tools for RISC-V and QEMU; for another simulator change the lines that start it.
set -eu
work=$(mktemp -d) && trap 'rm -rf "$work"' EXIT
riscv64-unknown-elf-as -march=rv32im -mabi=ilp32 -o "$work/test.o" "$1"
riscv64-unknown-elf-ld -m elf32lriscv -n --no-relax -e "$3" -Ttext="$3" -Tdata="$4" \
    -o "$work/test.elf" "$work/test.o"
address() { riscv64-unknown-elf-nm "$work/test.elf" | awk -v name="$1" '$3 == name { print "0x" $1 }'; }
begin=$(address begin_signature) end=$(address end_signature)
# The simulator runs the executable, and then the memory from begin to end is written out. QEMU isn't told when the test
# has stored 1 to `tohost`, so it is given a second.
{ sleep 1; echo "pmemsave $begin $((end - begin)) \"$work/memory\""; echo quit; } |
    qemu-system-riscv32 -M virt -bios none -display none -monitor stdio -kernel "$work/test.elf" >"$work/said"
od -An -v -t x4 -w4 "$work/memory" | tr -d ' ' >"$2"
