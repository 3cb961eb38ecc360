#!/usr/bin/env bash
# A device: assembles and links TEST with the GNU tools, runs it on QEMU, and writes its signature
# to SIGNATURE, eight hexadecimal digits a line. The executable is kept as ELF where that is given.
# Text begins at TEXT and data at DATA.
# Needs riscv64-unknown-elf-as, -ld and -nm, qemu-system-riscv32 and python3.
#
# usage: qemu-device.sh TEST SIGNATURE TEXT DATA [ELF]
set -eu
here=$(cd "$(dirname "$0")" && pwd)
work=$(mktemp -d)
trap 'rm -rf "$work"' EXIT
elf=${5:-$work/test.elf}
"$here/gnu-link.sh" "$1" "$elf" "$3" "$4"
python3 "$here/qemu_signature.py" "$elf" "$2"
