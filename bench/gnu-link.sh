#!/usr/bin/env bash
# Assembles TEST with GNU as and links it with ld for a core's memory, without any switch that
# changes words: text at TEXT, by default 0x80000000, and data at DATA, by default 0x81000000. MARCH
# is the instruction set as GNU as has it, by default rv32im.
#
# usage: gnu-link.sh TEST ELF [TEXT DATA]
set -eu
object=$(mktemp)
trap 'rm -f "$object"' EXIT
march=${MARCH:-rv32im}
abi=ilp32
case $march in rv32e*) abi=ilp32e ;; esac
riscv64-unknown-elf-as -march="$march" -mabi="$abi" -o "$object" "$1"
riscv64-unknown-elf-ld -m elf32lriscv -n -e "${3:-0x80000000}" -Ttext="${3:-0x80000000}" -Tdata="${4:-0x81000000}" \
    -o "$2" "$object"
