#!/usr/bin/env bash
# Measures `rvsuite reference` without a log against a C program that runs the same image and keeps
# the same trace: seconds of user time, best of nine, of the program that `./rvsuite` has built.
# Files are kept in the folder that the second argument names.
#
# STEPS is at most 1000000, since a run has at most twice as many.
#
# usage: reference.sh [STEPS] [FOLDER]
set -eu
here=$(cd "$(dirname "$0")" && pwd)
steps=${1:-1000000}
folder=${2:-/tmp/rvsuite-bench}
program=${RVSUITE:-$here/../crates/rvsuite/out/rvsuite}
mkdir -p "$folder"
python3 "$here/image.py" "$steps" >"$folder/loop.img"
printf 'hart_ids: [0]\nhart0:\n  ISA: RV32IM\n  physical_addr_sz: 32\n  User_Spec_Version: "2.3"\n  supported_xlen: [32]\n' >"$folder/isa.yaml"
cc -O2 -o "$folder/interpreter" "$here/interpreter.c"

best() {
    for _ in 1 2 3 4 5 6 7 8 9; do
        { TIMEFORMAT=%U; time "$@" >/dev/null; } 2>&1
    done | sort -n | head -1
}

limit=$((2 * steps))
run=("$program" reference --isa "$folder/isa.yaml" --test "$folder/loop.img")
run+=(--signature "$folder/loop.sig" --steps "$limit")
printf 'C          %6.3f s\n' "$(best "$folder/interpreter" "$folder/loop.img" "$limit")"
printf 'reference  %6.3f s\n' "$(best "${run[@]}")"
