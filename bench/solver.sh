#!/usr/bin/env bash
# Measures `rvsuite generate` on the files of solver.py: seconds of user time, best of five, of the
# program that `./rvsuite` has built, and the last line that it prints. Files are kept in the folder
# that the argument names.
#
# usage: solver.sh [FOLDER]
set -eu
here=$(cd "$(dirname "$0")" && pwd)
folder=${1:-/tmp/rvsuite-bench}
program=${RVSUITE:-$here/../crates/rvsuite/out/rvsuite}
mkdir -p "$folder/work"
printf 'hart_ids: [0]\nhart0:\n  ISA: RV32IM\n  physical_addr_sz: 32\n  User_Spec_Version: "2.3"\n  supported_xlen: [32]\n' >"$folder/isa.yaml"
for name in stock one every wide worst; do
    python3 "$here/solver.py" "$name" >"$folder/$name.cgf"
    run=("$program" generate --isa "$folder/isa.yaml" --cgf "$folder/$name.cgf" --work "$folder/work")
    seconds=$(for _ in 1 2 3 4 5; do { TIMEFORMAT=%U; time "${run[@]}" >"$folder/$name.out"; } 2>&1; done | sort -n | head -1)
    printf '%-6s %6.3f s  %s\n' "$name" "$seconds" "$(tail -n 1 "$folder/$name.out")"
done
