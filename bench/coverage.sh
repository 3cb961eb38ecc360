#!/usr/bin/env bash
# Measures `rvsuite coverage` and `rvsuite propagate`, for a range in which every store saves, on long
# logs against a C program that only parses them: seconds of user and system time, best of five, of the program
# that `./rvsuite` has built, each beside the C program in the same run. The logs are in the styles of
# `log.py`, the groups none and those of `counted_groups.py`. Files are made once and kept in the
# folder that the second argument names.
#
# usage: coverage.sh [BYTES] [FOLDER]
set -eu
here=$(cd "$(dirname "$0")" && pwd)
bytes=${1:-200000000}
folder=${2:-/tmp/rvsuite-bench}
program=${RVSUITE:-$here/../crates/rvsuite/out/rvsuite}
mkdir -p "$folder"
for name in small stock users; do
    python3 "$here/counted_groups.py" "$name" >"$folder/$name.cgf"
done
: >"$folder/none.cgf"
printf 'hart_ids: [0]\nhart0:\n  ISA: RV32IM\n  physical_addr_sz: 32\n  User_Spec_Version: "2.3"\n  supported_xlen: [32]\n' >"$folder/isa.yaml"
cc -O2 -o "$folder/parse" "$here/parse.c"

best() {
    for _ in 1 2 3 4 5; do
        { TIMEFORMAT='%U %S'; time "$@" >/dev/null; } 2>&1
    done | awk '{ print $1 + $2 }' | sort -n | head -1
}

report() {
    awk -v what="$1" -v seconds="$2" -v size="$size" -v c="$3" 'BEGIN {
        printf "%-32s %6.2f s %7.0f MB/s %4.0f %%\n", what, seconds, size / 1e6 / seconds, 100 * c / seconds }'
}

for style in reference spike words sail; do
    log=$folder/log-$style-$bytes
    [ -f "$log" ] || python3 "$here/log.py" "$bytes" "$style" >"$log"
    size=$(stat -c %s "$log")
    c=$(best "$folder/parse" "$log")
    report "$style: C, parsing alone" "$c" "$c"
    for name in none small stock users; do
        report "$style: coverage, $name.cgf" \
            "$(best "$program" coverage --isa "$folder/isa.yaml" --cgf "$folder/$name.cgf" --log "$log")" "$c"
    done
    for name in small stock users; do
        report "$style: propagate, $name.cgf" \
            "$(best "$program" propagate --isa "$folder/isa.yaml" --cgf "$folder/$name.cgf" --log "$log" \
            --signature 0x0:0xffffffff)" "$c"
    done
done
