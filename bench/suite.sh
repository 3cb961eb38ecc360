#!/usr/bin/env bash
# Builds a suite of architecture tests and runs it on QEMU, outside the gate. For the folder of
# tests SUITE (by default examples/suite/tests) and the specification ISA (by default
# examples/isa.yaml), a file or an ISA text such as RV32IMA:
#   1. examples/suite/build.sh makes the executables and the database;
#   2. `rvsuite run` judges QEMU (examples/suite/device.yaml) on each selected test: it passes;
#   3. `rvsuite reference` on each leaves the signature that `run` judged by, and a log;
#   4. `rvsuite coverage` counts the points of the groups CGF (by default examples/suite/suite.cgf)
#      in each log, and as many instructions as `reference` told;
#   5. the first test is refused where its link script has `.tohost` between two parts of text
#      (`elf 6`), and where it has none and ld isn't given -n (`elf 4`).
# Needs a gcc for RISC-V, qemu-system-riscv32 and python3. RVSUITE names the program, else it is the
# repository's; HEADERS and GCC are those of build.sh. WORK is a folder that isn't there yet; it is
# kept. What differs has a line DIFFERS, and then the exit status is 1. The last line has the
# counts.
#
# usage: suite.sh [SUITE [ISA [CGF [WORK]]]]
set -u
here=$(cd "$(dirname "$0")" && pwd)
top=$here/..
program=${RVSUITE:-$top/rvsuite}
if [ $# -ge 4 ]; then
    work=$4
    mkdir "$work" || exit 2
else
    work=$(mktemp -d) || exit 2
    trap 'rm -rf "$work"' EXIT
fi
suite=$(realpath "${1:-$top/examples/suite/tests}")
isa=${2:-$top/examples/isa.yaml}
case $isa in RV32*)
    printf 'hart_ids: [0]\nhart0:\n  ISA: %s\n  hw_data_misaligned_support: true\n' "$isa" \
        >"$work/isa.yaml"
    isa=$work/isa.yaml
esac
isa=$(realpath "$isa")
cgf=$(realpath "${3:-$top/examples/suite/suite.cgf}")
work=$(realpath "$work")
out=$work/out
failed=0 instructions=0

differs() {
    echo "DIFFERS $*"
    failed=$((failed + 1))
}

# The device file names its program from the repository's folder.
cd "$top" || exit 2
program=$(realpath "$program")
RVSUITE=$program examples/suite/build.sh "$suite" "$out" "$isa" || exit 2
"$program" select --isa "$isa" --database "$out/database.yaml" >"$work/select.out" || exit 2
mkdir "$work/run"
"$program" run --isa "$isa" --database "$out/database.yaml" --device examples/suite/device.yaml \
    --work "$work/run" >"$work/run.out"
[ $? -le 1 ] || exit 2
while read -r verdict name rest; do
    case $verdict in FAIL) differs "$name: QEMU, $rest" ;; esac
done <"$work/run.out"

test_again() { # the test $1, which is number $2 of the database
    local told counted
    told=$("$program" reference --isa "$isa" --test "$1" --signature "$work/sig" \
        --log "$work/log") || { differs "$1: not run"; return; }
    cmp -s "$work/sig" "$work/run/$2.reference.sig" || differs "$1: signature"
    "$program" coverage --isa "$isa" --cgf "$cgf" --log "$work/log" >"$work/report" ||
        { differs "$1: coverage"; return; }
    counted=$(sed -n 's/^instructions //p' "$work/report")
    [ "$counted" = "${told%% *}" ] || differs "$1: instructions"
    instructions=$((instructions + counted))
    echo "$1: $told, $(tail -1 "$work/report")"
}

refused() { # as $1, the first test as it is linked by the other words
    local line=$1 first
    shift
    first=$(find "$suite" -name '*.S' | LC_ALL=C sort | head -1)
    "${GCC:-riscv64-unknown-elf-gcc}" -march=rv32im -mabi=ilp32 -nostdlib -nostartfiles -DXLEN=32 \
        -DTEST_CASE_1=True -I "${HEADERS:-examples/suite}" -I examples/suite "$@" \
        -o "$work/refused.elf" "$first" 2>/dev/null
    "$program" reference --isa "$isa" --test "$work/refused.elf" --signature "$work/sig" \
        2>&1 | grep -q "^rvsuite: .*: $line" || differs "$first: not refused as $line"
}

index=0
while read -r said name; do
    case $said in
        selected) test_again "$name" "$index"; index=$((index + 1)) ;;
        passed) index=$((index + 1)) ;;
    esac
done <"$work/select.out"
printf 'ENTRY(rvtest_entry_point)\nSECTIONS {\n%s\n%s\n%s\n%s\n}\n' \
    '. = 0x80000000; .text.init : { *(.text.init) }' \
    '. = ALIGN(0x1000); .tohost : { *(.tohost) }' \
    '. = ALIGN(0x1000); .text : { *(.text) }' \
    '. = ALIGN(0x1000); .data : { *(.data) }' >"$work/between.ld"
refused 'elf 6$' -T "$work/between.ld"
refused 'elf 4 index ' -Wl,-Ttext=0x80000000 -Wl,-Tdata=0x81000000 -Wl,-e,0x80000000
cat "$work/run.out"
echo "$(grep -c '^selected' "$work/select.out") tests, $(grep -c '^PASS' "$work/run.out") pass on" \
    "QEMU, $instructions instructions, $failed differ"
[ "$failed" = 0 ]
