#!/usr/bin/env bash
# Runs the tests of a group file on QEMU whole, and in PARTS parts side by side, and compares: every
# file that a run leaves, and the verdicts. The groups are CGF (by default those of `gnu_groups.py`),
# the device is `qemu_signature.py` on each test's executable.
#
# usage: parts.sh [PARTS] [CGF]
#
# Needs qemu-system-riscv32 and python3. RVSUITE names the program, else it is the repository's.
# WORK is a folder that isn't there yet; it is kept. What differs has a line DIFFERS, and then the
# exit status is 1. The last line has the seconds of both.
set -eu
here=$(cd "$(dirname "$0")" && pwd)
parts=${1:-8}
program=$(realpath "${RVSUITE:-$here/../crates/rvsuite/out/rvsuite}")
work=${WORK:-$(mktemp -d)}
mkdir -p "$work/whole" "$work/parts"
groups=$work/groups.cgf
if [ $# -gt 1 ]; then cp "$2" "$groups"; else python3 "$here/gnu_groups.py" >"$groups"; fi
command="[timeout, '60', python3, '$here/qemu_signature.py', '{elf}', '{signature}']"
printf 'name: QEMU\ncommand: %s\n' "$command" >"$work/device.yaml"
run=("$program" run --isa "$here/../examples/isa.yaml" --cgf "$groups" --device "$work/device.yaml")

# a run that finds a difference ends with 1, and its verdicts say so
begun=$(date +%s)
"${run[@]}" --work "$work/whole" >"$work/whole.txt" || [ $? = 1 ]
between=$(date +%s)
seq "$parts" | xargs -P "$parts" -I{} sh -c '"$@" --part {}/'"$parts"' >'"$work"'/part-{}.txt ||
    [ $? = 1 ]' run "${run[@]}" --work "$work/parts"
ended=$(date +%s)

status=0
diff -rq "$work/whole" "$work/parts" >"$work/files" || status=1
grep -h -e ^PASS -e ^FAIL "$work"/part-*.txt | sed "s,$work/parts/,," | sort >"$work/of-parts"
grep -h -e ^PASS -e ^FAIL "$work/whole.txt" | sed "s,$work/whole/,," | sort >"$work/of-whole"
diff "$work/of-whole" "$work/of-parts" >>"$work/files" || status=1
sed 's/^/DIFFERS /' "$work/files"
files=$(find "$work/whole" -type f | wc -l)
passed=$(grep -c ^PASS "$work/of-whole" || true)
printf '%s files, %s tests, %s pass, whole %s s, in %s parts %s s\n' "$files" \
    "$(wc -l <"$work/of-whole")" "$passed" $((between - begun)) "$parts" $((ended - between))
exit $status
