#!/usr/bin/env bash
# Compares generated tests with the GNU tools and QEMU, outside the gate. For each test that
# `rvsuite generate` writes for the groups CGF (by default over all mnemonics, gnu_groups.py) under
# the specification ISA (by default of RV32IM), a file or an ISA text such as RV32IMA:
#   1. each word that `rvsuite reference` executes stands at its address in the executable that GNU
#      as and ld make of the test;
#   2. the whole image, text and data, executed or not, has the same words (gnu_words.py dump);
#   3. the signature is the one that the executable leaves on QEMU (qemu-device.sh). QEMU has the
#      registers of the base I, of which those of E are a part; under E no text names x16 to x31.
# The core's memory is where TEXT and DATA say, by default 0x80000000 and 0x81000000; QEMU has memory
# from 0x80000000 on, so elsewhere the third is left out. An ISA that is a file has to say these
# addresses itself.
# Where CGF is the word `groups`, they are those of the folder groups/, and 1 and 3 are done for its
# tests by hand (tests.yaml) that are selected too.
# Needs riscv64-unknown-elf-as, -ld, -nm and -objcopy, qemu-system-riscv32 and python3. RVSUITE
# names the program, else it is the repository's. WORK is a folder that isn't there yet; it is kept.
# What differs has a line DIFFERS, and then the exit status is 1. The last line has the counts.
#
# usage: gnu.sh [CGF [ISA [WORK]]], where an empty CGF is the default
set -u
here=$(cd "$(dirname "$0")" && pwd)
program=${RVSUITE:-$here/../rvsuite}
if [ $# -ge 3 ]; then
    work=$3
    mkdir "$work" || exit 2
else
    work=$(mktemp -d) || exit 2
    trap 'rm -rf "$work"' EXIT
fi
cgf=${1:-$work/groups.cgf}
[ -n "${1:-}" ] || python3 "$here/gnu_groups.py" >"$cgf" || exit 2
isa=${2:-RV32IM}
export TEXT=${TEXT:-0x80000000} DATA=${DATA:-0x81000000}
case $isa in RV32*)
    printf 'hart_ids: [0]\nhart0:\n  ISA: %s\n  memory_map: {text: %s, data: %s}\n' "$isa" "$TEXT" "$DATA" \
        >"$work/isa.yaml"
    isa=$work/isa.yaml
esac
MARCH=$("$program" validate --isa "$isa" | sed -n 's/^isa //p' | tr '[:upper:]' '[:lower:]')
export MARCH
cgfs=(--cgf "$cgf")
mkdir "$work/hand" || exit 2
if [ "$cgf" = groups ]; then
    isa=$(readlink -f "$isa") program=$(readlink -f "$program") work=$(readlink -f "$work")
    cd "$here/.." || exit 2
    cgfs=(--cgf groups/i.cgf --cgf groups/m.cgf --cgf groups/a.cgf --cgf groups/rows.cgf)
    "$program" select --isa "$isa" --database groups/tests.yaml | sed -n 's/^selected //p' |
        xargs cp -t "$work/hand" || exit 2
fi
"$program" generate --isa "$isa" "${cgfs[@]}" --work "$work" >"$work/generate.out" || exit 2

differs() {
    echo "DIFFERS $*"
    failed=$((failed + 1))
}

reference() {
    "$program" reference --isa "$isa" --signature "$name.sig" "$@" >/dev/null
}

section() { # the bytes of section $1 of the executable of the test $name
    riscv64-unknown-elf-objcopy -O binary -j ".$1" "$name.elf" "$name.$1"
}

named() { # whether a text under E names a register above x15
    case $MARCH in rv32e*) grep -Eq '[ ,(]x(1[6-9]|2[0-9]|3[01])\b' "$test" ;; *) false ;; esac
}

executed() {
    ! named || differs "$test: a register above x15"
    reference --test "$test" --log "$name.log" || { differs "$test: not run"; return; }
    "$here/gnu-link.sh" "$test" "$name.elf" "$TEXT" "$DATA" || { differs "$test: not linked"; return; }
    section text
    count=$(python3 "$here/gnu_words.py" log "$name.log" "$name.text") ||
        differs "$test: executed words"
    executed=$((executed + ${count:-0}))
    [ $((TEXT)) -lt $((0x80000000)) ] || same_signature
}

same_signature() {
    python3 "$here/qemu_signature.py" "$name.elf" "$name.qemu" || { differs "$test: QEMU"; return; }
    cmp "$name.sig" "$name.qemu" || differs "$test: signature"
    signature=$((signature + $(wc -l <"$name.sig")))
}

whole() {
    name=$name.dump
    python3 "$here/gnu_words.py" dump "$test" >"$name"
    reference --test "$name" --steps 2000000 || { differs "$test: dump not run"; return; }
    "$here/gnu-link.sh" "$name" "$name.elf" "$TEXT" "$DATA" || { differs "$test: dump not linked"; return; }
    section text
    section data
    count=$(wc -l <"$name.sig")
    python3 "$here/gnu_words.py" image "$name.text" "$name.data" "$count" >"$name.gnu"
    cmp "$name.sig" "$name.gnu" || differs "$test: image"
    image=$((image + ($(wc -c <"$name.text") + $(wc -c <"$name.data")) / 4 - count))
}

tests=0 cases=0 failed=0 executed=0 image=0 signature=0
for test in "$work"/*.S; do
    tests=$((tests + 1))
    cases=$((cases + $(grep -c '^#! case ' "$test")))
    name=${test%.S}
    executed
    whole
done
hand=0
for test in "$work"/hand/*.S; do
    [ -f "$test" ] || continue
    hand=$((hand + 1))
    name=${test%.S}
    executed
done
echo "$tests tests, $cases cases, $hand tests by hand, $executed executed words, $image words of images," \
    "$signature signature words: $failed differ"
[ "$failed" = 0 ]
