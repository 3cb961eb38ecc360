#!/usr/bin/env bash
# Compares random assembler texts with GNU as and ld, outside the gate: all words of text and data,
# executed or not, are those of the executable. GNU as fills a section up to its alignment, so its
# text is cut at its end. Needs riscv64-unknown-elf-as, -ld, -nm and -objcopy and python3. RVSUITE
# names the program, else it is the repository's. What differs has a line DIFFERS, and then the exit
# status is 1.
#
# usage: gnu_random.sh [FIRST [COUNT]]
set -u
here=$(cd "$(dirname "$0")" && pwd)
program=${RVSUITE:-$here/../rvsuite}
first=${1:-1} count=${2:-100}
work=$(mktemp -d) || exit 2
trap 'rm -rf "$work"' EXIT
printf 'hart_ids: [0]\nhart0:\n  ISA: RV32IM\n' >"$work/isa.yaml"

image() { # the image of the text of seed $1, by rvsuite in ours, by the GNU tools in theirs
    python3 "$here/gnu_random.py" "$1" >"$work/test.S" &&
        python3 "$here/gnu_words.py" dump "$work/test.S" >"$work/dump.S" &&
        "$program" reference --isa "$work/isa.yaml" --test "$work/dump.S" \
            --signature "$work/ours" --steps 2000000 >/dev/null &&
        "$here/gnu-link.sh" "$work/dump.S" "$work/elf" 2>/dev/null || return
    for part in text data; do
        riscv64-unknown-elf-objcopy -O binary -j ".$part" "$work/elf" "$work/$part" || return
    done
    local end
    end=$(riscv64-unknown-elf-nm "$work/elf" | sed -n 's/^8\([0-9a-f]*\) t gnu_end$/\1/p')
    truncate -s $((16#$end)) "$work/text"
    python3 "$here/gnu_words.py" image "$work/text" "$work/data" "$(wc -l <"$work/ours")" \
        >"$work/theirs"
}

failed=0 words=0
for seed in $(seq "$first" $((first + count - 1))); do
    if image "$seed" && cmp "$work/ours" "$work/theirs"; then
        words=$((words + $(wc -l <"$work/ours")))
    else
        echo "DIFFERS seed $seed"
        failed=$((failed + 1))
    fi
done
echo "$count texts, $words words: $failed differ"
[ "$failed" = 0 ]
