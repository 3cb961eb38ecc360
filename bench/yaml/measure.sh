#!/usr/bin/env bash
# Measures `rvsuite normalize` on texts that a careless reader of YAML would be slow or large on:
# processor seconds, megabytes, and what is answered. It runs the program that `./rvsuite` has built,
# and no part of the gate runs it.
#
# usage: measure.sh [BYTES ..]    with no sizes: 65536 1048576 4100000
# Group files may have 4,194,304 bytes; a text that came out longer is left out.
set -u
here=$(cd "$(dirname "$0")" && pwd) || exit 2
program=${RVSUITE:-$here/../../crates/rvsuite/out/rvsuite}
isa=$here/../../examples/isa.yaml
seconds=${SECONDS_AT_MOST:-45}
texts=$(mktemp -d) || exit 2
trap 'rm -r "$texts"' EXIT
[ $# -gt 0 ] || set -- 65536 1048576 4100000

measured() {
    ulimit -t "$seconds"
    /usr/bin/env time -f '%U %S %M' -o "$texts/time" \
        "$program" normalize --isa "$isa" --cgf "$1" 2>&1 | head -c 60 | tr '\n' ' '
}

for size in "$@"; do
    python3 "$here/texts.py" "$size" "$texts" || exit 2
    for text in "$texts"/*_"$size".yaml; do
        [ "$(stat -c %s "$text")" -le 4194304 ] || continue
        answer=$(measured "$text" | sed "s|$texts/||g")
        tail -n 1 "$texts/time" | awk -v n="$(basename "$text" .yaml)" -v a="$answer" \
            '{ printf "| %s | %.2f | %d | %s |\n", n, $1 + $2, $3 / 1024, a }'
    done
done
