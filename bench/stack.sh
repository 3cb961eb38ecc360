#!/usr/bin/env bash
# Tells the least stack, in KiB, in which each command runs on the examples, and `generate` on an expression of
# 256 tokens, with the program that `./rvsuite` has built. The system's random placement of the stack, which takes
# up to 8 KiB of it, is off.
#
# usage: stack.sh
set -eu
top=$(cd "$(dirname "$0")/.." && pwd)
program=${RVSUITE:-$top/crates/rvsuite/out/rvsuite}
work=$(mktemp -d)
trap 'rm -r "$work"' EXIT
cd "$top/examples"
chain=$(printf 'rs1_val == %.0s' $(seq 126))rs1_val
printf "l:\n  mnemonics:\n    add: 0\n  val_comb:\n    '%s': 0\n" "$chain" >"$work/chain.cgf"

least() {
    for size in $(seq 20 4 1000); do
        if (ulimit -s "$size" && exec setarch -R "$program" "$@") >"$work/out" 2>&1; then
            echo "$size KiB: $*"
            return
        fi
    done
    echo "not in 1000 KiB: $*"
}

least demo 1000
least compare left.sig right.sig
least validate --isa isa.yaml
least normalize --isa isa.yaml --cgf add.cgf
least generate --isa isa.yaml --cgf addi.cgf --work "$work"
least reference --isa isa.yaml --test "$work/addi.S" --signature "$work/addi.sig" --log "$work/addi.log"
least coverage --isa isa.yaml --cgf addi.cgf --log "$work/addi.log"
least generate --isa isa.yaml --cgf "$work/chain.cgf" --work "$work"
cd "$top"
least run --isa examples/isa.yaml --cgf examples/addi.cgf --device examples/self.yaml --work "$work"
