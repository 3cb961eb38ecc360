#!/usr/bin/env bash
# Which bugs of broken.c, a core of RV32IMA, are found: by the groups of groups/, by its tests
# (tests.yaml), and by other groups beside them where such files are given. The core is the device
# of `rvsuite run`, on a specification with misaligned data; on each executable it tries all bugs,
# and tells which leave other words than the reference machine's. Each EACH-th bug (by default each
# 50th) has runs of its own too, as the one device, in which as many tests have to FAIL; EACH=1 does
# so for all. A line a bug: its sort, how many tests of each fail, and what the core does wrong;
# then a table by sort. The exit status is 1 where these groups and tests together miss one, find
# one of those that no test can show, or fail without any.
# Needs a C compiler (CC). RVSUITE names the program, else it is the repository's.
#
# usage: broken.sh [OTHER.cgf..]
set -u
program=$(readlink -f "${RVSUITE:-$(dirname "$0")/../rvsuite}")
others=()
for file in "$@"; do others+=(--cgf "$(readlink -f "$file")"); done
cd "$(dirname "$0")/.." || exit 2
work=$(mktemp -d) || exit 2
trap 'rm -rf "$work"' EXIT
"${CC:-cc}" -O2 -o "$work/broken" bench/broken.c || exit 2
"$work/broken" list >"$work/list"
printf 'hart_ids: [0]\nhart0:\n  ISA: RV32IMA\n  hw_data_misaligned_support: true\n' \
    >"$work/isa.yaml"
ours=(--cgf groups/i.cgf --cgf groups/m.cgf --cgf groups/a.cgf --cgf groups/rows.cgf)
hand=(--database groups/tests.yaml)

device() { # a device file: the core with the words $1
    echo "name: broken"
    echo "command: ['$work/broken', $1, '{elf}', '{signature}'${2:+, '$2'}]"
}

runs() { # `run` with the words $2.. in the folder $1
    local folder=$1
    shift
    "$program" run --isa "$work/isa.yaml" "$@" --device "$folder/device.yaml" --work "$folder" \
        >"$folder/out"
}

all() { # what fails with each bug, in lines of $work/$1.found, by the words $2..
    mkdir "$work/$1" && : >"$work/$1.found" &&
        device all "$work/$1.found" >"$work/$1/device.yaml" && runs "$work/$1" "${@:2}"
}

each() { # compares what `all` says of the bug $1 with a run of its own, for the words $3.. of $2
    local folder=$work/each failing
    rm -rf "$folder" && mkdir "$folder" && device "$1" >"$folder/device.yaml"
    runs "$folder" "${@:3}"
    failing=$(grep -c "^$1 " "$work/$2.found")
    [ "$failing" = "$(grep -c '^FAIL' "$folder/out")" ] || echo "OTHERWISE bug $1 by $2"
}

all ours "${ours[@]}" || exit 1
all hand "${hand[@]}" || exit 1
: >"$work/others.found"
[ $# = 0 ] || all others "${others[@]}" || exit 1
tests() { sed -n 's/^total \([0-9]* tests\), .* pass.*/\1/p' "$work/$1/out"; }
echo "groups: $(tests ours); by hand: $(tests hand); other groups: $([ $# = 0 ] || tests others)"

awk -v others=$# '
    FILENAME ~ /found$/ { name = FILENAME; sub(/.*\//, "", name); fails[name, $1]++; next }
    {
        number = $1; sort = $2; $1 = $2 = ""
        a = fails["ours.found", number] + 0; b = fails["hand.found", number] + 0
        c = fails["others.found", number] + 0
        printf "%-10s %3d %3d %3s %s\n", sort, a, b, others ? c : "-", $0
        if ((a + b > 0) == (sort == "unseen")) { wrong++; print "WRONG: the line before" }
        if (!(sort in bugs)) order[++sorts] = sort
        bugs[sort]++; by[sort] += a > 0; at[sort] += b > 0; both[sort] += a + b > 0
        theirs[sort] += c > 0
    }
    END {
        print "\n| sort | bugs | groups | by hand | both | other groups |"
        print "|---|---|---|---|---|---|"
        for (i = 1; i <= sorts; i++) {
            s = order[i]
            printf "| %s | %d | %d | %d | %d | %d |\n", s, bugs[s], by[s], at[s], both[s], theirs[s]
            if (s == "unseen") continue
            n += bugs[s]; x += by[s]; y += at[s]; z += both[s]; o += theirs[s]
        }
        printf "| all but unseen | %d | %d | %d | %d | %d |\n", n, x, y, z, o
        exit wrong > 0
    }' "$work"/*.found "$work/list"
status=$?
for number in $(awk -v each="${EACH:-50}" '$1 % each == 0 { print $1 }' "$work/list"); do
    each "$number" ours "${ours[@]}"
    each "$number" hand "${hand[@]}"
done >"$work/otherwise"
cat "$work/otherwise"
[ $status = 0 ] && [ ! -s "$work/otherwise" ]
