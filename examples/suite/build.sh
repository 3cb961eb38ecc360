#!/usr/bin/env bash
# Builds a suite of architecture tests for a core: makes OUT/database.yaml, with a test for each
# RVTEST_CASE line of each .S file under SUITE, and compiles those that are selected for the core of
# the specification ISA (by default examples/isa.yaml). A file with one case is the test NAME.elf,
# one with several NAME.1.elf, NAME.2.elf and so on, each with what its case defines.
# Needs a gcc for RISC-V, which GCC names. HEADERS is the folder of the suite's own arch_test.h,
# where it has one. RVSUITE names the program, else it is the repository's. What can't be built has
# a line on standard error and no test, and then the exit status is 1.
#
# usage: build.sh SUITE OUT [ISA]
set -eu
[ $# -ge 2 ] && [ -d "$1" ] || { echo 'usage: build.sh SUITE OUT [ISA]' >&2; exit 2; }
export LC_ALL=C
here=$(cd "$(dirname "$0")" && pwd)
program=${RVSUITE:-$here/../../rvsuite}
gcc=${GCC:-riscv64-unknown-elf-gcc}
headers=${HEADERS:-$here}
suite=${1%/} out=${2%/} isa=${3:-$here/../isa.yaml}
database=$out/database.yaml
declare -A entry source defines
names=() failed=0

without() { # says why the test $1 isn't there
    echo "build.sh: left out $1: $2" >&2
    failed=1
}

isa_texts() { # of the file $1
    sed -nE 's/^[[:space:]]*RVTEST_ISA\((.*)\).*/\1/p' "$1" | tr -d '" ' | tr ',' '\n'
}

isa_checks() { # what a core has to have for the ISA text $1
    grep -oE '^RV[0-9]+[IE]|[A-Y]|Z[a-z0-9]+' <<<"$1" |
        sed -E '1!s/^/.*/; s/.*/check ISA:=regex(&.*)/'
}

cases() { # what each case of the file $1 asks and defines, a line a case
    sed -nE 's|^[[:space:]]*RVTEST_CASE\([^"]*"[/ ]*([^"]*)".*|\1|p' "$1"
}

items() { # of the case $1 that begin with $2
    tr ';' '\n' <<<"$1" | sed -nE "s/^[[:space:]]+//; s/[[:space:]]+\$//; /^$2 /p"
}

is_read() { # whether each of the checks $1 is one that a database may have
    ! grep '^check ISA:=regex(' <<<"$1" | grep -qvE '^check ISA:=regex\(([A-Za-z0-9_]|\.\*)*\)$'
}

parts() { # of a test for the ISA texts $1, with the checks $2: one for each text
    local number=1 text
    while read -r text; do
        printf "    '%s':\n      check:\n" "$number"
        { isa_checks "$text"; echo "$2"; } | sed "/^\$/d; s/'/''/g; s/.*/        - '&'/"
        number=$((number + 1))
    done <<<"$1"
}

add_test() { # the test $1 of the file $2 by its case $3
    local checks
    checks=$(items "$3" check)
    is_read "$checks" || { without "$1" "a check that rvsuite doesn't read in $2: $3"; return; }
    names+=("$1")
    source[$1]=$2
    defines[$1]=$(items "$3" def | sed -E 's/^def[[:space:]]+/-D/; s/[[:space:]]//g')
    entry[$1]=$(printf "'%s':\n  parts:\n" "${1//\'/\'\'}" && parts "$(isa_texts "$2")" "$checks")
}

add_file() {
    local base=$out/${1#"$suite"/} all line number=1
    base=${base%.S}
    all=$(cases "$1")
    if [ "$(wc -l <<<"$all")" = 1 ]; then
        add_test "$base.elf" "$1" "$all"
        return
    fi
    while read -r line; do
        add_test "$base.$number.elf" "$1" "$line"
        number=$((number + 1))
    done <<<"$all"
}

write_database() {
    local name
    [ ${#names[@]} -gt 0 ] || { echo '{}' >"$database"; return; }
    for name in "${names[@]}"; do
        [ -z "${entry[$name]}" ] || echo "${entry[$name]}"
    done >"$database"
}

compile() { # the test $1
    mkdir -p "$(dirname "$1")"
    # The words of `defines` are to be cut at their line feeds.
    # shellcheck disable=SC2086
    "$gcc" -march="$march" -mabi="$abi" -static -mcmodel=medany -nostdlib -nostartfiles \
        -T "$here/link.ld" -Wl,--defsym=text_start=$text -Wl,--defsym=data_start=$data \
        -I "$headers" -I "$here" -DXLEN=32 ${defines[$1]} -o "$1" "${source[$1]}"
}

mkdir -p "$out"
core=$("$program" validate --isa "$isa") || exit 2
march=$(sed -n 's/^isa //p' <<<"$core" | tr '[:upper:]' '[:lower:]')
# Where the core has its memory.
text=$(sed -n 's/^text //p' <<<"$core") data=$(sed -n 's/^data //p' <<<"$core")
text=${text:-0x80000000} data=${data:-0x81000000}
abi=ilp32
case $march in rv32e*) abi=ilp32e ;; esac
while read -r file; do
    add_file "$file"
done < <(find "$suite" -name '*.S' | sort)
write_database
selected=$("$program" select --isa "$isa" --database "$database") || exit 2
built=0
while read -r said name; do
    [ "$said" = selected ] || continue
    if compile "$name"; then
        built=$((built + 1))
    else
        without "$name" "${source[$name]} isn't compiled"
        entry[$name]=
    fi
done <<<"$selected"
write_database
echo "$built of ${#names[@]} tests built for $march, $database"
exit $failed
