# A device that is the program itself. Before it runs a test it looks at how the program ends on
# other words, and at what it does to files: where it finds something wrong it leaves no signature,
# and its own status says what.
set -u
self=$1
test=$2
signature=$3

# ends WANTED WORDS..: the program, with these words, has the wanted exit status
ends() {
    wanted=$1
    shift
    "$self" "$@" >out.txt 2>err.txt
    status=$?
    [ "$status" -eq "$wanted" ] || exit "$((100 + 10 * wanted + status))"
}

# says LINE: its line for errors was this one
says() {
    read -r line <err.txt
    [ "$line" = "$1" ] || exit 90
}

# This device is started once on each test of a run.
[ ! -e "$test.$PPID" ] || exit 91
: >"$test.$PPID"

printf '00000001\n' >one.sig
printf '00000002\n' >two.sig
printf 'hart_ids: [0]\n' >bad.yaml
ends 0 compare one.sig one.sig
ends 1 compare one.sig two.sig
ends 2 compare one.sig
ends 3 validate --isa bad.yaml
ends 4 validate --isa absent.yaml
says 'rvsuite: no file absent.yaml'
# A word that is empty is a word, here one too many.
ends 2 compare one.sig one.sig ''
# What can't be opened, though it is no absent file.
ends 4 validate --isa one.sig/below
says 'rvsuite: cannot read one.sig/below'
"$self" validate --isa i.yaml >/dev/full 2>err.txt
[ $? -eq 5 ] || exit 95

# A file that was there is written anew.
printf '%s\n' 00000001 00000002 00000003 >"$signature.again"
ends 0 reference --isa i.yaml --test "$test" --signature "$signature.again"
"$self" reference --isa i.yaml --test "$test" --signature "$signature" >out.txt 2>err.txt || exit 92
ends 0 compare "$signature.again" "$signature"
exit 0
