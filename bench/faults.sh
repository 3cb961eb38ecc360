#!/usr/bin/env bash
# Tries the program where the system fails it, outside the gate: one call of every command, each in
# a folder of its own. What comes of a fault has to be what the whole call does up to there: its
# output a front of the whole one, its files whole up to a front of what one is to be and none behind
# it, its inputs as they were, and its status and line as docs/FORMATS.md has them. The parts:
#   memory   each request for memory refused in turn, by a library in front of the C library's
#            (refuse.c): status 6 and its line
#   space    the room of the process limited (ulimit -v), in steps
#   files    files, and then the output, that take so many bytes and no more, for each number
#   disk     a disk (tmpfs) that is full but for so many pages; wants leave to mount one
#   streams  input, output and errors closed, an output that is full, or that has no reader
#   devices  devices that a signal ends, that write nothing or without end, leave children behind,
#            leave a folder or a link, spoil the test and the inputs, or can't be started
#   inputs   each input cut off behind each of its bytes, and with each byte changed in turn
# Needs cc and python3. RVSUITE names the program, else it is the one that `./rvsuite` built. What
# is otherwise has a line DIFFERS, and then the exit status is 1.
#
# usage: faults.sh [PART ..], by default all
set -eu
here=$(cd "$(dirname "$0")" && pwd)
program=${RVSUITE:-$here/../crates/rvsuite/out/rvsuite}
refuse=$(mktemp -d)
trap 'rm -r "$refuse"' EXIT
cc -O2 -Wall -shared -fPIC -o "$refuse/refuse.so" "$here/refuse.c"
python3 "$here/faults.py" "$program" "$refuse/refuse.so" "$@"
