#!/bin/bash
# Measures readers, outside the gate.
#
#   tests/bench/run.sh NAME [SCALE [MORE..]]      NAME is a folder beside this file; SCALE is in percent of the inputs' full size
#
# Builds the program NAME/main.rattle over the crates that NAME/uses lists, in a copy of the repository, makes the inputs by
# NAME/generate.py, and prints the table of NAME/measure.py, which is handed MORE (the number of runs, and for `cover` a built
# c2). The program is no crate of the repository, so no gate waits for it.
set -eu
here=$(cd "$(dirname "$0")" && pwd)
name=${1:?"which of: $(cd "$here" && echo */)"}
bench=$here/${name%/}
crate=c2_${name%/}_bench
work=$(mktemp -d)
trap 'rm -rf "$work"' EXIT
mkdir "$work/repository" "$work/inputs"
(cd "$here/../.." && tar -c --exclude=out crates crates.txt HANDLES) | tar -x -C "$work/repository"
mkdir -p "$work/repository/crates/$crate/src"
cp "$bench/main.rattle" "$work/repository/crates/$crate/src/main.rt"
echo "$crate: $(cat "$bench/uses")" >> "$work/repository/crates.txt"
cd "$work/repository/crates/$crate"
# The program is run without the words that it wants; what counts is that it was built.
rt run > "$work/build.log" 2>&1 || true
program=out/$crate
[ -x "$program" ] || { tail -5 "$work/build.log"; exit 1; }
python3 "$bench/generate.py" "$work/inputs" "${2:-100}"
python3 "$bench/measure.py" "$program" "$work/inputs" "${@:3}"
