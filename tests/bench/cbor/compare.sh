#!/bin/bash
# Measures the CBOR reader and writer beside those of an older commit: compare.sh COMMIT [SCALE]. Builds the program of this
# folder over both, prints the table with ratios, and runs both on 10,000 random inputs with equal keys, of which they must say
# the same.
set -eu
here=$(cd "$(dirname "$0")" && pwd)
top=$here/../../..
work=$(mktemp -d)
trap 'rm -rf "$work"' EXIT
mkdir "$work/new" "$work/old" "$work/inputs"
(cd "$top" && tar -c --exclude=out crates crates.txt HANDLES) | tar -x -C "$work/new"
git -C "$top" archive "$1" crates crates.txt HANDLES | tar -x -C "$work/old"
# The crates that it stands on have had other names, so each copy takes the program of its own commit.
cp -r "$here" "$work/program.new"
mkdir "$work/program.old"
git -C "$top" archive "$1:tests/bench/cbor" main.rattle uses | tar -x -C "$work/program.old"
for copy in new old; do
    mkdir -p "$work/$copy/crates/c2_cbor_bench/src"
    cp "$work/program.$copy/main.rattle" "$work/$copy/crates/c2_cbor_bench/src/main.rt"
    echo "c2_cbor_bench: $(cat "$work/program.$copy/uses")" >> "$work/$copy/crates.txt"
    # The program is run without the words that it wants; what counts is that it was built.
    (cd "$work/$copy/crates/c2_cbor_bench" && rt run > "$work/build.log" 2>&1) || true
    [ -x "$work/$copy/crates/c2_cbor_bench/out/c2_cbor_bench" ] || { tail -5 "$work/build.log"; exit 1; }
done
programs="$work/new/crates/c2_cbor_bench/out/c2_cbor_bench $work/old/crates/c2_cbor_bench/out/c2_cbor_bench"
python3 "$here/generate.py" "$work/inputs" "${2:-100}"
python3 "$here/measure.py" "${programs% *}" "$work/inputs" "${programs#* }"
python3 "$here/differ.py" $programs 10000
