#!/bin/bash
# Measures c2 on stores that are made to take much time or memory: run.sh [SCALE [PROGRAM]]. Without a program, ./c2 of the checkout is built.
# Fails where a command takes more than 4 s of processor time or 700 MB, on the stores for the check list 5 s or 800 MB.
set -e
here=$(cd "$(dirname "$0")" && pwd)
work=$(mktemp -d "${TMPDIR:-/tmp}/hostile_bench.XXXXXX")
trap 'rm -rf "$work"' EXIT
program=${2:-$here/../../../build/c2}
[ -x "$program" ] || "$here/../../../c2" >/dev/null 2>&1 || true
failed=0
python3 "$here/make.py" "$work/files" "${1:-100}"
python3 "$here/measure.py" "$program" "$work/files" || failed=1
rm -rf "$work/files"
python3 "$here/checks.py" "$work/files" "${1:-100}"
python3 "$here/measure.py" "$program" "$work/files" 2 5 800 || failed=1
exit $failed
