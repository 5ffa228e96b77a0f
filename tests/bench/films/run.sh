#!/bin/bash
# Measures c2 on BMFF files whose binding is made to take much time: run.sh [SCALE [PROGRAM]]. Without a program, ./c2 of the
# checkout is built. Fails where a command takes more than 20 s of processor time or 900 MB, or where `validate` answers another
# thing than it must.
set -e
here=$(cd "$(dirname "$0")" && pwd)
work=$(mktemp -d "${TMPDIR:-/tmp}/films_bench.XXXXXX")
trap 'rm -rf "$work"' EXIT
program=${2:-$here/../../../build/c2}
[ -x "$program" ] || "$here/../../../c2" >/dev/null 2>&1 || true
python3 "$here/costly_films.py" "$work/files" "${1:-100}"
python3 "$here/../hostile/measure.py" "$program" "$work/files" 1 20 900
