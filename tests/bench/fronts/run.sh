#!/bin/bash
# Measures `plan-front` and `embed-front`: of a film of 500 MB beside `cp` and a digest, and of films whose tables are made to take much time or
# memory. Fails where `embed-front` of the first takes more than 1.3 of the processor time of `cp` and the digest or more than 8 MB, where a command
# over one of the others takes more than 20 s or 300 MB, or where an answer or a new file is another than it must be.
#
#   run.sh [SCALE [PROGRAM]]      SCALE is in percent of the full sizes; without a program, ./c2 of the checkout is built
set -eu
here=$(cd "$(dirname "$0")" && pwd)
export PYTHONDONTWRITEBYTECODE=1
work=$(mktemp -d "${TMPDIR:-/tmp}/fronts_bench.XXXXXX")
trap 'rm -rf "$work"' EXIT
program=${2:-$here/../../../build/c2}
[ -x "$program" ] || "$here/../../../c2" > /dev/null 2>&1 || true
command -v /usr/bin/time > /dev/null || {
    apt-get update -qq
    DEBIAN_FRONTEND=noninteractive apt-get install -y -qq --no-install-recommends time
}
failed=0
python3 "$here/long_films.py" "$program" "$work" "${1:-100}" || failed=1
python3 "$here/costly_tables.py" "$program" "$work" "${1:-100}" || failed=1
exit $failed
