#!/bin/bash
# Measures `plan-collect` and `embed-collect` of files with long stores and with many manifests. Fails where one takes more than 5 s of processor time or
# 75 MB, or where an answer or a new file is another than it must be.
#
#   run.sh [SCALE [PROGRAM]]      SCALE is in percent of the full sizes; without a program, ./c2 of the checkout is built
set -eu
here=$(cd "$(dirname "$0")" && pwd)
export PYTHONDONTWRITEBYTECODE=1
work=$(mktemp -d "${TMPDIR:-/tmp}/collects_bench.XXXXXX")
trap 'rm -rf "$work"' EXIT
program=${2:-$here/../../../build/c2}
[ -x "$program" ] || "$here/../../../c2" > /dev/null 2>&1 || true
command -v /usr/bin/time > /dev/null || {
    apt-get update -qq
    DEBIAN_FRONTEND=noninteractive apt-get install -y -qq --no-install-recommends time
}
python3 "$here/long_stores.py" "$program" "$work" "${1:-100}"
