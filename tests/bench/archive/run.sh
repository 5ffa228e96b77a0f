#!/bin/bash
# Measures c2 as the checker of an archive: files a second over photographs of 100 kB with 1, 2 and 4 processes, beside exiftool
# and sha256sum; and time and memory of `validate` on one photograph of 100 kB, 100 MB, 500 MB and (sparse) 10 GB, and on a film of
# 500 MB.
#
#   run.sh [COUNT [PROGRAM]]      COUNT photographs, 10,000 where none is given; without a program, ./c2 of the checkout is built
set -eu
here=$(cd "$(dirname "$0")" && pwd)
export PYTHONDONTWRITEBYTECODE=1
work=$(mktemp -d "${TMPDIR:-/tmp}/archive_bench.XXXXXX")
trap 'rm -rf "$work"' EXIT
program=${2:-$here/../../../build/c2}
[ -x "$program" ] || "$here/../../../c2" >/dev/null 2>&1 || true
command -v exiftool >/dev/null && command -v /usr/bin/time >/dev/null || {
    apt-get update -qq
    DEBIAN_FRONTEND=noninteractive apt-get install -y -qq --no-install-recommends libimage-exiftool-perl time
}
failed=0
python3 "$here/photographs.py" "$work/archive" "${1:-10000}" 100000
python3 "$here/measure.py" "$program" "$work/archive" || failed=1
rm -rf "$work/archive"
for size in 100000 100000000 500000000 10000000000; do python3 "$here/photographs.py" --one "$work/$size.jpg" $size; done
python3 "$here/photographs.py" --film "$work/500000000.mp4" 500000000
python3 "$here/sizes.py" "$program" "$work"/{100000,100000000,500000000,10000000000}.jpg "$work/500000000.mp4" || failed=1
python3 "$here/taken_out.py" "$program" "$work" || failed=1
exit $failed
