#!/bin/bash
# Shows the judge of examples/judge each algorithm and each word, has c2 read what it prints, and runs the commands of
# examples/README.md as they are printed. Outside the gate: it wants Debian's packages and, for the first time, the network.
#
#   tests/real/judge.sh
#
# The variable C2 names another program than the repository's ./c2, PYTHON another than Debian's python3.
set -eu
here=$(cd "$(dirname "$0")" && pwd)
c2=$(realpath "${C2:-$here/../../c2}")
python=${PYTHON:-/usr/bin/python3}
export PYTHONDONTWRITEBYTECODE=1
work=$(mktemp -d)
trap 'rm -rf "$work"' EXIT

if ! "$python" -c 'import cryptography, OpenSSL' 2> /dev/null || ! command -v openssl > /dev/null; then
    apt-get update -qq
    DEBIAN_FRONTEND=noninteractive apt-get install -y -qq --no-install-recommends openssl python3-cryptography python3-openssl
fi

# The judge has to run where nothing else of the repository is.
cp -r "$here/../../examples/judge" "$work/judge"
"$python" "$here/judge_cases.py" "$work/judge/judge.py" "$c2"
