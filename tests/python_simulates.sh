#!/usr/bin/env bash
# Simulates the designs of examples/ with Python's own reading of them, which shares nothing with the crates: parts and
# designs must do what their comments say, and give the traces that stand beside them.
#
# Without Python 3.10 or later nothing is simulated, and the status is 0.
set -u

tests=$(dirname "$(readlink -f "$0")")

if ! python3 -c 'import sys; sys.exit(sys.version_info < (3, 10))' 2>/dev/null; then
    printf '%s\n' "tests/python_simulates.sh: skipped: python3 isn't there, or is older than 3.10" >&2
    exit 0
fi
python3 -B "$tests/python_parts.py" || exit
python3 -B "$tests/python_designs.py" --traces
