#!/usr/bin/env bash
# A thousand runs in threads over one small capture: their journals differ, and each report agrees with its own journal.
set -eu
top=$(cd "$(dirname "$0")/.." && pwd)
. "$top/tests/program.bash"
from_python thousand "$top"
out=$(mktemp -d)
trap 'rm -rf "$out"' EXIT
cd "$out"
python3 "$top/tests/thousand.py" "$YODA" "${1:-1000}"
