#!/usr/bin/env bash
# Each allocation of the program is refused in turn. Words are names of rows; without any all are run.
set -eu
top=$(cd "$(dirname "$0")/.." && pwd)
for tool in cc python3; do command -v $tool >/dev/null || { echo "refused: skipped, there is no $tool"; exit 0; }; done
. "$top/tests/program.bash"
from_python refused "$top"
out=$(mktemp -d)
trap 'rm -rf "$out"' EXIT
cc -O2 -Wall -Wextra -shared -fPIC -o "$out/refuse.so" "$top/tests/refuse.c"
python3 "$top/tests/refused.py" "$YODA" "$out/refuse.so" "$@"
