#!/usr/bin/env bash
# A hundred thousand hostile captures, rules, scripts and command lines, made from a number: attack.bash [NUMBER [CASES]]
set -eu
top=$(cd "$(dirname "$0")/.." && pwd)
. "$top/tests/program.bash"
from_python attack "$top"
python3 "$top/tests/attack.py" "$YODA" "${1:-1}" "${2:-100000}"
