#!/usr/bin/env bash
# Twice as much of what a stranger may send takes about twice the time and twice the memory.
set -eu
top=$(cd "$(dirname "$0")/.." && pwd)
. "$top/tests/program.bash"
from_python growth "$top"
python3 "$top/benchmarks/growth.py" judge
echo "growth: time and memory grow as what is sent does"
