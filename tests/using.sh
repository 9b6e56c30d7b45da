#!/usr/bin/env bash
# The walk of docs/USING.md is what the program does: each text that it shows stands there, line by line.
set -eu
top=$(cd "$(dirname "$0")/.." && pwd)
. "$top/tests/program.bash"
program "$top"
inputs=$top/examples/takeover
out=$(mktemp -d)
trap 'rm -rf "$out"' EXIT
"$PROGRAM" plain "$inputs/rules.toml" "$inputs/trace.pcap" "$inputs/script.txt" "$out/out.pcap" "$out/report.txt"
"$PROGRAM" dump "$inputs/trace.pcap" >"$out/trace.txt"
"$PROGRAM" dump "$out/out.pcap" >"$out/out.txt"
# Shown lines are indented by four; whole texts have to stand there, one after the other. The runs of the last chapter, in
# threads, differ.
sed '/^## The same in threads/,$d' "$top/docs/USING.md" | sed -n 's/^    //p' | sed '1,/^Cookie: /d' >"$out/shown"
cat "$out/trace.txt" "$inputs/script.txt" "$out/report.txt" "$out/out.txt" >"$out/made"
diff "$out/shown" "$out/made" || { echo "using: docs/USING.md shows something else"; exit 1; }
echo "using: docs/USING.md shows what the program does"
python3 -c 'import tomllib' 2>/dev/null || { echo "using: skipped the run in threads, there is no python3 from 3.11 on"; exit 0; }
"$PROGRAM" run "$inputs/rules.toml" "$inputs/trace.pcap" "$inputs/script.txt" "$out/out.pcap" "$out/report.txt" "$out/journal.txt"
PYTHONDONTWRITEBYTECODE=1 python3 "$top/tests/journal.py" "$inputs/rules.toml" "$inputs/script.txt" "$out/report.txt" "$out/journal.txt"
