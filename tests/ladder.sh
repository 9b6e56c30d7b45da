#!/usr/bin/env bash
# examples/takeover/run.svg is what tools/ladder draws of that run, byte for byte.
set -eu
top=$(cd "$(dirname "$0")/.." && pwd)
python3 -c 'import tomllib' 2>/dev/null || { echo "ladder: skipped, there is no python3 from 3.11 on"; exit 0; }
YODA=${YODA:-$top/crates/yoda/out/yoda}
[ -x "$YODA" ] || { echo "ladder: skipped, the program is not built"; exit 0; }
export PYTHONDONTWRITEBYTECODE=1
out=$(mktemp -d)
trap 'rm -rf "$out"' EXIT
# A run of an example's folder, and the picture of it.
draw() {
  local folder=$1 trace=$2 script=$3
  "$YODA" plain "$folder/rules.toml" "$folder/$trace" "$script" "$out/out.pcap" "$out/report.txt"
  "$top/tools/ladder" "$folder/$trace" "$out/out.pcap" "$out/report.txt" "$script" >"$out/run.svg"
  python3 -c 'import sys, xml.dom.minidom; xml.dom.minidom.parse(sys.argv[1])' "$out/run.svg"
}
draw "$top/examples/takeover" trace.pcap "$top/examples/takeover/script.txt"
cmp "$out/run.svg" "$top/examples/takeover/run.svg" || { echo "ladder: examples/takeover/run.svg is another picture"; exit 1; }
: >"$out/script.txt"
draw "$top/examples" trace.pcap "$out/script.txt"
echo "ladder: the picture of examples/takeover is made again"
