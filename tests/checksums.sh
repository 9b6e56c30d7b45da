#!/usr/bin/env bash
# tcpdump calls each checksum correct of a capture that `yoda plain` wrote.
set -eu
top=$(cd "$(dirname "$0")/.." && pwd)
command -v tcpdump >/dev/null || { echo "checksums: skipped, there is no tcpdump"; exit 0; }
. "$top/tests/program.bash"
program "$top"
out=$(mktemp -d)
trap 'rm -rf "$out"' EXIT
inputs=$top/examples/takeover
"$PROGRAM" plain "$inputs/rules.toml" "$inputs/trace.pcap" "$inputs/script.txt" "$out/out.pcap" "$out/report.txt"
tcpdump -nvvr "$out/out.pcap" >"$out/text" 2>/dev/null
packets=$(grep -c 'length' "$out/text" || true)
right=$(grep -c 'cksum 0x[0-9a-f]* (correct)' "$out/text" || true)
wrong=$(grep -c 'incorrect\|bad cksum' "$out/text" || true)
[ "$right" -ge 1 ] && [ "$wrong" -eq 0 ] || { cat "$out/text"; echo "checksums: $right right, $wrong wrong"; exit 1; }
echo "checksums: $right right, 0 wrong"
