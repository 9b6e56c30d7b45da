#!/usr/bin/env bash
# `yoda dump` agrees with tshark, frame by frame, on captures that this script makes: both byte orders, micro- and
# nanoseconds, raw and Ethernet frames, options, padding, data, and wrong checksums.
set -eu
top=$(cd "$(dirname "$0")/.." && pwd)
command -v tshark >/dev/null || { echo "dump: skipped, there is no tshark"; exit 0; }
command -v python3 >/dev/null || { echo "dump: skipped, there is no python3"; exit 0; }
. "$top/tests/program.bash"
program "$top"
out=$(mktemp -d)
trap 'rm -rf "$out"' EXIT
python3 "$top/tests/captures.py" make "$out"
for capture in "$out"/*.pcap; do
  "$PROGRAM" dump "$capture" >"$out/ours"
  tshark -n -r "$capture" -o tcp.check_checksum:TRUE -o ip.check_checksum:TRUE -o tcp.relative_sequence_numbers:FALSE \
    -T fields -E separator=, -e ip.src -e tcp.srcport -e ip.dst -e tcp.dstport -e tcp.flags -e tcp.seq_raw -e tcp.ack_raw \
    -e tcp.window_size_value -e tcp.len -e ip.checksum.status -e tcp.checksum.status >"$out/theirs" 2>/dev/null
  python3 "$top/tests/captures.py" compare "$out/ours" "$out/theirs" || { echo "dump: $(basename "$capture") differs"; exit 1; }
done
echo "dump: $(ls "$out"/*.pcap | wc -l) captures agree with tshark"
