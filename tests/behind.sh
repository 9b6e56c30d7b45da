#!/usr/bin/env bash
# tools/behind makes of an ordinary capture what Yoda takes, whatever frames it has; examples/trace.pcap is made so, and
# `yoda plain` carries each of its connections to its end. Then the recipes of docs/CAPTURES.md, each where its tool is.
set -eu
top=$(cd "$(dirname "$0")/.." && pwd)
python3 -c 'import tomllib' 2>/dev/null || { echo "behind: skipped, there is no python3 from 3.11 on"; exit 0; }
export PYTHONPATH=$top/tests PYTHONDONTWRITEBYTECODE=1
examples=$top/examples
out=$(mktemp -d)
trap 'rm -rf "$out"' EXIT
cd "$out"
fail() { echo "behind: $*"; exit 1; }
has() { command -v "$1" >/dev/null || { echo "behind: skipped what needs $1"; return 1; }; }
frames() { python3 "$top/tests/frames.py" "$1" "$examples/ordinary.pcap" "$1.pcap"; }
renumber() { "$top/tools/behind" "$examples/rules.toml" "$1" >"$2"; }
# An own capture is right where it gives the same trace.
same() { renumber "$1" "$1.trace" && cmp -s "$1.trace" "$examples/trace.pcap" || fail "$2"; }

python3 "$examples/make.py"
cmp ordinary.pcap "$examples/ordinary.pcap" && cmp empty.pcap "$examples/empty.pcap" || fail "examples/make.py makes other captures"
same ordinary.pcap "examples/trace.pcap is another"
for form in ethernet big nano vlan unfilled cooked cooked2; do
  frames "$form"
  same "$form.pcap" "a capture of the form $form gives another trace"
done

frames snapped
renumber snapped.pcap snapped.trace 2>snapped.txt
grep -q '^behind: .* frames left out that were not kept whole' snapped.txt || fail "cut frames are not told"
python3 "$top/tests/troubles.py" troubles.pcap
"$top/tools/behind" "$examples/takeover/rules.toml" troubles.pcap >troubles.trace 2>troubles.txt
diff - troubles.txt <<'TEXT' || fail "what cannot be kept is told otherwise"
behind: 192.0.2.7:40000: left out: its port has had a connection before
behind: 192.0.2.7:40003: left out: the capture does not have its SYN
behind: 192.0.2.7:40001: it sends no whole request head, so no server answers it
behind: 192.0.2.7:40002: no rule takes its request, so no server answers it
behind: 192.0.2.7:40004: it sends no whole request head, so no server answers it
behind: 1 frames left out that have no TCP segment over IPv4
TEXT
echo "behind: the example's trace is made again, from eight forms of its capture"

YODA=${YODA:-$top/crates/yoda/out/yoda}
[ -x "$YODA" ] || { echo "behind: skipped the rest, the program is not built"; exit 0; }
: >script.txt
plain() { "$YODA" plain "$1" "$2" script.txt out.pcap report.txt; }
status() { local s=0; "$@" 2>said.txt || s=$?; echo "$s"; }
# So many records of a report have this verdict.
count() { cut -d' ' -f3 report.txt | grep -c "^$1\$" || true; }

plain "$examples/rules.toml" "$examples/trace.pcap"
[ "$(count answered) $(count asked) $(count opened)" = "4 4 4" ] || fail "not each connection is opened"
others=$(grep -v '^records' report.txt | cut -d' ' -f3 | grep -vc '^\(answered\|waiting\|held\|asked\|opened\|forwarded\)$' || true)
[ "$others" = 0 ] || fail "$others records are not carried on"
sed -n 's/^ *\([0-9]* [0-9]* asked [0-9]* [0-9]*\)$/\1/p' "$top/docs/CAPTURES.md" >shown.txt
grep ' asked ' report.txt | diff shown.txt - || fail "docs/CAPTURES.md shows other servers"
# The script that the page suggests: instance 3 dies, and instance 0 carries the first connection to its end.
echo 'crash 3 at 22 after 1' >script.txt
plain "$examples/rules.toml" "$examples/trace.pcap"
: >script.txt
grep -qx '22 3 crashed' report.txt && grep -qx '24 0 forwarded' report.txt || fail "the crash of docs/CAPTURES.md comes otherwise"
[ "$(count crashed) $(count opened)" = "1 4" ] || fail "a connection does not outlive its instance"
plain "$examples/takeover/rules.toml" troubles.trace
[ "$(count refused)" = 1 ] || fail "the request without a rule is not refused"
[ "$(status plain "$examples/rules.toml" "$examples/empty.pcap")" = 0 ] || fail "the empty capture is refused"
echo "behind: four connections answered, asked, opened and forwarded"

# What the program says of a capture that has to be mended, then the recipe, and that the frames are then those of the
# Ethernet capture.
"$YODA" dump ethernet.pcap >right.txt
refused() { [ "$(status "$YODA" dump "$1")" = 5 ] && grep -qx "yoda: trace refused: $2" said.txt || fail "$1 is not refused for $2"; }
mended() { "$YODA" dump "$1" >mended.txt; cmp -s mended.txt right.txt || fail "the recipe $2 gives another dump"; echo "behind: $2"; }
gzip -nc ethernet.pcap >packed.pcap.gz
refused packed.pcap.gz 'magic 1f8b0800' && gunzip -c packed.pcap.gz >unpacked.pcap && mended unpacked.pcap gunzip
if has editcap; then
  editcap -F pcapng ethernet.pcap next.pcapng
  refused next.pcapng 'magic 0a0d0d0a' && editcap -F pcap next.pcapng next.pcap && mended next.pcap "editcap -F pcap"
  for form in cooked:16:113 cooked2:20:276; do
    IFS=: read -r name bytes link <<<"$form"
    refused "$name.pcap" "link $link"
    editcap -F pcap -C "$bytes" -L -T rawip "$name.pcap" "$name.raw.pcap" && mended "$name.raw.pcap" "editcap -C $bytes -L -T rawip"
  done
  editcap -F pcap -r ethernet.pcap first.pcap 1-43
  head -c -1 ethernet.pcap >cut.pcap
  refused cut.pcap "record cut at $(($(stat -c %s first.pcap)))"
  editcap -F pcap cut.pcap whole.pcap 2>/dev/null || true
  sed -i '$d' right.txt && mended whole.pcap "editcap on a file that is cut" && "$YODA" dump ethernet.pcap >right.txt
fi
if has tcprewrite; then
  "$YODA" dump unfilled.pcap | grep -qv ' badtcp sum ' && fail "unfilled sums are no bad ones"
  tcprewrite --fixcsum --infile=unfilled.pcap --outfile=filled.pcap && mended filled.pcap "tcprewrite --fixcsum"
  "$YODA" dump vlan.pcap | grep -qv ' notipv4$' && fail "VLAN frames are taken"
  tcprewrite --enet-vlan=del --infile=vlan.pcap --outfile=plain.pcap && mended plain.pcap "tcprewrite --enet-vlan=del"
fi
if has tcpdump; then
  tcpdump -r ethernet.pcap -w port.pcap 'tcp port 80' 2>/dev/null && mended port.pcap "tcpdump -r -w"
fi
"$YODA" dump snapped.pcap | grep -q ' snapcut$' || fail "frames that were cut are taken"
