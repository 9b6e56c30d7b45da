#!/usr/bin/env bash
# tools/build tells of each crate as it is proved, and ends with the toolchain's status. A stand-in for the toolchain's
# command is run, which says what the real one does and proves nothing.
set -eu
top=$(cd "$(dirname "$0")/.." && pwd)
command -v python3 >/dev/null || { echo "build: skipped, there is no python3"; exit 0; }
out=$(mktemp -d)
trap 'rm -rf "$out"' EXIT
mkdir -p "$out/tools" "$out/bin" "$out/crates/yoda"
cp "$top/tools/build" "$out/tools/"
printf '# a remark\nlow:\nmiddle: low\nyoda: middle\n' >"$out/crates.txt"
cat >"$out/bin/rt" <<'RT'
#!/bin/sh
echo "$*" >>"$WORDS"
[ "$1" = run ] && exit 0
echo "only=0 proved=0"
printf '== low\nfn low::one: proved\nlogic=proved functions=12 sum=0\n'
printf '== middle\n'
[ "$FAULTY" = middle ] && { printf 'fn middle::two: open\nlogic=not-proved\n== summary\nlow: ok\nmiddle: failed (1)\n'; exit 1; }
printf '== yoda\nlogic=proved functions=2 may-wait=1 sum=0\n== summary\nlow: ok\nmiddle: ok\nyoda: ok\n3 of 3 crates ok\n'
RT
chmod +x "$out/bin/rt"
build() { : >"$out/words"; PATH=$out/bin:$PATH WORDS=$out/words FAULTY=$1 JOBS=3 "$out/tools/build" >"$out/text" 2>"$out/said"; }
shows() { sed 's/ ([0-9:]*)$//' "$out/text" | diff - "$1" || { echo "build: tells something else"; exit 1; }; }

build none
printf '%s\n' '3 crates are proved, 3 side by side. From nothing that takes a quarter of an hour and more.' \
  '[ 1/3] low: 12 functions proved' '[ 2/3] middle: proved before' '[ 3/3] yoda: 2 functions proved' \
  'crates/yoda/out/yoda is built' >"$out/wanted"
shows "$out/wanted"
[ "$(head -1 "$out/words")" = "all check --jobs 3" ] && grep -q '^run -- dump /.*/empty.pcap$' "$out/words" || { echo "build: runs other commands"; exit 1; }
if build middle; then echo "build: goes on past a crate that is not proved"; exit 1; fi
grep -qx '\[ 2/3\] middle: NOT PROVED ([0-9:]*)' "$out/text" && grep -qx 'middle: failed (1)' "$out/said" || { cat "$out/said"; echo "build: does not tell what failed"; exit 1; }
if grep -q '^run' "$out/words"; then echo "build: runs a program that is not proved"; exit 1; fi
echo "build: a line for each crate, and the toolchain's status"
