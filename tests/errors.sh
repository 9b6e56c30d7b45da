#!/usr/bin/env bash
# Each line that the program writes to standard error comes with its status from the cause that docs/ERRORS.md names, and
# stands there.
set -eu
top=$(cd "$(dirname "$0")/.." && pwd)
YODA=${YODA:-$top/crates/yoda/out/yoda}
[ -x "$YODA" ] || { echo "errors: skipped, the program is not built"; exit 0; }
out=$(mktemp -d)
trap 'rm -rf "$out"' EXIT
cd "$out"
cp "$top/examples/takeover/"{rules.toml,trace.pcap,script.txt} .
: >nothing
cases=0
fail() { echo "errors: $*"; exit 1; }
# STATUS LINE SHOWN WORD ..: the program run with the words ends with the status and writes the line, and the page shows it.
says() {
  local status=$1 line=$2 shown=$3 got=0
  shift 3
  "$YODA" "$@" >text 2>said || got=$?
  [ "$got" = "$status" ] && [ "$(cat said)" = "yoda: $line" ] || fail "$* ends with $got and says: $(cat said)"
  grep -qF -- "$shown" "$top/docs/ERRORS.md" || fail "docs/ERRORS.md does not show $shown"
  cases=$((cases + 1))
}
usage() { says 2 'usage: plain RULES TRACE SCRIPT OUT REPORT, run RULES TRACE SCRIPT OUT REPORT JOURNAL, drive FLOWS BYTES NUMBER, dump TRACE' 'yoda: usage: plain RULES' "$@"; }
plain() { local status=$1 line=$2 shown=$3; shift 3; says "$status" "$line" "$shown" plain "${@:-rules.toml}" trace.pcap script.txt out.pcap report.txt; }
bytes() { printf "$(sed 's/ *\(..\)/\\x\1/g' <<<"$1")"; }
HEADER='d4c3b2a1 02000400 00000000 00000000 ffff0000'

usage
usage --help
usage dump
usage dump trace.pcap more
usage dump ''
usage plain rules.toml trace.pcap script.txt trace.pcap report.txt
usage plain rules.toml trace.pcap script.txt - report.txt
usage run rules.toml trace.pcap script.txt out.pcap report.txt
usage run rules.toml trace.pcap script.txt out.pcap report.txt -

says 3 'read fault: gone.pcap' 'read fault: NAME' dump gone.pcap
says 3 'read fault: .' 'it is a folder' dump .
says 3 'read fault: /dev/fd/9' 'it is a pipe or a device' dump /dev/fd/9 9< <(cat trace.pcap)
says 4 'write fault: gone/out.pcap' 'write fault: NAME' plain rules.toml trace.pcap script.txt gone/out.pcap report.txt
says 4 'write fault: gone/journal.txt' 'write fault: NAME' run rules.toml trace.pcap script.txt sent.pcap told.txt gone/journal.txt
[ ! -w /dev/full ] || says 4 'write fault: /dev/full' 'the disk is full' plain rules.toml trace.pcap script.txt /dev/full report.txt

trace() { bytes "$1" >bad.pcap; says 5 "trace refused: $2" "$3" dump bad.pcap; }
trace '' 'header cut at 0' 'header cut at N'
trace '0a0d0d0a 6c000000 4d3c2b1a 01000000 ffffffff ffffffff' 'magic 0a0d0d0a' 'magic 0a0d0d0a'
trace '1f8b0800 00000000 00000000 00000000 00000000 00000000' 'magic 1f8b0800' 'magic 1f8b....'
trace '28b52ffd 00000000 00000000 00000000 00000000 00000000' 'magic 28b52ffd' 'magic 28b52ffd'
trace 'd4c3b2a1 02000300 00000000 00000000 ffff0000 01000000' 'version 2.3' 'version A.B'
trace "$HEADER 71000000" 'link 113' 'link N'
trace "$HEADER 65000000 00" 'record cut at 24' 'record cut at N'
trace "$HEADER 65000000 00000000 00000000 01000400 01000400" 'record too large at 24' 'record too large at N'

# A command that is done ends with 0 and says nothing; an input above its limit does not hide one that is missing.
silent() { "$YODA" "$@" >text 2>said && [ ! -s said ] || fail "$* says: $(cat said)"; cases=$((cases + 1)); }
silent plain rules.toml trace.pcap script.txt sent.pcap report.txt
silent plain rules.toml trace.pcap script.txt sent.pcap -
silent run rules.toml trace.pcap script.txt sent.pcap - journal.txt
silent dump trace.pcap
truncate -s 1048577 long.toml
says 3 'read fault: gone.pcap' 'read fault: NAME' plain long.toml gone.pcap script.txt out.pcap report.txt

# One change of the rules makes one fault.
rules() { sed "$1" rules.toml >bad.toml; plain 6 "rules refused: $2" "$3" bad.toml; }
rules 's/^shards = 4/shards =/' syntax '`syntax`'
rules 's/^port = 80$//' 'missing service.port' '`missing NAME`'
rules 's/^instances = 2/instances = "2"/' 'form instances' '`form NAME`'
rules 's/10\.0\.0\.1"/10.0.0.01"/' 'form server.0.address' '`form NAME`'
rules 's/^shards = 4/shards = 6/' 'range shards 6' '`range NAME VALUE`'
rules 's/^copies = 3/copies = 4/' 'range copies 4' '`range NAME VALUE`'
rules '1i color = 1' 'extra color' '`extra NAME`'
rules 's/^name = "b"/name = "a"/' 'twice a' '`twice NAME`'
rules 's/^to = \["a"\]/to = ["c"]/' 'unknown server c' '`unknown server NAME`'
rules 's/^weights = \[1, 1\]/weights = [0, 0]/' 'zero total 2' '`zero total N`'

script() { printf "$1" >bad.txt; says 7 "script refused: line $2" "$3" plain rules.toml trace.pcap bad.txt out.pcap report.txt; }
script '# two spaces\ngive  1 0\n' '2 form' '`form`'
script 'give 01 0\n' '1 form' 'a leading zero'
script 'give 1 2\n' '1 range' '`range`'
script 'fail 3 at 1\n' '1 range' '`range`'
script 'give 1 0\ngive 1 1\n' '2 twice' '`twice`'
script 'back 0 at 1\n' '1 order' '`order`'

plain 8 'limit: rules bytes 1048577' 'rules bytes N' long.toml
says 8 'limit: script bytes 1048577' 'script bytes N' plain rules.toml trace.pcap long.toml out.pcap report.txt
truncate -s 67108865 long.pcap
says 8 'limit: trace bytes 67108865' 'trace bytes N' dump long.pcap
bytes "$HEADER 65000000" >many.pcap
truncate -s $((24 + 262145 * 16)) many.pcap
says 8 'limit: trace records 262145' 'trace records 262145' dump many.pcap

# Every verdict has its row.
for verdict in $(grep -o 'write!(f, "[a-z0-9]*' "$top/crates/report_text/src/verdict.rt" | sed 's/.*"//'); do
  case $verdict in answered | asked | opened | forwarded | toolong | badhead | norule | '') continue ;; esac
  grep -q "^|.*\`$verdict[ \`]" "$top/docs/ERRORS.md" || fail "docs/ERRORS.md has no row for $verdict"
done
[ ! -e out.pcap ] || fail "a refused command has written its output"
echo "errors: $cases commands end as docs/ERRORS.md says"
