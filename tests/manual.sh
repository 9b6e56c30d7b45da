#!/usr/bin/env bash
# The manual page has no fault that its formatter knows.
set -eu
top=$(cd "$(dirname "$0")/.." && pwd)
if command -v mandoc >/dev/null; then
  mandoc -Tlint -Wwarning "$top/docs/yoda.1"
elif command -v groff >/dev/null; then
  said=$(groff -mdoc -ww -z -Tutf8 "$top/docs/yoda.1" 2>&1)
  [ -z "$said" ] || { echo "$said"; exit 1; }
else
  echo "manual: skipped, there is neither mandoc nor groff"
  exit 0
fi
echo "manual: docs/yoda.1 is formatted without a warning"
