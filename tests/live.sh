#!/usr/bin/env bash
# A small live run: two downloads and an upload between curl and web servers on Linux's own TCP, while instances crash,
# replicas fail and packets are lost, come twice or late. It skips itself where it has no privileges or a tool is missing.
set -eu
top=$(cd "$(dirname "$0")/.." && pwd)
exec "$top/examples/live/run" --downloads 2 --uploads 1 --bytes 20000 --fail 20 40 --repeat 2 --delay 2 --seconds 45
