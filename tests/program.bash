# Sets PROGRAM to the built program `yoda`, building it where that has not been done.
# Building proves each crate first: with nothing kept from an earlier run that takes ten minutes and more on four
# processors, afterwards seconds.
program() {
  local top=$1 log
  PROGRAM=$top/crates/yoda/out/yoda
  [ -x "$PROGRAM" ] && return 0
  command -v rt >/dev/null || { echo "the toolchain's command rt is not on PATH" >&2; return 1; }
  echo "Building yoda. Each crate is proved before it is built: from nothing that takes ten minutes and more." >&2
  log=$(mktemp)
  # Without words the program ends with its status for wrong words, so the status says nothing of the build.
  (cd "$top/crates/yoda" && rt run) >"$log" 2>&1 || true
  [ -x "$PROGRAM" ] && { rm -f "$log"; return 0; }
  tail -20 "$log" >&2
  echo "yoda was not built" >&2
  return 1
}

# For a check that runs the program `yoda` from Python: ends with status 0 where there is no python3 from 3.11 on, and else sets
# YODA, building the program where none is named, and lets Python find the modules of tests/.
from_python() {
  local name=$1 top=$2
  python3 -c 'import tomllib' 2>/dev/null || { echo "$name: skipped, there is no python3 from 3.11 on"; exit 0; }
  [ -n "${YODA:-}" ] || { program "$top" && YODA=$PROGRAM; }
  export PYTHONPATH=$top/tests PYTHONDONTWRITEBYTECODE=1
}
