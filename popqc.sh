#!/usr/bin/env bash
# Runs popqc with the given arguments on standard input. Proves and builds it first, where it isn't built or a source is
# newer than it. Alone or with --help it prints its usage.
#
#     ./popqc.sh COMMAND [OPTIONS] < INPUT > OUTPUT
set -u
top=$(cd "$(dirname "$0")" && pwd) || exit 1
program=$top/crates/popqc/out/popqc

usage() {
  cat << 'END'
usage: ./popqc.sh COMMAND [OPTIONS] < INPUT > OUTPUT

  opt      write the program with the gates that are left, and a report
  check    say whether a rule applies inside a window; then the status is 1
  gen      write a generated program; reads nothing
  bench    write the report alone of optimising one; reads nothing

  --omega N        opt, check, bench  window length, 2 to 1024 (default 64)
  --workers N      opt, bench         threads, 1 to 64 (default 4)
  --drop-barriers  opt, check         remove barriers that a gate follows
  --seed N         gen, bench         seed of the generator, 0 to 2^64 - 1
  --qubits N       gen, bench         1 to 4096
  --gates N        gen, bench         0 to 1048576

The input is OpenQASM 2.0 with Clifford+T gates. Statuses: 0 done, 1 check
found a redex, 2 wrong arguments, 3 input refused, 4 input failed, 5 output
failed, 6 out of memory. The first run proves and builds the program, which
takes some minutes. docs/usage.md says more. An example:

  ./popqc.sh opt --omega 4 < examples/by-hand.qasm
END
}

# Whether the program is there, and no source is newer.
is_built() {
  [ -x "$program" ] && [ -z "$(find "$top/crates" "$top/crates.txt" -type d -name out -prune -o \
    \( -name '*.rt' -o -name '*.antt' -o -name crates.txt \) -newer "$program" -print -quit)" ]
}

# Says how many crates are done, whenever that changes.
tell_progress() {
  local of done=0 now
  of=$(grep -c '^[a-z]' "$top/crates.txt")
  while sleep 2; do
    now=$(sed '/^== summary/d' "$1" | grep -c '^== ')
    [ "$now" -eq "$done" ] || echo "popqc.sh: $now of $of crates done after $((SECONDS - start)) seconds" >&2
    done=$now
  done
}

fail() {
  grep -v -e ': proved$' -e '^statements ' -e '^logic ' "$folder/log" >&2
  echo "popqc.sh: $1 failed, as the lines above say" >&2
  exit 1
}

# Proves all crates, side by side, and builds the program. It gets the time of the start, so that a source that is changed
# meanwhile is newer.
build() {
  local start=$SECONDS folder processors
  processors=$(nproc)
  command -v rt > /dev/null || { echo "popqc.sh: rt, of the Rattle kit, isn't on the path" >&2; exit 1; }
  folder=$(mktemp -d) || exit 1
  trap 'kill "${watcher:-}" 2> /dev/null; rm -rf "$folder"' EXIT
  trap 'exit 130' INT TERM
  : > "$folder/log"
  echo "popqc.sh: proving and building popqc on $processors processors, which takes some minutes" >&2
  tell_progress "$folder/log" &
  watcher=$!
  (cd "$top/crates" && rt all check --jobs "$processors") < /dev/null > "$folder/log" 2>&1 || fail "the proof"
  kill "$watcher"
  echo "popqc.sh: all crates are proved after $((SECONDS - start)) seconds; building" >&2
  (cd "$top/crates/popqc" && rt run -- gen --seed 0 --qubits 1 --gates 0) < /dev/null > "$folder/log" 2>&1 || fail "the build"
  touch -r "$folder" "$program"
  trap - EXIT INT TERM
  rm -rf "$folder"
  echo "popqc.sh: done in $((SECONDS - start)) seconds" >&2
}

case ${1:-} in
  --help) usage; exit 0 ;;
  "") usage >&2; exit 2 ;;
esac
is_built || build
exec "$program" "$@"
