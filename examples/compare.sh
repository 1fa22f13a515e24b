#!/usr/bin/env bash
# Runs the built program on each example, and compares what it writes with what stands beside it.
set -u
here=$(cd "$(dirname "$0")" && pwd)
program=$here/../crates/popqc/out/popqc
[ -x "$program" ] || { echo "build the program first: rt ci at the top" >&2; exit 1; }
status=0
for output in "$here"/*.out.qasm; do
  input=${output%.out.qasm}.qasm
  if "$program" opt < "$input" | cmp -s - "$output"; then
    echo "$(basename "$input"): as it stands here"
  else
    echo "$(basename "$input"): differs"
    status=1
  fi
done
exit $status
