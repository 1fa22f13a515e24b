#!/usr/bin/env bash
# Times the built program on generated circuits.
set -eu
top=$(cd "$(dirname "$0")/.." && pwd)
program=$top/crates/popqc/out/popqc
gates=${1:-1000000}
qubits=${2:-64}
omega=${3:-64}
[ -x "$program" ] || { echo "build the program first: rt run in crates/popqc" >&2; exit 1; }
for _ in 1 2 3; do
  start=$(date +%s%N)
  "$program" bench --seed 1 --qubits "$qubits" --gates "$gates" --omega "$omega" > /dev/null
  end=$(date +%s%N)
  echo "$gates gates on $qubits qubits with Omega $omega in $(( (end - start) / 1000000 )) ms, $(( (end - start) / gates )) ns a gate"
done
