#!/usr/bin/env bash
# Times `popqc check` on circuits without a redex in the window.
set -eu
top=$(cd "$(dirname "$0")/.." && pwd)
program=$top/crates/popqc/out/popqc
gates=${1:-1000000}
omega=${2:-64}
[ -x "$program" ] || { echo "build the program first: rt run in crates/popqc" >&2; exit 1; }
folder=$(mktemp -d)
trap 'rm -rf "$folder"' EXIT
"$program" gen --seed 1 --qubits 64 --gates "$gates" | "$program" opt --omega "$omega" > "$folder/random.qasm"
awk -v gates="$gates" 'BEGIN {
  print "OPENQASM 2.0;\ninclude \"qelib1.inc\";\nqreg q[4096];"
  for (i = 0; i < gates; i++) printf "%s q[%d];\n", int(i / 4096) % 2 ? "t" : "h", i % 4096
}' > "$folder/hadamards.qasm"
# many CX from one control, and onto one target
awk -v gates="$gates" 'BEGIN {
  print "OPENQASM 2.0;\ninclude \"qelib1.inc\";\nqreg q[4096];"
  for (i = 0; i < gates; i++) printf "cx q[0],q[%d];\n", 1 + i % 4095
}' > "$folder/controls.qasm"
awk -v gates="$gates" 'BEGIN {
  print "OPENQASM 2.0;\ninclude \"qelib1.inc\";\nqreg q[4096];"
  for (i = 0; i < gates; i++) printf "cx q[%d],q[0];\n", 1 + i % 4095
}' > "$folder/targets.qasm"
for text in random hadamards controls targets; do
  start=$(date +%s%N)
  answer=$("$program" check --omega "$omega" < "$folder/$text.qasm" || true)
  end=$(date +%s%N)
  echo "$text, Omega $omega: $answer in $(( (end - start) / 1000000 )) ms"
done
