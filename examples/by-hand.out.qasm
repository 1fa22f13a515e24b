OPENQASM 2.0;
include "qelib1.inc";
qreg a[2];
qreg t[1];
creg c[2];
h a[0];
h a[1];
s a[1];
barrier a[0],a[1],t[0];
measure a[0] -> c[0];
measure a[1] -> c[1];
// gates 7 3
// rounds 1
// calls 1
// first fingers 1
// phase 0
