OPENQASM 2.0;
include "qelib1.inc";
qreg q[1];
// gates 2 0
// rounds 1
// calls 1
// first fingers 1
// phase 0
