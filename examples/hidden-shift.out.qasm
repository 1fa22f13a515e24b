OPENQASM 2.0;
include "qelib1.inc";
qreg x[4];
creg shift[4];
h x[0];
h x[1];
z x[2];
cx x[0],x[2];
x x[2];
z x[2];
cx x[1],x[3];
z x[1];
cx x[2],x[0];
cx x[3],x[1];
h x[2];
h x[3];
measure x[0] -> shift[0];
measure x[1] -> shift[1];
measure x[2] -> shift[2];
measure x[3] -> shift[3];
// gates 30 12
// rounds 1
// calls 1
// first fingers 1
// phase 0
