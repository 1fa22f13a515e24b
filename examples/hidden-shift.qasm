// The hidden shift 1011 of a bent function on four qubits: the measurement gives the shift.
OPENQASM 2.0;
include "qelib1.inc";
qreg x[4];
creg shift[4];
h x;

// the shifted function
x x[0];
x x[2];
x x[3];
cz x[0],x[2];
cz x[1],x[3];
x x[0];
x x[2];
x x[3];
h x;

// its dual
cz x[0],x[2];
cz x[1],x[3];
h x;

measure x -> shift;
