// Two steps of Grover's search for the one state 101 of three qubits.
OPENQASM 2.0;
include "qelib1.inc";
qreg q[3];
creg c[3];
h q;

// step 1: the oracle turns the phase of 101
x q[1];
h q[2];
ccx q[0],q[1],q[2];
h q[2];
x q[1];
// and all amplitudes are turned about their mean
h q;
x q;
h q[2];
ccx q[0],q[1],q[2];
h q[2];
x q;
h q;

// step 2: the oracle turns the phase of 101
x q[1];
h q[2];
ccx q[0],q[1],q[2];
h q[2];
x q[1];
// and all amplitudes are turned about their mean
h q;
x q;
h q[2];
ccx q[0],q[1],q[2];
h q[2];
x q;
h q;

measure q -> c;
