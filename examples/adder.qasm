// A ripple-carry adder of two numbers of four bits: b becomes a + b, and carry_out its last carry.
OPENQASM 2.0;
include "qelib1.inc";
qreg carry_in[1];
qreg a[4];
qreg b[4];
qreg carry_out[1];
creg sum[4];
creg carry[1];

// a = 1, b = 15
x a[0];
x b;

// majorities, from the lowest bit on
cx a[0],b[0];
cx a[0],carry_in[0];
ccx carry_in[0],b[0],a[0];
cx a[1],b[1];
cx a[1],a[0];
ccx a[0],b[1],a[1];
cx a[2],b[2];
cx a[2],a[1];
ccx a[1],b[2],a[2];
cx a[3],b[3];
cx a[3],a[2];
ccx a[2],b[3],a[3];
cx a[3],carry_out[0];

// and back
ccx a[2],b[3],a[3];
cx a[3],a[2];
cx a[2],b[3];
ccx a[1],b[2],a[2];
cx a[2],a[1];
cx a[1],b[2];
ccx a[0],b[1],a[1];
cx a[1],a[0];
cx a[0],b[1];
ccx carry_in[0],b[0],a[0];
cx a[0],carry_in[0];
cx carry_in[0],b[0];

measure b -> sum;
measure carry_out -> carry;
