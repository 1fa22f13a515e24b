// Two registers, as one writes them by hand.
OPENQASM 2.0;
include "qelib1.inc";

qreg a[2];
qreg t[1];   // the target
creg c[2];

h a;
cx a[0],t[0]; cx a[0], t[0];   // the two undo each other
x t[0]; x t;
s a[1];

barrier a, t;
measure a -> c;
