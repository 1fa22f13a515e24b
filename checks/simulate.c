/* Compares pairs of small circuits by libquantum, on all basis states. checks/simulate compiles it and feeds it.

   Standard input: for each pair a line `pair WIRES PHASE`, lines `in KIND WIRE..` and `out KIND WIRE..` with the gates of the
   first and of the second circuit, and a line `end`. For each pair a line is written: `same` where the first circuit has the
   matrix of the second times e^(i pi PHASE / 4), and else `differs` with the two basis states and what stands there. */

#include <complex.h>
#include <math.h>
#include <quantum.h>
#include <stdio.h>
#include <stdlib.h>
#include <string.h>

#define MOST 100000
#define MOST_WIRES 6
/* libquantum calculates in single precision, and drops very improbable states */
#define NEAR 0.01

typedef struct { char kind[8]; int a, b, c; } Gate;
typedef struct { Gate gates[MOST]; int length; } Circuit;

static Circuit first, second;

static void apply(const Gate *gate, quantum_reg *reg)
{
  const char *kind = gate->kind;
  if (!strcmp(kind, "h")) quantum_hadamard(gate->a, reg);
  else if (!strcmp(kind, "x")) quantum_sigma_x(gate->a, reg);
  else if (!strcmp(kind, "y")) quantum_sigma_y(gate->a, reg);
  else if (!strcmp(kind, "z")) quantum_sigma_z(gate->a, reg);
  else if (!strcmp(kind, "s")) quantum_phase_kick(gate->a, M_PI / 2, reg);
  else if (!strcmp(kind, "sdg")) quantum_phase_kick(gate->a, -M_PI / 2, reg);
  else if (!strcmp(kind, "t")) quantum_phase_kick(gate->a, M_PI / 4, reg);
  else if (!strcmp(kind, "tdg")) quantum_phase_kick(gate->a, -M_PI / 4, reg);
  else if (!strcmp(kind, "cx")) quantum_cnot(gate->a, gate->b, reg);
  else if (!strcmp(kind, "cz")) quantum_cond_phase_kick(gate->a, gate->b, M_PI, reg);
  else if (!strcmp(kind, "ccx")) quantum_toffoli(gate->a, gate->b, gate->c, reg);
  else if (!strcmp(kind, "cy")) { /* Y is i X Z */
    quantum_cond_phase_kick(gate->a, gate->b, M_PI, reg);
    quantum_cnot(gate->a, gate->b, reg);
    quantum_phase_kick(gate->a, M_PI / 2, reg);
  } else if (!strcmp(kind, "swap")) {
    quantum_cnot(gate->b, gate->a, reg);
    quantum_cnot(gate->a, gate->b, reg);
    quantum_cnot(gate->b, gate->a, reg);
  } else if (strcmp(kind, "id")) { fprintf(stderr, "unknown gate %s\n", kind); exit(2); }
}

static void column(const Circuit *circuit, int state, int wires, complex double *to)
{
  quantum_reg reg = quantum_new_qureg(state, wires);
  for (int i = 0; i < circuit->length; i++) apply(&circuit->gates[i], &reg);
  for (int i = 0; i < 1 << wires; i++) to[i] = 0;
  for (int i = 0; i < reg.size; i++) to[reg.state[i]] += reg.amplitude[i];
  quantum_delete_qureg(&reg);
}

static void compare(int wires, int phase)
{
  complex double one[1 << MOST_WIRES], two[1 << MOST_WIRES];
  for (int x = 0; x < 1 << wires; x++) {
    column(&first, x, wires, one);
    column(&second, x, wires, two);
    for (int y = 0; y < 1 << wires; y++) {
      complex double turned = cexp(I * M_PI * phase / 4) * two[y];
      if (cabs(one[y] - turned) > NEAR) {
        printf("differs from %d to %d: %.3f%+.3fi and %.3f%+.3fi\n", x, y, creal(one[y]), cimag(one[y]), creal(turned), cimag(turned));
        return;
      }
    }
  }
  puts("same");
}

int main(void)
{
  char line[64], side[8];
  int wires = 0, phase = 0;
  while (fgets(line, sizeof line, stdin)) {
    if (sscanf(line, "pair %d %d", &wires, &phase) == 2) {
      if (wires < 1 || wires > MOST_WIRES) { fprintf(stderr, "%d wires\n", wires); return 2; }
      first.length = second.length = 0;
    } else if (!strcmp(line, "end\n")) {
      compare(wires, phase);
    } else {
      Gate gate = { "", 0, 0, 0 };
      if (sscanf(line, "%3s %7s %d %d %d", side, gate.kind, &gate.a, &gate.b, &gate.c) < 3) { fprintf(stderr, "bad line %s", line); return 2; }
      Circuit *circuit = strcmp(side, "in") ? &second : &first;
      if (circuit->length == MOST) { fprintf(stderr, "too many gates\n"); return 2; }
      circuit->gates[circuit->length++] = gate;
    }
  }
  return 0;
}
