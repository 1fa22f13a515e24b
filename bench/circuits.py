"""Circuits of kinds that people compile, as lists of gates, and what is counted of such a list. A gate is (kind, wires)."""

import random

PHASES = {"t": 1, "s": 2, "z": 4, "sdg": 6, "tdg": 7}


class Circuit:
    def __init__(self):
        self.gates, self.wires = [], 0

    def register(self, size):
        self.wires += size
        return list(range(self.wires - size, self.wires))

    def __getattr__(self, kind):
        """circuit.h(a), circuit.cx(a, b) and so on put a gate at the end"""
        return lambda *wires: self.gates.append((kind, wires))

    def ccx(self, a, b, c):
        self.h(c)
        self.ccz_on_last(a, b, c)
        self.h(c)
        self.ccz_on_others(a, b)

    def ccz(self, a, b, c):
        self.ccz_on_last(a, b, c)
        self.ccz_on_others(a, b)

    def ccz_on_last(self, a, b, c):
        for control, phase in ((b, self.tdg), (a, self.t), (b, self.tdg), (a, self.t)):
            self.cx(control, c)
            phase(c)

    def ccz_on_others(self, a, b):
        self.t(b)
        self.cx(a, b)
        self.t(a)
        self.tdg(b)
        self.cx(a, b)

    def cz(self, a, b):
        self.h(b)
        self.cx(a, b)
        self.h(b)

    def cs(self, a, b):
        self.t(a)
        self.t(b)
        self.cx(a, b)
        self.tdg(b)
        self.cx(a, b)


def add(circuit, carry, one, two):
    """two becomes one + two: a ripple-carry adder by majorities"""
    below = [carry, *one[:-1]]
    for c, a, b in zip(below, one, two):
        circuit.cx(a, b)
        circuit.cx(a, c)
        circuit.ccx(c, b, a)
    for c, a, b in reversed(list(zip(below, one, two))):
        circuit.ccx(c, b, a)
        circuit.cx(a, c)
        circuit.cx(c, b)


def adder(bits=270):
    circuit = Circuit()
    add(circuit, *circuit.register(1), circuit.register(bits), circuit.register(bits))
    return circuit


def multi_controlled(controls=170):
    """a Toffoli gate with many controls, which borrows wires and gives them back as they were"""
    circuit = Circuit()
    c, borrowed, target = circuit.register(controls), circuit.register(controls - 2), circuit.register(1)
    targets = [*borrowed, *target]
    down = [(c[i + 1], targets[i - 1], targets[i]) for i in range(len(targets) - 1, 0, -1)]
    for part in (down, down[1:]):
        for toffoli in part:
            circuit.ccx(*toffoli)
        circuit.ccx(c[0], c[1], targets[0])
        for toffoli in reversed(part):
            circuit.ccx(*toffoli)
    return circuit


def multiplier(bits=12):
    """the product of two numbers, by additions of one of them times each bit of the other"""
    circuit = Circuit()
    one, two, part, total, carry = (circuit.register(n) for n in (bits, bits, bits + 1, 2 * bits, 1))
    for place, bit in enumerate(one):
        for times in (0, 1):
            for b, p in zip(two, part):
                circuit.ccx(bit, b, p)
            if times == 0:
                add(circuit, *carry, part, total[place : place + bits + 1])
    return circuit


def all_ones(circuit, wires, helpers):
    """a minus where all wires are one, by a ladder of Toffoli gates on helpers that are zero"""
    ladder = [(wires[0], wires[1], helpers[0])]
    ladder += [(wires[i + 1], helpers[i - 1], helpers[i]) for i in range(1, len(wires) - 2)]
    for toffoli in ladder:
        circuit.ccx(*toffoli)
    circuit.cz(ladder[-1][2], wires[-1])
    for toffoli in reversed(ladder):
        circuit.ccx(*toffoli)


def grover(bits=10, steps=20, wanted=0b1011001110):
    circuit = Circuit()
    wires, helpers = circuit.register(bits), circuit.register(bits - 2)
    zeros = [wire for wire in wires if not wanted >> wire & 1]
    for wire in wires:
        circuit.h(wire)
    for _ in range(steps):
        for flipped, mixed in ((zeros, []), (wires, wires)):
            for kind, group in (("h", mixed), ("x", flipped)):
                for wire in group:
                    getattr(circuit, kind)(wire)
            all_ones(circuit, wires, helpers)
            for kind, group in (("x", flipped), ("h", mixed)):
                for wire in group:
                    getattr(circuit, kind)(wire)
    return circuit


def hidden_shift(half=40, terms=340):
    """the shift of a bent function: a product of two halves, and random cubic terms of one of them"""
    dice, circuit = random.Random(1), Circuit()
    one, two = circuit.register(half), circuit.register(half)
    cubic = [dice.sample(range(half), 3) for _ in range(terms)]
    shift = [wire for wire in one + two if dice.random() < 0.5]

    def layer(kind, wires):
        for wire in wires:
            getattr(circuit, kind)(wire)

    def function(of):
        for triple in cubic:
            circuit.ccz(*(of[i] for i in triple))
        for a, b in zip(one, two):
            circuit.cz(a, b)

    layer("h", one + two)
    layer("x", shift)
    function(one)
    layer("x", shift)
    layer("h", one + two)
    function(two)
    layer("h", one + two)
    return circuit


def fourier(bits=260):
    """the Fourier transform, up to turns by a quarter of a half turn: controlled S, and controlled T by a helper"""
    circuit = Circuit()
    wires, (helper,) = circuit.register(bits), circuit.register(1)
    for i, wire in enumerate(wires):
        circuit.h(wire)
        if i + 1 < bits:
            circuit.cs(wires[i + 1], wire)
        if i + 2 < bits:
            circuit.ccx(wires[i + 2], wire, helper)
            circuit.t(helper)
            circuit.ccx(wires[i + 2], wire, helper)
    return circuit


def trotter(wires=30, steps=56):
    """steps of a chain of spins in a field across it: turns of neighbours along ZZ, and of each along X"""
    circuit = Circuit()
    chain = circuit.register(wires)
    for _ in range(steps):
        for start in (0, 1):
            for a, b in zip(chain[start::2], chain[start + 1 :: 2]):
                circuit.cx(a, b)
                circuit.t(b)
                circuit.cx(a, b)
        for wire in chain:
            circuit.h(wire)
            circuit.t(wire)
            circuit.h(wire)
    return circuit


def random_gates(wires=40, gates=10_000):
    dice, circuit = random.Random(1), Circuit()
    chosen = circuit.register(wires)
    for _ in range(gates):
        kind = dice.choice(["h", "x", "cx", *PHASES])
        circuit.gates.append((kind, tuple(dice.sample(chosen, 2 if kind == "cx" else 1))))
    return circuit


FAMILIES = {
    "ripple-carry adder": adder,
    "multi-controlled Toffoli": multi_controlled,
    "multiplier": multiplier,
    "Grover's search": grover,
    "hidden shift": hidden_shift,
    "approximate Fourier transform": fourier,
    "Trotter steps": trotter,
    "random Clifford+T": random_gates,
}


def text_of(circuit):
    lines = [f"{kind} {','.join(f'q[{wire}]' for wire in wires)};\n" for kind, wires in circuit.gates]
    return f'OPENQASM 2.0;\ninclude "qelib1.inc";\nqreg q[{circuit.wires}];\n{"".join(lines)}'


def gates_of(text):
    """the gates of a canonical text with one register"""
    lines = [line.rstrip(";").split(" ") for line in text.splitlines() if line.startswith(("h ", "x ", "cx ", *(f"{it} " for it in PHASES)))]
    return [(kind, tuple(int(wire[2:-1]) for wire in wires.split(","))) for kind, wires in lines]


def t_count(gates):
    return sum(kind in ("t", "tdg") for kind, _ in gates)


def depth(gates):
    """how many layers of gates there are, if each gate stands in the first that it can"""
    until = {}
    for _, wires in gates:
        layer = 1 + max(until.get(wire, 0) for wire in wires)
        until.update(dict.fromkeys(wires, layer))
    return max(until.values(), default=0)


def folded_t_count(gates):
    """the T gates that merging of phases on equal parities leaves. A wire holds a parity of variables, and whether it is negated;
    a Hadamard begins a new variable; a parity whose phases add up to an odd number of eighths keeps one T gate."""
    parities, phases, variables = {}, {}, 0

    def parity(wire):
        nonlocal variables
        if wire not in parities:
            parities[wire] = (1 << variables, False)
            variables += 1
        return parities[wire]

    for kind, wires in gates:
        if kind == "h":
            parities.pop(wires[0], None)
        elif kind == "cx":
            (one, negated), (two, other) = map(parity, wires)
            parities[wires[1]] = (one ^ two, negated != other)
        else:
            variable, negated = parity(wires[0])
            if kind == "x":
                parities[wires[0]] = (variable, not negated)
            else:
                phases[variable] = phases.get(variable, 0) + (-PHASES[kind] if negated else PHASES[kind])
    return sum(phase % 2 for variable, phase in phases.items() if variable)
