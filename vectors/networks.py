"""Lists whose nodes have a known answer, and nodes that numbers 6 and 8 refuse (document 01, "Answers of a node",
"Verification", "Evaluable"): what cases of the calls that evaluate are written with.

A bit is written by one letter: 0 and 1, or u, d, r, a for the failures 1 undriven, 2 DC, 3 register, 4 ARG.
"""
from lister import KIND, Lister

UNDRIVEN, DONT_CARE, REGISTER, ARG = FAILURES = (1, 2, 3, 4)
LETTERS = "udra"
STATES = "01" + LETTERS
BINARY = ("And", "Nor", "Xor")


def failure_of(letter):
    return LETTERS.index(letter) + 1


class Network(Lister):
    """A list with nodes that have a known answer, whatever the assignment is."""

    def const(self, bit):
        return self.raw(KIND["Const"], bit, 0)

    def dc(self):
        return self.raw(KIND["DC"], 0, 0)

    def arg(self, cycles=1):
        """An Arg with so many Cycles over it, which is a bit that fails."""
        top = self.add("Arg", self.program(cycles - 1))
        for _ in range(cycles):
            top = self.add("Cycle", top)
        return top

    def failing(self, failure):
        """A bit that fails so; the variable is one that no case below drives."""
        if failure == UNDRIVEN:
            return self.var(254)
        if failure == DONT_CARE:
            return self.dc()
        return self.arg() if failure == ARG else self.add("Fdre", *[self.const(0)] * 4)

    def bit(self, state):
        """0 and 1, or a failure by its letter."""
        return self.const(int(state)) if state in "01" else self.failing(failure_of(state))

    def bus(self, digits):
        """A bus of these bits, the first member first."""
        bits = {digit: self.bit(digit) for digit in sorted(set(digits))}
        return self.add("Bus", *[bits[digit] for digit in digits])

    def failing_bus(self, width, failure):
        """A bus of this width that fails: by a Mux, since a bus of none has no member to fail."""
        arm = self.bus("1" * width)
        return self.add("Mux", self.failing(failure), arm, arm)


# ---- nodes that are refused


def unverified():
    """A maker of a node that number 6 refuses, one of each sort."""
    return {
        "Lut without children": lambda to: to.add("Lut"),
        "Lut of seven operands": lambda to: to.add("Lut", to.program(0), *[to.var()] * 7),
        "Lut over no Program": lambda to: to.add("Lut", to.var()),
        "Lut of a large program": lambda to: to.add("Lut", to.program(16), to.var(), to.var()),
        "And over a Program": lambda to: to.add("And", to.var(), to.program(0)),
        "Xor over a Program": lambda to: to.add("Xor", to.program(0), to.var()),
        "Nor over a Program": lambda to: to.add("Nor", to.program(0), to.var()),
        "Bus of a Program": lambda to: to.add("Bus", to.var(), to.program(0)),
        "Bus of a Bus": lambda to: to.add("Bus", to.add("Bus"), to.var()),
        "Arg over no Program": lambda to: to.add("Arg", to.var()),
        "Arg past its Cycles": lambda to: to.add("Arg", to.program(5)),
    }


def unevaluable():
    """A maker of a node that verifies and that number 8 refuses, one of each sort."""
    def pair(to, width=2):
        return to.add("Bus", *[to.var()] * width)

    makers = {
        "Lut with a Program as operand": lambda to: to.add("Lut", to.program(2), to.program(0)),
        "Lut with a bus as operand": lambda to: to.add("Lut", to.program(2), pair(to)),
        "Lut with a bus of one": lambda to: to.add("Lut", to.program(2), pair(to, 1)),
        "Lut with a bus as its last": lambda to: to.add("Lut", to.program(8), to.var(), pair(to)),
        "Not of a Program": lambda to: to.add("Not", to.program(0)),
        "Cycle of a Program": lambda to: to.add("Cycle", to.program(0)),
        "Bus with a bus behind a Not": lambda to: to.add("Bus", to.var(), to.add("Not", pair(to))),
        "Bus with a bus behind a Cycle": lambda to: to.add("Bus", to.add("Cycle", pair(to, 1))),
        "Mux by a bus": lambda to: to.add("Mux", pair(to), to.var(), to.var()),
        "Mux by a bus of one": lambda to: to.add("Mux", pair(to, 1), to.var(), to.var()),
        "Mux by a Program": lambda to: to.add("Mux", to.program(0), to.var(), to.var()),
        "Mux of a bit and a bus": lambda to: to.add("Mux", to.var(), to.var(), pair(to, 1)),
        "Mux of a bus and a bit": lambda to: to.add("Mux", to.var(), pair(to), to.var()),
        "Mux of two widths": lambda to: to.add("Mux", to.var(), pair(to, 2), pair(to, 3)),
        "Mux of Programs": lambda to: to.add("Mux", to.var(), to.program(0), to.program(0)),
    }
    for name in BINARY:
        makers[name + " of a bit and a bus of one"] = lambda to, name=name: to.add(name, to.var(), pair(to, 1))
        makers[name + " of a bus and a bit"] = lambda to, name=name: to.add(name, pair(to), to.var())
        makers[name + " of two widths"] = lambda to, name=name: to.add(name, pair(to, 0), pair(to, 1))
        makers[name + " of wide ones"] = lambda to, name=name: to.add(name, pair(to, 63), pair(to, 64))
    for place in range(4):
        for name in ("Fdre", "Fdse", "Fdpe", "Fdce"):
            makers[f"{name} with a Program at {place}"] = lambda to, name=name, place=place: to.add(
                name, *[to.program(0) if at == place else to.var() for at in range(4)])
    return makers
