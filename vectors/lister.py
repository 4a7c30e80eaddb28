"""Node lists for recorded cases (document 01, "The node list"): written out node by node, drawn at random, damaged."""
import model
from model import CHILDREN, HALF, KINDS, LEAVES

KIND = {name: kind for kind, name in enumerate(KINDS)}
LARGEST = HALF - 1
INNER = [name for name in KINDS if name not in LEAVES]
MOST_DRAWN = 30

# ---- writing a list


class Lister:
    """Nodes one after another; each call gives back the number of the node that it adds."""

    def __init__(self):
        self.nodes = []
        self.pool = []

    def raw(self, kind, first, count):
        self.nodes += [kind, first, count]
        return len(self.nodes) // 3 - 1

    def var(self, number=0):
        return self.raw(KIND["Var"], number, 0)

    def program(self, value=0):
        return self.raw(KIND["Program"], value % HALF, value // HALF)

    def add(self, name, *children):
        first = len(self.pool)
        self.pool += children
        return self.raw(KIND[name], first, len(children))

    def over(self, name, child):
        """A node of this kind with as many children as it may have, all the same one; a Lut has its own program."""
        if name == "Lut":
            return self.add("Lut", self.program(1), child)
        return self.add(name, *[child] * CHILDREN.get(name, 2))

    def any(self, name):
        """A node of this kind over sound leaves."""
        if name in LEAVES:
            return self.raw(KIND[name], 0, 0)
        return self.over(name, self.program(0) if name == "Arg" else self.var())

    def words(self):
        return list(self.nodes), list(self.pool)


def of(*words, pool=()):
    """A list given by its words."""
    return list(words), list(pool)


def blank_nodes(count, more=0):
    """So many nodes `0 0 0`, and so many words more."""
    return [0] * (3 * count + more)


# ---- a list drawn at random


class Drawing(Lister):
    """A sound list: each node is over lower ones, mostly over those that have no parent yet."""

    def __init__(self, rng):
        super().__init__()
        self.rng = rng
        self.kinds = []
        self.needs = []  # of each node, the Cycles that must stand over it
        self.loose = []  # nodes without a parent, Programs excepted

    def put(self, name, *children, fields=None):
        number = self.raw(KIND[name], *fields) if name in LEAVES else self.add(name, *children)
        self.kinds.append(name)
        need = max([self.needs[child] for child in children], default=0)
        self.needs.append(max(need - 1, 0) if name == "Cycle" else need)
        self.loose = [node for node in self.loose if node not in children]
        if name != "Program":
            self.loose.append(number)
        return number

    def child(self, but=("Program",)):
        """A node of none of these kinds; a new variable where there is none."""
        rng = self.rng
        for _ in range(4):
            nodes = self.loose if self.loose and rng.random() < 0.6 else range(len(self.kinds))
            found = [node for node in nodes if self.kinds[node] not in but]
            if found:
                return rng.choice(found)
        return self.put("Var", fields=(rng.randrange(model.VARIABLES), 0))

    def leaf(self):
        name = self.rng.choice(["Var", "Var", "Const", "DC"])
        first = {"Var": self.rng.choice([0, 1, 2, 255]), "Const": self.rng.randint(0, 1), "DC": 0}[name]
        return self.put(name, fields=(first, 0))

    def some_program(self, value):
        old = [node for node, name in enumerate(self.kinds) if name == "Program" and self.value(node) == value]
        if old and self.rng.random() < 0.7:
            return self.rng.choice(old)
        return self.put("Program", fields=(value % HALF, value // HALF))

    def value(self, node):
        return self.nodes[3 * node + 1] + HALF * self.nodes[3 * node + 2]

    def lut(self):
        k = self.rng.choice([0, 1, 1, 2, 2, 3, 4, 5, 6])
        bound = 2 ** 2 ** k
        value = self.rng.choice([0, bound - 1, self.rng.randrange(bound), self.rng.randrange(bound)])
        operands = [self.child(but=()) for _ in range(k)]
        return self.put("Lut", self.some_program(value), *operands)

    def arg(self):
        index = self.rng.choice([0, 0, 0, 1, 1, 2])
        arg = self.put("Arg", self.some_program(index))
        self.needs[arg] = index + 1
        return arg

    def node(self):
        rng = self.rng
        name = rng.choice(["leaf"] * 4 + ["Lut"] * 4 + ["Arg", "Cycle", "Cycle"] + INNER)
        if name == "leaf":
            return self.leaf()
        if name in ("Lut", "Arg"):
            return self.lut() if name == "Lut" else self.arg()
        if name == "Bus":
            return self.put(name, *[self.child(("Program", "Bus")) for _ in range(rng.choice([0, 1, 2, 2, 3, 5]))])
        but = ("Program",) if name in ("And", "Xor", "Nor") else ()
        return self.put(name, *[self.child(but) for _ in range(CHILDREN[name])])

    def join(self):
        """Puts nodes over those without a parent until there is a root, and Cycles over it as the Args ask."""
        while len(self.loose) > 1:
            self.put("Mux", *(self.loose + [self.child(), self.child()])[:3])
        root = self.loose[0] if self.loose else self.leaf()
        while self.needs[root] > 0 or root != len(self.kinds) - 1:
            root = self.put("Cycle", root)


def drawn_list(rng):
    """A sound list of at most 30 nodes, most of them reached; now and then with nodes that its root does not reach."""
    while True:
        drawing = Drawing(rng)
        size = rng.choice([1, 2, 3, 4, 5, 6, 7, 8, 9, 10, 12, 14, 18, 24])
        while len(drawing.kinds) < size:
            drawing.node()
        if rng.random() < 0.3:
            drawing.loose = drawing.loose[-1:]
        drawing.join()
        if len(drawing.kinds) <= MOST_DRAWN:
            return drawing.words()


# ---- an evaluable list drawn at random


class Evaluable(Drawing):
    """A list that is evaluable: each node is over lower ones of the shapes that its kind takes."""

    def __init__(self, rng):
        super().__init__(rng)
        self.shapes = []  # of each node, 1 a bit, (n,) a bus of n; None for a Program
        self.may_fail = rng.random() < 0.5

    def put(self, name, *children, fields=None):
        number = super().put(name, *children, fields=fields)
        below = [self.shapes[child] for child in children]
        shape = {"Program": None, "Bus": (len(children),), "Mux": below[1] if name == "Mux" else 1}.get(name, 1)
        self.shapes.append(below[0] if name in ("And", "Nor", "Xor", "Not", "Cycle") else shape)
        return number

    def of_shape(self, shape):
        """A node of this shape, most often one without a parent; a new one where there is none."""
        nodes = self.loose if self.rng.random() < 0.6 else range(len(self.kinds))
        found = [node for node in nodes if self.shapes[node] == shape]
        if found:
            return self.rng.choice(found)
        return self.leaf() if shape == 1 else self.bus(shape[0])

    def some_shape(self):
        buses = [shape for shape in self.shapes if shape not in (None, 1)]
        return self.rng.choice(buses) if buses and self.rng.random() < 0.5 else 1

    def leaf(self):
        name = self.rng.choice(["Var"] * 4 + ["Const"] + ["DC"] * self.may_fail)
        first = {"Var": self.rng.randrange(6), "Const": self.rng.randint(0, 1), "DC": 0}[name]
        return self.put(name, fields=(first, 0))

    def bus(self, width):
        return self.put("Bus", *[self.of_shape(1) for _ in range(width)])

    def lut(self):
        k = self.rng.choice([0, 1, 2, 2, 3, 3, 4, 5, 6])
        operands = [self.of_shape(1) for _ in range(k)]
        return self.put("Lut", self.some_program(self.rng.randrange(2 ** 2 ** k)), *operands)

    def gate(self, name):
        shape = self.some_shape()
        selector = [self.of_shape(1)] if name == "Mux" else []
        return self.put(name, *selector, *[self.of_shape(shape) for _ in range(1 if name in ("Not", "Cycle") else 2)])

    def node(self):
        failing = ["Fdre", "Fdse", "Fdpe", "Fdce", "Arg", "Arg"] * self.may_fail
        gates = ["And", "Nor", "Xor", "Mux"] * 3
        name = self.rng.choice(["leaf"] * 4 + ["Lut"] * 4 + gates + ["Not", "Cycle", "Bus"] + failing)
        if name == "leaf":
            return self.leaf()
        if name == "Lut":
            return self.lut()
        if name == "Arg":
            return self.arg()
        if name == "Bus":
            return self.bus(self.rng.choice([0, 1, 2, 2, 3, 4]))
        if name.startswith("Fd"):
            return self.put(name, *[self.of_shape(self.some_shape()) for _ in range(4)])
        return self.gate(name)

    def join(self):
        """Puts gates over nodes of one shape that have no parent, and at last a Cycle for each that an Arg asks.

        What is left of other shapes is not reached, or is below a register."""
        rng = self.rng
        while True:
            shapes = [self.shapes[node] for node in self.loose]
            alike = [node for node in self.loose if shapes.count(self.shapes[node]) > 1]
            if not alike:
                break
            first = alike[0]
            second = next(node for node in alike[1:] if self.shapes[node] == self.shapes[first])
            self.put(rng.choice(["And", "Nor", "Xor"]), first, second)
        if len(self.loose) > 1 and rng.random() < 0.3:
            self.put(rng.choice(["Fdre", "Fdce"]), *(self.loose * 4)[:4])
        root = rng.choice(self.loose) if self.loose else self.leaf()
        while self.needs[root] > 0 or root != len(self.kinds) - 1:
            root = self.put("Cycle", root)


def evaluable_list(rng):
    """An evaluable list of 3 to 25 nodes."""
    while True:
        drawing = Evaluable(rng)
        size = rng.choice([3, 4, 5, 6, 7, 8, 9, 10, 11, 12, 14, 16, 18])
        while len(drawing.kinds) < size:
            drawing.node()
        drawing.join()
        if 3 <= len(drawing.kinds) <= 25:
            return drawing.words()


# ---- a list damaged


def odd_word(rng, pool):
    words = [0, 1, 2, 3, 4, 15, 16, 17, 64, 65, 255, 256, len(pool), len(pool) + 1, LARGEST, rng.randrange(HALF)]
    return rng.choice(words)


def alike(kind):
    """The kinds that may have as many children; any where this is none."""
    if kind >= len(KINDS):
        return list(range(len(KINDS)))
    name = KINDS[kind]
    if name in ("Lut", "Bus"):
        return [KIND["Lut"], KIND["Bus"]]
    return [KIND[other] for other in KINDS if CHILDREN.get(other) == CHILDREN.get(name)]


def word_changed(rng, nodes, pool):
    nodes, pool = list(nodes), list(pool)
    at = 3 * rng.randrange(len(nodes) // 3)
    programs = [node for node in range(len(nodes) // 3) if nodes[3 * node] == KIND["Program"]]
    ways = ["field", "kind", "kind alike", "kind alike", "nearby"] + ["child", "child", "child a Program"] * bool(pool)
    way = rng.choice(ways + ["program"] * (2 * bool(programs)))
    if way == "field":
        nodes[at + rng.choice([1, 2])] = odd_word(rng, pool)
    elif way == "kind":
        nodes[at] = rng.choice([rng.randrange(17), rng.randrange(17), 17, LARGEST])
    elif way == "kind alike":
        nodes[at] = rng.choice(alike(nodes[at]))
    elif way == "nearby":
        place = at + rng.choice([1, 2])
        nodes[place] = (nodes[place] + rng.choice([1, -1])) % HALF
    elif way == "child":
        count = len(nodes) // 3
        pool[rng.randrange(len(pool))] = rng.choice([rng.randrange(count), rng.randrange(count), LARGEST])
    elif way == "child a Program" and programs:
        pool[rng.randrange(len(pool))] = rng.choice(programs)
    elif way == "program":
        place = 3 * rng.choice(programs) + rng.choice([1, 1, 2])
        nodes[place] = rng.choice([nodes[place] + 1, 2 * nodes[place] + 1, 1, 2, 16, 256, 65536, LARGEST]) % HALF
    return nodes, pool


def word_dropped(rng, nodes, pool):
    nodes, pool = list(nodes), list(pool)
    if pool and rng.random() < 0.7:
        del pool[rng.randrange(len(pool))]
    elif rng.random() < 0.5:
        del nodes[rng.randrange(len(nodes))]
    else:
        # a whole node, so that the words stay a multiple of three
        at = 3 * rng.randrange(len(nodes) // 3)
        del nodes[at:at + 3]
    return nodes, pool
