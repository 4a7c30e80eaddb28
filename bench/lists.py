"""The lists that are timed: small ones, trees and drawn networks of 1,000 two-operand gates, and how one is changed.
Those that are as long as a list may be stand in longest.py.

- `and_gate`: And(v0, v1).
- `stop`: a stop network of a panel, 29 nodes over ten variables; `stop_tables`, the same as lookup tables; `horn`, with
  the run signal in it.
- `tree`: 1,000 two-operand gates and Luts, each with one parent but for the root, so that a walk along paths ends.
- `drawn`: as many, each over the node that has waited longest for a parent and any other lower one; as a tree it has
  millions of nodes.
"""
import random

import places  # where the modules of vectors/ are
import model
from lister import KIND, Lister
from trees import listed, lut

GATES, SEED = 1000, 7
PROGRAMS = (8, 6, 1, 14, 7, 9)
GATE_PROGRAMS = {name: model.GATE_PROGRAMS[name] for name in ("And", "Nor", "Xor")}
KINDS = {"gates": ("And", "Nor", "Xor"), "Luts": ("Lut",), "both": ("And", "Nor", "Xor", "Lut")}


def node_count(nodes):
    return len(nodes) // model.WORDS_PER_NODE


# ---- small ones


def and_gate():
    return listed(("And", "v0", "v1"))


def and_table():
    return listed(lut(8, "v0", "v1"))


def either(a, b):
    return ("Not", ("Nor", a, b))


# v0, v1 the doors are closed; v2, v3, v4 the three sensors find ozone; v5 stop is pressed; v6 the air flow is low;
# v7 it is hot; v8 start is held, which is the run signal; v9 the service key is turned, and the doors may be open
VOTE = either(either(("And", "v2", "v3"), ("And", "v2", "v4")), ("And", "v3", "v4"))
OPEN = ("Not", ("Mux", "v9", "1", ("And", "v0", "v1")))
TROUBLE = either(either(VOTE, "v5"), either("v6", "v7"))
# no row depends on the last operand: start's wire runs into the table, and stop does not listen to it
STOP = lut(252, OPEN, TROUBLE, "v8")
STOP_INPUTS = 10
RUN = 8


def stop():
    return listed(STOP)


def stop_tables():
    """Two of three is 232, a key or both doors 248, any of four 65534, closed and no trouble's complement 11."""
    trouble = lut(65534, lut(232, "v2", "v3", "v4"), "v5", "v6", "v7")
    return listed(lut(11, lut(248, "v9", "v0", "v1"), trouble))


def horn():
    """It sounds where the stop output is set and start is not held."""
    return listed(("Nor", "v8", ("Not", STOP)))


def nots(count):
    """v0 under so many Nots."""
    to = Lister()
    top = to.var(0)
    for _ in range(count):
        top = to.add("Not", top)
    return to.words()


# ---- 1,000 gates


def leaves_of(to, kinds, inputs):
    """The numbers of the variables' nodes and of the programs', which stand first."""
    return [to.var(v) for v in range(inputs)], [to.program(value) for value in PROGRAMS] if "Lut" in kinds else []


def gate(to, rng, kinds, programs, a, b):
    kind = rng.choice(kinds)
    return to.add("Lut", rng.choice(programs), a, b) if kind == "Lut" else to.add(kind, a, b)


def tree(inputs, kinds=KINDS["both"]):
    """Two of the nodes without a parent are joined by a gate until there is one; every leaf is there as often."""
    rng = random.Random(SEED)
    to = Lister()
    variables, programs = leaves_of(to, kinds, inputs)
    waiting = [variables[at % inputs] for at in range(GATES + 1)]
    for _ in range(GATES):
        a, b = (waiting.pop(rng.randrange(len(waiting))) for _ in range(2))
        waiting.append(gate(to, rng, kinds, programs, a, b))
    return to.words()


def drawn(inputs, kinds=KINDS["both"]):
    """The last gates join what is left, so that the root reaches every node."""
    rng = random.Random(SEED)
    to = Lister()
    lower, programs = leaves_of(to, kinds, inputs)
    waiting = list(lower)
    for left in range(GATES, 0, -1):
        first = waiting.pop(0)
        second = waiting.pop(0) if left < inputs else rng.choice(lower)
        lower.append(gate(to, rng, kinds, programs, first, second))
        waiting.append(lower[-1])
    nodes, pool = to.words()
    assert len(model.Listed(nodes, pool).cycles_over) == node_count(nodes)
    return nodes, pool


# ---- a list in another form


def children_of(pool, first, count):
    return pool[first:first + count]


def programs_of(nodes):
    """The node of each program."""
    words = model.node_words(nodes)
    return {first: node for node, (kind, first, _) in enumerate(words) if kind == KIND["Program"]}


def other_form(nodes, pool):
    """The same function node by node from another tree: a gate is a Lut, a Lut of a gate's program is that gate, and
    the operands of other Luts have changed places, which no program here minds."""
    programs = programs_of(nodes)
    as_gate = {programs[program]: name for name, program in GATE_PROGRAMS.items()}
    to = Lister()
    for kind, first, count in model.node_words(nodes):
        name = model.KINDS[kind]
        children = [] if name in model.LEAVES else children_of(pool, first, count)
        if name in model.LEAVES:
            to.raw(kind, first, count)
        elif name in GATE_PROGRAMS:
            to.add("Lut", programs[GATE_PROGRAMS[name]], *children)
        elif children[0] in as_gate:
            to.add(as_gate[children[0]], *children[1:])
        else:
            program, a, b = children
            to.add("Lut", program, b, a)
    # the roots are of different kinds, so the trees are unequal
    assert nodes[-model.WORDS_PER_NODE] != to.nodes[-model.WORDS_PER_NODE]
    return to.words()


def leaves_changed(nodes):
    """The node words with one leaf changed, in each way there is here: a variable is a constant, a program another."""
    for at in range(0, len(nodes), model.WORDS_PER_NODE):
        if nodes[at] == KIND["Var"]:
            for bit in (0, 1):
                yield nodes[:at] + [KIND["Const"], bit, 0] + nodes[at + 3:]
        if nodes[at] == KIND["Program"]:
            for row in range(4):
                yield nodes[:at + 1] + [nodes[at + 1] ^ 2 ** row] + nodes[at + 2:]


# ---- lists for a separation


def word_of(numbers):
    return sum(2 ** number for number in numbers)


def with_idle(nodes, pool, marked):
    """The list in which an Xor with itself stands for each marked variable, as in document 01's And(v0, Xor(v1, v1)),
    and the numbers of these Xors. Every variable is below the root, and the list is separate."""
    to, place, idle = Lister(), [], []
    for kind, first, count in model.node_words(nodes):
        name = model.KINDS[kind]
        if name in model.LEAVES:
            node = to.raw(kind, first, count)
        else:
            node = to.add(name, *[place[child] for child in children_of(pool, first, count)])
        if name == "Var" and first in marked:
            node = to.add("Xor", node, node)
            idle.append(node)
        place.append(node)
    return to.words(), idle


def idle_changed(nodes, idle):
    """The node words with one of these Xors an And, which is the variable, or a Nor, which is its complement."""
    for node in idle:
        for name in ("And", "Nor"):
            at = node * model.WORDS_PER_NODE
            yield nodes[:at] + [KIND[name]] + nodes[at + 1:]


def spread(nodes, numbers):
    """The node words in which the variables from 0 on have these numbers."""
    changed = list(nodes)
    for at in range(0, len(nodes), model.WORDS_PER_NODE):
        if nodes[at] == KIND["Var"]:
            changed[at + 1] = numbers[nodes[at + 1]]
    return changed
