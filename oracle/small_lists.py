"""Every small list, smallest first: so many nodes, all of them the root or below it, over few leaves."""
import itertools

from lister import KIND

# one of each leaf that can matter in a small list: a Program that a Lut of one operand may have, and one that it may not
LEAVES = [("Const", 0), ("Const", 1), ("Program", 0), ("Program", 2), ("Program", 4), ("DC", 0), ("Var", 0), ("Var", 1)]
# how many children of each kind are tried; the four registers differ in name alone, so there is one
COUNTS = {"Nor": [2], "Mux": [3], "And": [2], "Xor": [2], "Not": [1], "Lut": [0, 1, 2, 3], "Bus": [0, 1, 2, 3],
          "Fdre": [4], "Arg": [1], "Cycle": [1]}


def node_choices(below):
    """What a node above so many others may be: its kind, its datum and its children."""
    for name, datum in LEAVES:
        yield name, datum, ()
    for name, counts in COUNTS.items():
        for count in counts:
            for children in itertools.product(range(below), repeat=count):
                yield name, 0, children


def all_reached(choices):
    """Each node but the last is a child; children stand below their node, so all are then below the root."""
    used = {child for _, _, children in choices for child in children}
    return len(used) == len(choices) - 1


def words(choices):
    nodes, pool = [], []
    for name, datum, children in choices:
        is_inner = name in COUNTS
        nodes += [KIND[name], len(pool) if is_inner else datum, len(children)]
        pool += children
    return nodes, pool


def lists_of(count):
    """All lists of exactly so many nodes, those with the fewest entries first."""
    made = (words(choices) for choices in itertools.product(*[list(node_choices(below)) for below in range(count)])
            if all_reached(choices))
    return sorted(made, key=lambda given: (len(given[1]), given))


def lists_up_to(most):
    for count in range(1, most + 1):
        yield from lists_of(count)
