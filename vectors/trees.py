"""Trees written down by name, and the lists that stand for one (document 01, "The node list").

A tree is the text of a leaf (v0 to v255, 0, 1, dc, p8 for a Program of 8), or a tuple of a kind's name and its
children: ("Mux", "v0", "dc", "1"). Equal trees are equal Python values.

Many lists stand for one tree: a subtree may be listed once or as often as it occurs, nodes in any order in which
children are the lower, with nodes between them that the root does not reach; and the pool's parts in any order, apart,
or one over another. WAYS has a function for each such way of listing a tree.
"""
from lister import KIND, LARGEST
from model import HALF

# ---- writing a tree


def joined(name, trees):
    """Gates of this kind over the trees, each over the one before it and the next tree."""
    top = trees[0]
    for tree in trees[1:]:
        top = (name, top, tree)
    return top


def joined_right(name, trees):
    """The same from the other end: another tree, and for And and Xor the same values."""
    top = trees[-1]
    for tree in reversed(trees[:-1]):
        top = (name, tree, top)
    return top


def variables(numbers):
    return [f"v{number}" for number in numbers]


def lut(program, *operands):
    return ("Lut", f"p{program}", *operands)


def bus(digits):
    """A Bus of constants, the first member first."""
    return ("Bus", *digits)


def minterm(numbers, index):
    """1 where bit j of the index drives the j-th smallest of these variables, else 0."""
    literals = []
    for place, number in enumerate(sorted(numbers)):
        literals.append(f"v{number}" if index >> place & 1 else ("Not", f"v{number}"))
    return joined("And", literals) if literals else "1"


# ---- the nodes of a list: of each a leaf's text or a kind's name, and its children's numbers


def numbered(tree, once, turned=False):
    """Children first; a subtree that is listed once, as `once` says of it, is shared; from right to left if turned."""
    nodes, numbers = [], {}

    def visit(part):
        if part in numbers and once(part):
            return numbers[part]
        if isinstance(part, str):
            nodes.append((part, []))
        else:
            name, *children = part
            found = [visit(child) for child in (reversed(children) if turned else children)]
            nodes.append((name, found[::-1] if turned else found))
        numbers[part] = len(nodes) - 1
        return numbers[part]

    visit(tree)
    return nodes


def renumbered(nodes, order):
    """The nodes in this order of their numbers."""
    place = {node: at for at, node in enumerate(order)}
    return [(nodes[node][0], [place[child] for child in nodes[node][1]]) for node in order]


def shuffled(nodes, rng):
    """In a drawn order in which children are the lower; the root is over all others, and so the last."""
    order, placed = [], set()
    while len(order) < len(nodes):
        ready = [node for node, (_, children) in enumerate(nodes) if node not in placed and placed.issuperset(children)]
        order.append(rng.choice(ready))
        placed.add(order[-1])
    return renumbered(nodes, order)


def among_strangers(nodes, rng):
    """With nodes that the root does not reach, some of them faulty: document 01, "Only nodes reachable from the root,
    itself included, count"."""
    found, place = [], []
    for name, children in nodes:
        for _ in range(rng.choice([0, 1, 1, 2])):
            lower = [rng.randrange(len(found)) for _ in range(3)] if found else []
            strangers = [("v9", []), (f"v{rng.randrange(256)}", []), ("p3", []), ("dc", []), ("Lut", [])]
            if lower:
                strangers += [("Not", lower[:1]), ("Arg", lower[:1]), ("Xor", lower[:2])]
                strangers += [("Bus", lower), ("Lut", lower)]
            found.append(rng.choice(strangers))
        found.append((name, [place[child] for child in children]))
        place.append(len(found) - 1)
    return found


# ---- the words of a list


def leaf_words(text):
    if text in ("0", "1"):
        return [KIND["Const"], int(text), 0]
    if text == "dc":
        return [KIND["DC"], 0, 0]
    number = int(text[1:])
    return [KIND["Var"], number, 0] if text[0] == "v" else [KIND["Program"], number % HALF, number // HALF]


def laid(nodes, firsts, pool):
    """The words, where each node's children stand in the pool from its first on."""
    words = []
    for node, (name, children) in enumerate(nodes):
        if name in KIND:
            assert pool[firsts[node]:firsts[node] + len(children)] == children
            words += [KIND[name], firsts[node], len(children)]
        else:
            words += leaf_words(name)
    return words, pool


def plain_pool(nodes, numbers=None):
    """One part after another, in the order of these numbers; of the nodes where none are said."""
    firsts, pool = {}, []
    for node in numbers or range(len(nodes)):
        firsts[node] = len(pool)
        pool += nodes[node][1]
    return laid(nodes, firsts, pool)


def backward_pool(nodes):
    """The root's part first."""
    return plain_pool(nodes, range(len(nodes) - 1, -1, -1))


def gapped_pool(nodes):
    """Before each part, and at the end, entries that no node has."""
    firsts, pool = {}, []
    for node, (_, children) in enumerate(nodes):
        pool.append((node, LARGEST)[node % 2])
        firsts[node] = len(pool)
        pool += children
    return laid(nodes, firsts, pool + [7, LARGEST])


def overlapped_pool(nodes):
    """A part that stands in the pool already is not written again."""
    firsts, pool = {}, []
    for node, (_, children) in enumerate(nodes):
        count = len(children)
        there = [at for at in range(len(pool) - count + 1) if pool[at:at + count] == children]
        firsts[node] = there[0] if there else len(pool)
        pool += [] if there else children
    return laid(nodes, firsts, pool)


# ---- the ways of listing a tree


def always(_):
    return True


def never(_):
    return False


def is_leaf(tree):
    return isinstance(tree, str)


WAYS = {
    "each subtree once": lambda tree, rng: plain_pool(numbered(tree, always)),
    "nothing shared": lambda tree, rng: plain_pool(numbered(tree, never)),
    "leaves shared": lambda tree, rng: plain_pool(numbered(tree, is_leaf)),
    "gates shared": lambda tree, rng: plain_pool(numbered(tree, lambda part: not is_leaf(part))),
    "from right to left": lambda tree, rng: plain_pool(numbered(tree, always, turned=True)),
    "in a drawn order": lambda tree, rng: plain_pool(shuffled(numbered(tree, always), rng)),
    "among strangers": lambda tree, rng: plain_pool(among_strangers(numbered(tree, always), rng)),
    "pool backward": lambda tree, rng: backward_pool(numbered(tree, always)),
    "pool with gaps": lambda tree, rng: gapped_pool(numbered(tree, always)),
    "pool overlapped": lambda tree, rng: overlapped_pool(numbered(tree, never)),
    "all of it": lambda tree, rng: gapped_pool(among_strangers(shuffled(numbered(tree, is_leaf), rng), rng)),
}


def listed(tree):
    """The plainest list that stands for a tree."""
    return WAYS["each subtree once"](tree, None)


def listed_otherwise(tree, rng):
    """A list that stands for the tree, in a way that is drawn."""
    return WAYS[rng.choice(list(WAYS))](tree, rng)
