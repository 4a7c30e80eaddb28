"""Lists that are as long as a list may be, or whose canonical list is: 4,096 nodes or 16,384 pool entries (document 01,
"The node list").

For the calls that walk: `shared`, each gate over the last two, so that there are more paths to a leaf than can be
followed; `registers`, each over the four nodes just below it; `buses`, of 64 members over leaves.
For the canonicaliser besides: `wide`, distinct Luts over the same four variables; `folding`, Luts of six operands, each
with another program, of which two operands are constants; `alike`, the same Lut again and again, each time at nodes of
its own; `apart`, Luts that differ in their last operand alone.
"""
import random

import places  # where the modules of vectors/ are
import model
from lister import Lister

SEED = 11


class Room(Lister):
    """A list that says whether so many more nodes and entries have room, with registers over so many parts besides."""

    def holds(self, nodes, entries, parts=1):
        more = registers_over(parts)
        return (len(self.nodes) // model.WORDS_PER_NODE + nodes + more <= model.MOST_NODES
                and len(self.pool) + entries + model.CHILDREN["Fdre"] * more <= model.MOST_POOL)

    def gathered(self, parts):
        """Registers over these nodes, four at each, down to one."""
        while len(parts) > 1:
            parts = [self.add("Fdre", *(parts[at:at + 4] * 4)[:4]) for at in range(0, len(parts), 4)]


def registers_over(parts):
    """How many `gathered` puts over so many."""
    found = 0
    while parts > 1:
        parts = (parts + 3) // 4
        found += parts
    return found


# ---- for every call


def shared(spare=0):
    """Xors over the last two of v0 and v1, and so many nodes short of the most."""
    to = Room()
    last = [to.var(0), to.var(1)]
    while to.holds(1 + spare, 2):
        last.append(to.add("Xor", *last[-2:]))
    return to.words()


def shared_tables():
    """The same with Luts for Xors; its Program is a node more."""
    to = Room()
    last = [to.var(0), to.var(1)]
    program = to.program(model.GATE_PROGRAMS["Xor"])
    while to.holds(1, 3):
        last.append(to.add("Lut", program, *last[-2:]))
    return to.words()


# ---- for the verifier


def registers():
    """The root is a Bus over the eight nodes below it, which fills the pool."""
    to = Room()
    to.var()
    for node in range(1, model.MOST_NODES - 1):
        to.add("Fdre", *[max(node - below, 0) for below in (1, 2, 3, 4)])
    to.add("Bus", *range(model.MOST_NODES - 9, model.MOST_NODES - 1))
    assert len(to.pool) == model.MOST_POOL
    return to.words()


def buses():
    """So many Buses that registers over three of them and the register before fill nodes and pool."""
    count, last_members = 251, 48
    joins = -(-count // 3)
    to = Room()
    leaves = [to.var(v % model.VARIABLES) for v in range(model.MOST_NODES - count - joins)]
    tops = []
    for bus in range(count):
        members = model.MOST_MEMBERS if bus < count - 1 else last_members
        tops.append(to.add("Bus", *[leaves[(bus * model.MOST_MEMBERS + m) % len(leaves)] for m in range(members)]))
    root = tops[0]
    for join in range(joins):
        root = to.add("Fdre", root, *[tops[min(3 * join + at, count - 1)] for at in range(3)])
    assert (len(to.nodes), len(to.pool)) == (model.WORDS_PER_NODE * model.MOST_NODES, model.MOST_POOL)
    return to.words()


# ---- for the canonicaliser


def luts(operands, programs):
    """Luts of programs and operands that these draw, gathered below one root."""
    to = Room()
    rng = random.Random(SEED)
    leaves = [to.var(v) for v in range(12)] + [to.raw(0, 0, 0), to.raw(0, 1, 0)]
    parts = []
    while to.holds(2, model.MOST_OPERANDS + 1, len(parts) + 1):
        program = to.program(programs(rng, len(parts)))
        parts.append(to.add("Lut", program, *operands(rng, leaves)))
    to.gathered(parts)
    return to.words()


def wide():
    """Distinct programs over the same four variables, no operand idle in most of them."""
    numbers = random.Random(SEED).sample(range(2 ** 16), model.MOST_NODES)
    return luts(lambda rng, leaves: leaves[:4], lambda rng, at: numbers[at])


def folding():
    """Six operands, two of them constants, at drawn places."""
    def operands(rng, leaves):
        chosen = rng.sample(leaves[:12], 4) + [rng.choice(leaves[12:]) for _ in range(2)]
        rng.shuffle(chosen)
        return chosen

    return luts(operands, lambda rng, at: rng.randrange(2 ** 64))


def alike():
    """One Lut over and over, with Program and variable nodes of its own each time."""
    to = Room()
    parts = []
    while to.holds(4, 3, len(parts) + 1):
        parts.append(to.add("Lut", to.program(8), to.var(0), to.var(1)))
    to.gathered(parts)
    return to.words()


def apart():
    """One program, five variables and, as the last operand, one of the Luts so far."""
    to = Room()
    leaves = [to.var(v) for v in range(6)]
    program = to.program(0x8000000000000001)
    top = leaves[5]
    while to.holds(1, 7):
        top = to.add("Lut", program, *leaves[:5], top)
    return to.words()
