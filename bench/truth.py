"""Truth tables over so many variables: a number whose bit i is the value under assignment i, so that all assignments of
a gate are one operation on numbers. For lists of variables, constants, two-operand gates and Luts: what a comparison
and a separation answer where vectors/model.py, which goes assignment by assignment, would take too long. The table of
such a list is held against the model at some assignments.
"""
import random

import lists

import model
from comparisons import asked, each_tree_once

EQUIV = SEPARATE = [0] * 10
HELD = 8


def compared(first, second):
    """The answer words of a comparison of lists with these tables; all variables must be below the first root."""
    unlike = first ^ second
    if unlike == 0:
        return EQUIV
    index = (unlike & -unlike).bit_length() - 1
    return [0, 0, 1, index, 0, 1, first >> index & 1, 0, 1, second >> index & 1]


class Truth:
    def __init__(self, inputs):
        self.rows = 2 ** inputs
        self.ones = 2 ** self.rows - 1
        self.variables = [self.variable(number) for number in range(inputs)]

    def variable(self, number):
        """Runs of 2^number zeros and ones in turn."""
        run = 2 ** number
        table = (2 ** run - 1) << run
        length = 2 * run
        while length < self.rows:
            table |= table << length
            length *= 2
        return table

    def lut(self, program, a, b):
        """A program's table over two, row by row: the first operand is the high bit of the row number."""
        found = 0
        for row in range(4):
            if program >> row & 1:
                found |= (a if row & 2 else a ^ self.ones) & (b if row & 1 else b ^ self.ones)
        return found

    def node(self, name, first, below):
        if name == "Var":
            return self.variables[first]
        if name == "Program":
            return first
        if name == "Const":
            return self.ones * first
        return self.lut(*below) if name == "Lut" else self.lut(lists.GATE_PROGRAMS[name], *below)

    def root(self, nodes, pool):
        tables = []
        for kind, first, count in model.node_words(nodes):
            name = model.KINDS[kind]
            children = [] if name in model.LEAVES else lists.children_of(pool, first, count)
            tables.append(self.node(name, first, [tables[child] for child in children]))
        return tables[-1]

    def held(self, nodes, pool):
        """The root's table, which at some assignments has what the model answers there."""
        table, rng = self.root(nodes, pool), random.Random(lists.SEED)
        for index in (0, self.rows - 1, *(rng.randrange(self.rows) for _ in range(HELD))):
            assignment = [index >> number & 1 for number in range(len(self.variables))]
            with each_tree_once():
                answer = model.evaluate(nodes, pool, assignment, [0] * asked((nodes, pool)), [0] * len(nodes))[0]
            assert answer == [0, 0, 0, 1, table >> index & 1], (index, answer)
        return table

    def separated(self, table, marked):
        """Those of a separation. Where a marked variable is 1, the cleared table has what the table has where it is
        0."""
        cleared = table
        for number in marked:
            low = cleared & ~self.variables[number]
            cleared = low | low << 2 ** number
        return compared(table, cleared)
