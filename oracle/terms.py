"""Terms as the original writes them, `(LUT 8 v0 (NOT v1))`, as lists of nodes and back.

A leaf is true, false, DC, v0 to v255 or a Program's number; an operator's word is the original's. A term is listed
children first and left to right, each subterm as often as it is written.
"""
import os
import sys

sys.path.insert(0, os.path.join(os.path.dirname(os.path.abspath(__file__)), "..", "vectors"))

from lister import KIND, Lister  # noqa: E402
from model import HALF, KINDS  # noqa: E402

OPERATORS = {"NOR": "Nor", "MUX": "Mux", "AND": "And", "XOR": "Xor", "NOT": "Not", "LUT": "Lut", "BUS": "Bus",
             "REG": "Fdre", "FDSE": "Fdse", "FDPE": "Fdpe", "FDCE": "Fdce", "ARG": "Arg", "CYCLE": "Cycle"}
WORDS = {name: word for word, name in OPERATORS.items()}


def parsed(text):
    """A leaf's word, or a tuple of an operator's word and its terms."""
    words = text.replace("(", " ( ").replace(")", " ) ").split()

    def term(at):
        if words[at] != "(":
            return words[at], at + 1
        parts, at = [words[at + 1]], at + 2
        while words[at] != ")":
            part, at = term(at)
            parts.append(part)
        return tuple(parts), at + 1

    tree, end = term(0)
    assert end == len(words), text
    return tree


def add_leaf(to, word):
    if word in ("true", "false"):
        return to.raw(KIND["Const"], int(word == "true"), 0)
    if word == "DC":
        return to.raw(KIND["DC"], 0, 0)
    return to.var(int(word[1:])) if word.startswith("v") else to.program(int(word))


def listed(text):
    """Node words and pool of a term; none for an empty text."""
    to = Lister()

    def visit(tree):
        if isinstance(tree, str):
            return add_leaf(to, tree)
        children = [visit(child) for child in tree[1:]]
        return to.add(OPERATORS[tree[0]], *children)

    if text:
        visit(parsed(text))
    return to.words()


def node_text(nodes, pool, number):
    kind, first, count = nodes[3 * number:3 * number + 3]
    name = KINDS[kind]
    if name == "Const":
        return "true" if first else "false"
    if name == "Program":
        return str(first + HALF * count)
    if name in ("DC", "Var"):
        return "DC" if name == "DC" else f"v{first}"
    return " ".join(["(" + WORDS[name]] + [node_text(nodes, pool, child) for child in pool[first:first + count]]) + ")"


def written(nodes, pool):
    """The root's term."""
    return node_text(nodes, pool, len(nodes) // 3 - 1)
