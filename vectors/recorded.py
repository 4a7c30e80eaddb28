"""What the scripts that record cases share: running the functions that make them, saying how many there are of which
sort, and writing them down for a replay.
"""
import os
import sys

CRATES = os.path.join(os.path.dirname(os.path.abspath(__file__)), "..", "crates")


def made(makers, rng, lines):
    """How many lines each of these adds; a maker takes what is drawn from, or nothing."""
    counts = {}
    for make in makers:
        before = len(lines)
        make(*[rng] * make.__code__.co_argcount)
        counts[make.__name__] = len(lines) - before
    return counts


def index_range(index):
    """Indices one by one up to 7, then by their length."""
    return f"{index}" if index < 8 else f"{2 ** (index.bit_length() - 1)}.."


def shown(title, counts, key=None):
    print(title + ": " + ", ".join(f"{name} {counts[name]}" for name in sorted(counts, key=key)), file=sys.stderr)


def shown_indices(title, counts):
    shown(title, counts, key=lambda text: int(text.rstrip(".")))


def write(crate, name, text):
    folder = os.path.join(CRATES, crate)
    os.makedirs(folder, exist_ok=True)
    with open(os.path.join(folder, name), "w", encoding="ascii", newline="\n") as out:
        out.write(text)


def written(crate, lines, largest):
    """The cases, a line each, and what the replay says of them."""
    text = "".join(" ".join(map(str, line)) + "\n" for line in lines)
    print(f"{len(text)} bytes", file=sys.stderr)
    assert len(text) <= largest, len(text)
    write(crate, "stdin", text)
    write(crate, "stdout", f"{len(lines)} cases, 0 differ\n")
