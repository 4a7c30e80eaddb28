"""The original Rust's answers, as oracle/sample had them written down: vectors/oracle/NAME.txt.

A line is a case as the oracle takes it, ` : ` and the answer; a line that begins with # tells of the others.
docs/DIFFERENCES.md says over which stand-ins the original ran.
"""
import os

FOLDER = os.path.join(os.path.dirname(os.path.abspath(__file__)), "oracle")


def cases(name):
    """Of each line the words of the case, as text, and the answer's, as numbers."""
    with open(os.path.join(FOLDER, name + ".txt"), encoding="ascii") as text:
        for line in text:
            if not line.startswith("#"):
                case, answer = line.split(" : ")
                yield case.split(), tuple(map(int, answer.split()))


def parts(words, *sizes):
    """The words as numbers, cut in parts of these sizes."""
    numbers, cut = list(map(int, words)), []
    for size in map(int, sizes):
        cut.append(numbers[:size])
        numbers = numbers[size:]
    assert not numbers
    return cut


def agreed(name, ours, answer):
    """The model must say what the original did."""
    if ours != answer:
        raise SystemExit(f"vectors/oracle/{name}.txt: the original answered {answer}, the model {ours}")
