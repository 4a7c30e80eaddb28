"""Looks for each excerpt that a page shows in the file that it names.

A page marks an excerpt by a line of its own in front of the fence:

    <!-- from FILE -->

FILE is named from the repository's root. The excerpt must stand there, line for line and in one piece.
The status is 0 only if every excerpt does, and there is one at least.
"""
import re
import sys
from pathlib import Path

ROOT = Path(__file__).resolve().parent.parent
MARKED = re.compile(r"^<!-- from (\S+) -->\n+```[a-z]*\n(.*?)^```$", re.MULTILINE | re.DOTALL)
MARK = re.compile(r"^<!-- from ", re.MULTILINE)


def occurs(name, excerpt):
    """Whether the excerpt stands in the file, from the start of a line on."""
    path = ROOT / name
    return path.is_file() and ("\n" + excerpt) in ("\n" + path.read_text(encoding="utf-8"))


def main(arguments):
    if len(arguments) != 1:
        print("usage: python3 examples/excerpts.py PAGE.md")
        return 2
    page = Path(arguments[0]).read_text(encoding="utf-8")
    excerpts = MARKED.findall(page)
    absent = [(name, excerpt) for name, excerpt in excerpts if not occurs(name, excerpt)]
    for name, excerpt in absent:
        print(f"not in {name}, or not in one piece:\n{excerpt}")
    unfenced = len(MARK.findall(page)) - len(excerpts)
    if unfenced:
        print(f"{unfenced} marks stand in front of no fence")
    print(f"{arguments[0]}: {len(excerpts)} excerpts, {len(absent)} not found")
    return int(bool(absent or unfenced or not excerpts))


if __name__ == "__main__":
    sys.exit(main(sys.argv[1:]))
