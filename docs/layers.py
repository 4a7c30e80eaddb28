"""The crates and what each rests on, from crates.txt: as a picture, docs/LAYERS.svg, and as text, docs/LAYERS.md.

    python3 docs/layers.py           writes both
    python3 docs/layers.py --check   status 1 if what is written is not what crates.txt gives now

All that is shown comes from crates.txt: a part is what stands under a line '# ---- TITLE', a crate's place within its
part follows from what it uses, and its description is the comment above it. A crate that another one brings with it is not
shown as used: only the transitive reduction is drawn, and crates.txt has the whole. A name that has no line of its own
is a library of the kit's.
"""
import sys
from collections import namedtuple
from html import escape
from pathlib import Path
from textwrap import wrap

ROOT = Path(__file__).resolve().parent.parent
SOURCE = ROOT / "crates.txt"

Crate = namedtuple("Crate", "name uses comment part")
PART = "# ---- "


class BadSource(Exception):
    """crates.txt is not in its own form."""


# ---- crates.txt

def read_crates(text):
    """The crates in order. A comment belongs to the crate below it; a part begins with its title."""
    crates, comment, part = [], [], None
    for line in text.splitlines():
        if line.startswith(PART) or not line.strip():
            part, comment = line.removeprefix(PART) or part, []
        elif line.startswith("#"):
            comment.append(line.lstrip("# "))
        else:
            crates.append(crate_of(line, " ".join(comment), part))
            comment = []
    return crates


def crate_of(line, comment, part):
    head, colon, uses = line.partition(":")
    if not colon or not head.strip() or not part:
        raise BadSource(f"no name and colon in the line, or no title over it: {line}")
    # behind the name may stand what kind of library it is
    return Crate(head.split()[0], uses.split(), comment, part)


def require_order(crates):
    """'lowest layer first': what a crate uses stands above it, so that nothing rests on itself."""
    names = {crate.name for crate in crates}
    above = set()
    for crate in crates:
        later = [name for name in crate.uses if name in names and name not in above]
        if later or crate.name in above:
            raise BadSource(f"{crate.name} stands twice, or above what it uses: {' '.join(later)}")
        above.add(crate.name)


# ---- what rests on what

class Network:
    """The crates, and of each those that it rests on directly."""

    def __init__(self, crates):
        require_order(crates)
        self.crates = crates
        self.by_name = {crate.name: crate for crate in crates}
        self.below = {}
        for crate in crates:
            self.below[crate.name] = set(crate.uses).union(*(self.below.get(name, ()) for name in crate.uses))
        self.rests_on = {crate.name: self.reduced(crate) for crate in crates}

    def reduced(self, crate):
        """What the crate uses, without what another of these brings with it."""
        brought = set().union(*(self.below.get(name, ()) for name in crate.uses))
        return [name for name in crate.uses if name not in brought]

    def part_of(self, name):
        """A library of the kit's is in no part."""
        return self.by_name[name].part if name in self.by_name else None

    def parts(self):
        """The crates of each part, in order."""
        titles = dict.fromkeys(crate.part for crate in self.crates)
        return [[crate for crate in self.crates if crate.part == title] for title in titles]

    def within(self, crate):
        """What it rests on in its own part."""
        return [name for name in self.rests_on[crate.name] if self.part_of(name) == crate.part]

    def levels(self, crates):
        """Of the crates of a part: 0 where it rests on none of them, else one more than the highest of those."""
        levels = {}
        for crate in crates:
            levels[crate.name] = 1 + max((levels[name] for name in self.within(crate)), default=-1)
        return levels

    def ends(self, crates):
        """The crates that no other of their part uses."""
        used = {name for crate in crates for name in crate.uses}
        return [crate.name for crate in crates if crate.name not in used]


# ---- as text

HEAD = """# Layers

Made from crates.txt by `python3 docs/layers.py`; the picture is LAYERS.svg. A part is what stands under a
title there. A crate's level is 0 where it rests on no other of its part, else one more than the highest of
those that it rests on. "Rests on" leaves out what another of those named brings with it; crates.txt has the whole.
What stands in brackets is a library of the kit's.
"""


def page_of(network):
    return HEAD + "".join(part_text(network, crates) for crates in network.parts())


def part_text(network, crates):
    levels = network.levels(crates)
    rows = [f"\n## {part_title(crates)}\n", "| Level | Crate | Rests on | What it is |", "|---|---|---|---|"]
    for crate in sorted(crates, key=lambda crate: levels[crate.name]):
        rests = ", ".join(shown(network, name) for name in network.rests_on[crate.name]) or "nothing"
        rows.append(f"| {levels[crate.name]} | `{crate.name}` | {rests} | {crate.comment} |")
    return "\n".join(rows) + "\n"


def shown(network, name):
    return f"`{name}`" if name in network.by_name else f"[{name}]"


def part_title(crates):
    return crates[0].part[0].upper() + crates[0].part[1:]


# ---- a part as a drawing: columns by level, and lines that never run through a box

NAME_SIZE, NOTE_SIZE = 13, 10
GLYPH = 0.61                                  # a monospaced glyph's width, in sizes
NOTE_LETTERS = 27                             # of a line in a box
BOX_WIDTH = round(NOTE_LETTERS * NOTE_SIZE * GLYPH) + 16
COLUMN = BOX_WIDTH + 64
GAP = 14                                      # between two boxes of a column
BEND = 8                                      # the height of a line that passes a column
MOST_LINES = 3                                # a crate with more users in its part is named in their boxes
MARGIN, TITLE_HEIGHT = 28, 34
SWEEPS = 30

Item = namedtuple("Item", "key height")       # a box, keyed by its crate, or a line passing a column, by (crate, level)


class Drawing:
    """One part: which lines are drawn, what each box says, and where all stands."""

    def __init__(self, network, crates):
        self.network, self.crates = network, crates
        self.levels = network.levels(crates)
        self.lines = self.drawn_lines()
        self.notes = {crate.name: self.note_of(crate) for crate in crates}
        self.columns, self.joined = self.with_passing_lines()
        self.order()
        self.middles = self.placed()

    def drawn_lines(self):
        """(used, user) for each crate that few of its part rest on."""
        lines = [(name, crate.name) for crate in self.crates for name in self.network.within(crate)]
        users = [used for used, _ in lines]
        return [line for line in lines if users.count(line[0]) <= MOST_LINES]

    def note_of(self, crate):
        """What it rests on and no line shows, in lines that fit the box."""
        named = [name for name in self.network.rests_on[crate.name] if (name, crate.name) not in self.lines]
        ours = [name for name in named if name in self.network.by_name]
        kit = [f"[{name}]" for name in named if name not in self.network.by_name]
        return wrap("on " + ", ".join(ours + kit), NOTE_LETTERS, break_on_hyphens=False) if named else []

    def height_of(self, name):
        return 26 + (NOTE_SIZE + 3) * len(self.notes[name]) + (3 if self.notes[name] else 0)

    def with_passing_lines(self):
        """The items of each column, and the pairs of items in neighbouring columns that a line joins."""
        columns = [[] for _ in range(max(self.levels.values()) + 1)]
        for crate in self.crates:
            columns[self.levels[crate.name]].append(Item(crate.name, self.height_of(crate.name)))
        joined = []
        for used, user in self.lines:
            path = [used] + [(used, at) for at in range(self.levels[used] + 1, self.levels[user])] + [user]
            joined += [pair for pair in zip(path, path[1:]) if pair not in joined]
        for key in dict.fromkeys(key for pair in joined for key in pair if isinstance(key, tuple)):
            columns[key[1]].append(Item(key, BEND))
        return columns, joined

    # -- the order within a column: by the middle of what each item is joined to, as long as that saves crossings

    def order(self):
        best, fewest = self.columns, self.crossings()
        for sweep in range(SWEEPS):
            forward = sweep % 2 == 0
            numbers = range(1, len(self.columns)) if forward else range(len(self.columns) - 2, -1, -1)
            for number in numbers:
                self.sort_column(number, forward)
            if self.crossings() < fewest:
                best, fewest = list(self.columns), self.crossings()
        self.columns = best

    def sort_column(self, number, forward):
        beside = self.columns[number - 1 if forward else number + 1]
        places = {item.key: place for place, item in enumerate(beside)}
        column = self.columns[number]
        wanted = []
        for place, item in enumerate(column):
            ends = [places[key] for key in self.neighbours(item.key) if key in places]
            wanted.append(sum(ends) / len(ends) if ends else place)
        ranked = sorted(range(len(column)), key=lambda place: wanted[place])
        self.columns = self.columns[:number] + [[column[place] for place in ranked]] + self.columns[number + 1:]

    def neighbours(self, key):
        return [b for a, b in self.joined if a == key] + [a for a, b in self.joined if b == key]

    def crossings(self):
        place = {item.key: at for column in self.columns for at, item in enumerate(column)}
        level = {item.key: at for at, column in enumerate(self.columns) for item in column}
        ends = [(level[a], place[a], place[b]) for a, b in self.joined]
        pairs = ((x, y) for i, x in enumerate(ends) for y in ends[i + 1:])
        return sum(x[0] == y[0] and (x[1] - y[1]) * (x[2] - y[2]) < 0 for x, y in pairs)

    # -- heights: each item as near to the middle of its neighbours as its column lets it

    def placed(self):
        middles = {}
        for column in self.columns:
            top = 0
            for item in column:
                middles[item.key] = top + item.height / 2
                top += item.height + GAP
        for sweep in range(SWEEPS):
            for column in self.columns if sweep % 2 == 0 else reversed(self.columns):
                settle(column, middles, self.neighbours)
        top = min(middles[item.key] - item.height / 2 for column in self.columns for item in column)
        return {key: middle - top for key, middle in middles.items()}

    def height(self):
        return max(self.middles[item.key] + item.height / 2 for column in self.columns for item in column)


def settle(column, middles, neighbours):
    """The middles nearest to those wanted that keep the column's order and gaps."""
    # a pool: the mean of where its items would have the column start, their count, and each item with its offset
    pools, offset = [], 0
    for place, item in enumerate(column):
        if place:
            offset += (column[place - 1].height + item.height) / 2 + GAP
        ends = [middles[key] for key in neighbours(item.key)]
        wanted = sum(ends) / len(ends) if ends else middles[item.key]
        pools.append([wanted - offset, 1, [(item.key, offset)]])
        while len(pools) > 1 and pools[-2][0] > pools[-1][0]:
            mean, count, items = pools.pop()
            before = pools[-1]
            before[0] = (before[0] * before[1] + mean * count) / (before[1] + count)
            before[1:] = [before[1] + count, before[2] + items]
    for mean, _, items in pools:
        for key, place in items:
            middles[key] = mean + place


# ---- as a picture

STYLE = f"""
text {{ font-family: "DejaVu Sans Mono", Menlo, Consolas, monospace; fill: #1c2530 }}
.name {{ font-size: {NAME_SIZE}px; font-weight: bold }}
.note {{ font-size: {NOTE_SIZE}px; fill: #4a5866 }}
.title {{ font-size: 13px; fill: #4a5866 }}
.part {{ fill: #f4f6f8; stroke: #d5dbe1 }}
.box {{ fill: #ffffff; stroke: #5b6b7b }}
.end .box {{ fill: #e3eefb; stroke: #2c5d94; stroke-width: 1.5 }}
.line {{ fill: none; stroke: #7a8896; stroke-width: 1.3 }}
g:hover > .box {{ stroke: #c0392b; stroke-width: 2 }}
"""
LEGEND = [
    "The crates of crates.txt, lowest layer first. A crate rests on those to its left that a line joins to it, and on",
    "those that it names after 'on'; what these bring with them is left out. [..] is a library of the kit's. Blue: no",
    "other crate of its part uses it. Hold the pointer over a box to read what the crate is for.",
]


def picture_of(network):
    drawings = [Drawing(network, crates) for crates in network.parts()]
    width = 2 * MARGIN + max(len(drawing.columns) for drawing in drawings) * COLUMN - (COLUMN - BOX_WIDTH) + 2 * MARGIN
    top, body = MARGIN + 18 * len(LEGEND), []
    for line, words in enumerate(LEGEND):
        body.append(text_at(MARGIN, MARGIN + 18 * line, "title", words))
    for drawing in drawings:
        body += part_picture(drawing, top, width)
        top += drawing.height() + TITLE_HEIGHT + 2 * MARGIN
    size = f'width="{width}" height="{top:.0f}"'
    head = f'<svg xmlns="http://www.w3.org/2000/svg" viewBox="0 0 {width} {top:.0f}" {size}>'
    page = f'<rect {size} fill="#ffffff"/>'
    return "\n".join([head, f"<style>{STYLE}</style>", page, *body, "</svg>", ""])


def part_picture(drawing, top, width):
    box = drawing.height() + TITLE_HEIGHT + MARGIN
    at = Placed(drawing, top + TITLE_HEIGHT + MARGIN / 4)
    return [f'<rect class="part" x="{MARGIN / 2}" y="{top:.1f}" width="{width - MARGIN}" height="{box:.1f}" rx="6"/>',
            text_at(MARGIN, top + 22, "title", part_title(drawing.crates)),
            *(line_picture(at, line) for line in drawing.lines),
            *(box_picture(at, crate) for crate in drawing.crates)]


class Placed:
    """Where a part's items stand on the page."""

    def __init__(self, drawing, top):
        self.drawing, self.top = drawing, top
        self.level = {item.key: at for at, column in enumerate(drawing.columns) for item in column}

    def left(self, key):
        return 2 * MARGIN + self.level[key] * COLUMN

    def middle(self, key):
        return self.top + self.drawing.middles[key]


def line_picture(at, line):
    """From the used crate's right side to its user's left; straight past a column, curved between two."""
    used, user = line
    levels = at.drawing.levels
    path = [used] + [(used, level) for level in range(levels[used] + 1, levels[user])] + [user]
    words = [f"M{at.left(used) + BOX_WIDTH} {at.middle(used):.1f}"]
    for before, key in zip(path, path[1:]):
        start, end = at.left(before) + BOX_WIDTH, at.left(key)
        bend = (start + end) / 2
        words.append(f"C{bend} {at.middle(before):.1f} {bend} {at.middle(key):.1f} {end} {at.middle(key):.1f}")
        if key != user:
            words.append(f"H{end + BOX_WIDTH}")
    return f'<path class="line" d="{" ".join(words)}"><title>{user} rests on {used}</title></path>'


def box_picture(at, crate):
    network, notes = at.drawing.network, at.drawing.notes[crate.name]
    height = at.drawing.height_of(crate.name)
    left, top = at.left(crate.name), at.middle(crate.name) - height / 2
    kind = ' class="end"' if crate.name in network.ends(at.drawing.crates) else ""
    says = f"{crate.name}: {crate.comment}\nuses: {' '.join(crate.uses) or 'nothing'}"
    lines = [f"<g{kind}><title>{escape(says)}</title>",
             f'<rect class="box" x="{left}" y="{top:.1f}" width="{BOX_WIDTH}" height="{height}" rx="4"/>',
             text_at(left + 8, top + 17, "name", crate.name)]
    for number, note in enumerate(notes):
        lines.append(text_at(left + 8, top + 32 + (NOTE_SIZE + 3) * number, "note", note))
    return "\n".join([*lines, "</g>"])


def text_at(left, base, kind, words):
    return f'<text class="{kind}" x="{left}" y="{base:.1f}">{escape(words)}</text>'


# ---- the program

def stale(pages):
    return [path for path, text in pages.items() if not path.is_file() or path.read_text(encoding="utf-8") != text]


def main(arguments):
    if arguments not in ([], ["--check"]):
        print("usage: python3 docs/layers.py [--check]")
        return 2
    try:
        network = Network(read_crates(SOURCE.read_text(encoding="utf-8")))
    except (OSError, BadSource) as error:
        print(f"crates.txt: {error}")
        return 2
    pages = {ROOT / "docs/LAYERS.svg": picture_of(network), ROOT / "docs/LAYERS.md": page_of(network)}
    old = stale(pages)
    if arguments:
        for path in old:
            print(f"{path.relative_to(ROOT)} is not what crates.txt gives: python3 docs/layers.py writes it")
        return int(bool(old))
    for path in old:
        path.write_text(pages[path], encoding="utf-8")
        print(f"written: {path.relative_to(ROOT)}")
    return 0


if __name__ == "__main__":
    sys.exit(main(sys.argv[1:]))
