#!/usr/bin/env python3
"""Brings the repository's own words of specs/ and proofs/ to today's spelling: functions, lemmas, fields and local
variables in snake case. Types, facts and modules are in camel case already.

usage: python3 tools/port_names.py [--dry]        once, at the top of the repository, after port.py

Names of src/, of a library and of what Rattle generates stay as they are. A name whose new spelling stands already in
a file that uses it is listed, and takes the spelling that CLASHES gives it.
"""

import collections
import os
import re
import sys

NAME = re.compile(r"[^\s(){}\[\];,.«»\"`]+")
TURNED = re.compile(r"^[a-z][A-Za-z0-9₀-₉'_]*(?:-[A-Za-z0-9₀-₉'_]+)*$")
USE = re.compile(r"^\s*(?:pub |ghost )?use ([^\s;{]+?)(?:\.\{(.*?)\})?(?: as (\S+?))?;?\s*$", re.S)
DEFINED = re.compile(r"^\s*(?:(?:pub|abbrev|unfoldable|private|record|data|mutual) )*([^\s:(){}]+)\s*(?:[({].*)?:(?:\s|$)")

# where a lemma's name falls together with its function's: the lemma's new spelling
CLASHES = {
    w: w.replace("-", "_") + "_lem"
    for w in (
        "are-bits bit-and bit-or bit-xor children-below filled-start is-done is-input lowest-from node-words nth-shape nth-tree pool-size "
        "row-bit same-shape shape-fault shape-step verify-fault with-column"
    ).split()
}

# the same where port.py gave the lemma its new spelling already: by file
IN_FILE = {
    "crates/meaning/specs/Laws/RootLaws.antt": {"laid_out": "laid_out_lem"},
    "crates/meaning/specs/Laws/KeptLaws.antt": {"in_bounds": "in_bounds_lem"},
    "crates/meaning/specs/Laws/TableLaws.antt": {"row_from": "row_from_lem"},
    "crates/rows/specs/Rows.antt": {"from_row": "from_row_lem"},
    "crates/crossings/specs/Depends.antt": {"same_answer": "same_answer_lem"},
    "crates/crossings/specs/Blocks.antt": {"same_answer": "same_answer_lem"},
}


def snake(name):
    if not TURNED.match(name):
        return name
    name = re.sub(r"([A-Z])(?=[A-Z][a-z])", r"\1_", name)
    name = re.sub(r"(?<=[a-z0-9])([A-Z])", r"_\1", name)
    return name.lower().replace("-", "_")


def new_name(name):
    return CLASHES.get(name, snake(name))


def files(root):
    for folder, dirs, names in os.walk(os.path.join(root, "crates")):
        dirs[:] = sorted(d for d in dirs if d != "out")
        for n in sorted(names):
            if n.endswith((".antt", ".rt")):
                yield os.path.join(folder, n)


def is_walk(path):
    return "/proofs/" in path and os.path.basename(path) in ("Proof.antt", "Answers.antt", "Invariants.antt")


def own_path(path, own):
    parts = path.split(".")
    if len(parts) < 3 or parts[0] != "Rattle" or parts[1] not in own:
        return False
    if "declared" in parts or "contracts" in parts or parts[-1] in ("Tie", "Statement", "Goals", "Given", "Code"):
        return False
    return True


def joined_uses(text):
    """Each use line of a file, as (path, names, alias)."""
    for m in re.finditer(r"^[ \t]*(?:pub )?(?:ghost )?use [^\n{]*(?:\{[^}]*\})?[^\n]*$", text, re.M):
        u = USE.match(m.group(0))
        if u:
            yield u.group(1), [w.strip() for w in (u.group(2) or "").split(",") if w.strip()], u.group(3)


def scope(text, own):
    """What a file brings in: names of others, names of this repository, and the other modules' short names."""
    foreign, ours, modules, our_modules = set(), set(), set(), set()
    for path, names, alias in joined_uses(text):
        is_ours = own_path(path, own)
        for w in names:
            parts = w.split(" as ")
            (ours if is_ours else foreign).add(parts[0].strip())
            if len(parts) > 1:
                (ours if is_ours else foreign).add(parts[1].strip())
        if not names:
            last = alias or path.split(".")[-1]
            (our_modules if is_ours else modules).add(last)
            if not is_ours:
                foreign.add(path.split(".")[-1])
    return foreign, ours, modules, our_modules


def defined(path, text):
    out = set()
    for line in text.split("\n"):
        if line.lstrip().startswith(("--", "let ", "|", "use ", "pub use ")):
            continue
        m = DEFINED.match(line)
        if m:
            out.add(m.group(1))
    return out


def pieces(text, is_rt):
    """The text as (is a comment or a string, piece) in order."""
    rule = r"(//[^\n]*|b?\"(?:\\.|[^\"\\])*\")" if is_rt else r"((?:(?<=\s)|^)--(?=[\s-])[^\n]*|\"(?:\\.|[^\"\\])*\")"
    at = 0
    for m in re.finditer(rule, text, re.M):
        yield False, text[at : m.start()]
        yield True, m.group(0)
        at = m.end()
    yield False, text[at:]


def chain_head(text, start):
    """The head of the dotted path that ends before start, or None."""
    m = re.search(r"((?:[^\s(){}\[\];,.«»\"`]+\.)+)$", text[:start])
    return m.group(1).split(".")[0] if m else None


def in_rt_clauses(text):
    """Where clauses and ghost uses stand in a source file, as a mask over its characters."""
    mask = bytearray(len(text))
    for m in re.finditer(r"^\s*ghost use [^;]*;", text, re.M):
        mask[m.start() : m.end()] = b"\1" * (m.end() - m.start())
    for m in re.finditer(r"(?:requires|ensures|ghost)(?: \w+)?:? \{", text):
        depth, i = 1, m.end()
        while i < len(text) and depth:
            depth += {"{": 1, "}": -1}.get(text[i], 0)
            i += 1
        mask[m.start() : i] = b"\1" * (i - m.start())
    return mask


def main():
    dry = "--dry" in sys.argv
    root = os.getcwd()
    own = {c for c in os.listdir("crates") if os.path.isdir(os.path.join("crates", c))}
    texts = {p: open(p, encoding="utf-8").read() for p in files(root)}
    ours = collections.defaultdict(set)
    for p, t in texts.items():
        if p.endswith(".antt") and not is_walk(p):
            for n in defined(p, t):
                ours[n].add(p)
    changed = 0
    for p, t in texts.items():
        is_rt, walk = p.endswith(".rt"), is_walk(p)
        foreign, imported, modules, _ = scope(t, own)
        local = defined(p, t) if walk else set()
        in_file = IN_FILE.get(os.path.relpath(p), {})
        mask = in_rt_clauses(t) if is_rt else None
        renamed, kept, out, base = {}, set(), [], 0
        for quiet, piece in pieces(t, is_rt):
            if quiet:
                if piece.startswith(("--", "//")):
                    def comment(m):
                        w = m.group(0)
                        known = w in ours and snake(w) != w and w not in foreign
                        ticked = piece[m.start() - 1 : m.start()] == "`" or re.search(r"[A-Z]", w)
                        return new_name(w) if known and ticked and not (walk and w in local) else w
                    out.append(NAME.sub(lambda m: comment(m) if m.group(0) in ours else m.group(0), piece))
                else:
                    out.append(piece)
                base += len(piece)
                continue

            def one(m):
                w = m.group(0)
                if is_rt and not mask[base + m.start()]:
                    return w
                n = in_file.get(w) or new_name(w)
                after_dot = m.start() > 0 and piece[m.start() - 1] == "."
                head = chain_head(piece, m.start()) if after_dot else None
                if n == w:
                    kept.add(w)
                    return w
                if w in foreign and not after_dot:
                    kept.add(w)
                    return w
                if after_dot and (head in modules or head in ("Prim", "mathlib", "native", "lib", "borrow", "tie", "goal") or (head == "Rattle" and re.match(r"(?:.*[\s(,])?Rattle\.std\.", piece[: m.start()].split("\n")[-1] or ""))):
                    return w
                if walk or is_rt:
                    if w not in imported and not (after_dot and w in ours and (is_rt or w not in local)):
                        return w
                    if walk and w in local:
                        return w
                if not after_dot:
                    renamed[w] = n
                return n

            out.append(NAME.sub(one, piece))
            base += len(piece)
        back = collections.defaultdict(set)
        for a, b in renamed.items():
            back[b].add(a)
        for b, olds in back.items():
            if b in kept or len(olds) > 1:
                print(f"clash: {os.path.relpath(p)}: {', '.join(sorted(olds))} -> {b}{' stands there already' if b in kept else ''}")
        new = "".join(out)
        if new != t:
            changed += 1
            if not dry:
                with open(p, "w", encoding="utf-8") as f:
                    f.write(new)
    print(f"{changed} files changed")


main()
