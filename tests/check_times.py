"""Says where a crate's check spends its time, function by function.

usage: python3 tests/check_times.py [--all] CRATE..

Checks each crate from nothing by `rt check`, over an empty crates/NAME/out/incremental, and reads when each module was
stored there. The libraries below are made beforehand. What rests on no module of the crate's own (start, the libraries'
modules, the end) is "reading". Of a function `walk` is the kit's walk of its code and what it makes of it, `proof` are
its files in proofs and the goals that the kit answers by itself; of the crate `specs` are its definitions and laws,
`shared` proofs of no one function. Seconds are by the wall clock, so nothing else should run.

`rt check` begins with what a check in another copy of the repository kept on this machine. It says so, and then nothing
can be timed: remove the out/ folders of the copies.

Without --all a crate has the five slowest functions, with it every one.
"""
import os
import re
import shutil
import subprocess
import sys
import time

ROOT = os.path.join(os.path.dirname(os.path.abspath(__file__)), "..")
SLOWEST = 5
# a stored module: of the crate's proofs or specs, by its path
STORED = re.compile(r"^Rattle-(\w+)[-.](specs|proofs)\.(.*?)(?:\.decls)?\.oantt$")
# what the kit makes of each function; of functions that call one another one Lts for each
MADE = re.compile(r"(Code|Key|Kinds|Named|Layout|Lts|Symbol|Statement|Reads|Tie|Met|Given|Goals|TheLink)\b")
# the work of another copy
BEGUN = re.compile(r"^rt: (\w+): begins with what a check kept in (\S+)$", re.M)


def folder_of(name):
    return os.path.join(ROOT, "crates", name)


def kept(name):
    """Where its checks keep what they proved."""
    return os.path.join(folder_of(name), "out", "incremental")


def stored(name):
    """When each module of the crate was stored, in order: seconds and its name."""
    found = []
    for folder, folders, files in os.walk(kept(name)):
        folders[:] = [inner for inner in folders if not inner.endswith("-offers")]
        for file in files:
            module = STORED.match(file)
            if module and module[1] == name:
                found.append((os.stat(os.path.join(folder, file)).st_mtime, module[2], module[3]))
    return sorted(found)


def functions(name):
    """The modules of functions: each has kinds of its own, and a tie by itself or with those that it calls in turn."""
    made = re.compile(r"(.*)\.(?:Kinds|Tie)$")
    found = (made.match(module) for _, part, module in stored(name) if part == "proofs")
    return {function[1] for function in found if function}


def part_of(part, module, known):
    """Whose module it is, and which part of the check: a function and its walk or proof, or no function."""
    if part == "specs":
        return None, "specs"
    for owner in sorted(known, key=len, reverse=True):
        if module == owner:
            return owner, "walk"
        if module.startswith(owner + "."):
            return owner, "walk" if MADE.match(module[len(owner) + 1:]) else "proof"
    return None, "shared"


def parts(name, began, ended):
    """Seconds by function and part of the check."""
    known, seconds, before = functions(name), {}, None
    for moment, part, module in stored(name):
        key = part_of(part, module, known)
        seconds[key] = seconds.get(key, 0) + (0 if before is None else moment - before)
        before = moment
    seconds[None, "reading"] = ended - began - sum(seconds.values())
    return seconds


def checked(name):
    """Has the crate checked, and says when that began and ended."""
    began = time.time()
    done = subprocess.run(["rt", "check"], cwd=folder_of(name), capture_output=True, text=True)
    ended = time.time()
    said = done.stdout + done.stderr
    if done.returncode:
        sys.exit(f"{name} is not proved:\n{said[-4000:]}")
    return began, ended, said


def check(name):
    """When the check began and ended, from nothing, over libraries that are made already."""
    checked(name)
    shutil.rmtree(kept(name), ignore_errors=True)
    began, ended, said = checked(name)
    begun = [folder for crate, folder in BEGUN.findall(said) if crate == name]
    if begun:
        sys.exit(f"{name} was not checked from nothing, but from what a check kept in {begun[0]}")
    return began, ended


def report(name, every):
    seconds = parts(name, *check(name))
    whole = {part: sum(took for (_, own), took in seconds.items() if own == part)
             for part in ("reading", "specs", "shared", "walk", "proof")}
    print(f"{name}: {sum(whole.values()):.1f} s: " + ", ".join(f"{part} {took:.1f}" for part, took in whole.items()))
    owners = {owner for owner, _ in seconds if owner}
    rows = sorted(((seconds.get((owner, "walk"), 0), seconds.get((owner, "proof"), 0), owner) for owner in owners),
                  key=lambda row: -row[0] - row[1])
    for walk, proof, owner in rows if every else rows[:SLOWEST]:
        print(f"  {owner:<34}{walk:8.1f}{proof:8.1f}")
    sys.stdout.flush()


def main():
    every = "--all" in sys.argv[1:]
    names = [word for word in sys.argv[1:] if word != "--all"]
    if not names or any(name.startswith("-") for name in names):
        sys.exit(__doc__)
    print(f"{'':36}{'walk':>8}{'proof':>8}")
    for name in names:
        report(name, every)


if __name__ == "__main__":
    main()
