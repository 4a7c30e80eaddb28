"""Asking the oracle: cases in, its answers out, in order."""
import os
import subprocess

ROOT = os.path.join(os.path.dirname(os.path.abspath(__file__)), "..")
BUILDS = ("release", "checked")


def program(build="release"):
    """The oracle's path, of one of the two builds."""
    path = os.path.join(ROOT, "target", "oracle", build, "oracle")
    if not os.path.exists(path):
        raise SystemExit(f"{path} is not there: build it by EQMAP_SRC=FOLDER oracle/build")
    return path


def answers(call, cases, build="release", seconds=5, options=()):
    """The answer to each case, a line of text each."""
    text = "".join(case + "\n" for case in cases)
    command = [program(build), call, "--seconds", str(seconds), *options]
    done = subprocess.run(command, input=text, capture_output=True, text=True, check=False)
    lines = done.stdout.splitlines()
    if done.returncode != 0 or len(lines) != len(cases):
        raise SystemExit(f"oracle {call}: {len(lines)} answers to {len(cases)} cases; {done.stderr}")
    return lines


def has_answer(answer):
    """Whether this is an answer, and not why there is none."""
    return answer[:1].isdigit()


# ---- cases as lines


def line(*parts):
    """Numbers and lists of numbers as one line."""
    words = []
    for part in parts:
        words += part if isinstance(part, (list, tuple)) else [part]
    return " ".join(map(str, words))


def one_list(given):
    """The line of verify and of canonicalise."""
    nodes, pool = given
    return line(len(nodes), len(pool), nodes, pool)


def evaluation(given, given_bytes):
    nodes, pool = given
    return line(len(nodes), len(pool), len(given_bytes), nodes, pool, list(given_bytes))


def comparison(first, second):
    sizes = [len(part) for given in (first, second) for part in given]
    return line(sizes, *first, *second)


def separation(given, n, marks):
    nodes, pool = given
    return line(len(nodes), len(pool), n, marks, nodes, pool)
