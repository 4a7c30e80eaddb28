"""Programs that make one call many times and time each: bench/calls.c over the library, the oracle over the original
Rust. Both read one case from standard input and write the answer, "|" and the nanoseconds of the shortest call.
"""
import os
import platform
import shutil
import signal
import subprocess
from collections import namedtuple

import places

# as many calls as fit in half a second, and no more than these; of those up to a second three
MOST_ROUNDS, NANOSECONDS = 1000, 500_000_000
LEAST_ROUNDS, NOT_LONG = 3, 1_000_000_000
# how long one call of the oracle may take, and what starting and reading may take besides
SECONDS, MARGIN = 5, 0.5

# answer: the words of the answer; or None, why there is none, and whether that is for want of time
Timed = namedtuple("Timed", "answer nanoseconds rounds why is_late")


def missing(why, is_late=False):
    return Timed(None, None, 0, why, is_late)


# ---- ours


def built():
    """The command of bench/calls.c, compiled and linked with the library; None where that does not come about."""
    os.makedirs(places.BUILT, exist_ok=True)
    program = os.path.join(places.BUILT, "calls")
    source = os.path.join(places.HERE, "calls.c")
    flags = ["-O2", "-std=c99", "-Wall", "-Wextra", "-Werror", "-pedantic", "-I", places.HEADERS]
    if shutil.which("cc") is None:
        return None
    done = subprocess.run(["cc", *flags, source, places.LIBRARY, "-o", program], check=False)
    return [program] if done.returncode == 0 else None


# ---- one run of a program


def run(command, call, rounds, words, seconds):
    """What the program writes and its status; None where it has not ended after so many seconds. However this is left,
    neither the program nor what it started itself runs on."""
    process = subprocess.Popen([*command, call, str(rounds)], stdin=subprocess.PIPE, stdout=subprocess.PIPE,
                               start_new_session=True)
    try:
        told, _ = process.communicate((" ".join(map(str, words)) + "\n").encode(), seconds)
    except subprocess.TimeoutExpired:
        return None
    finally:
        if process.poll() is None:
            os.killpg(process.pid, signal.SIGKILL)
            process.wait()
    return told.decode().strip(), process.returncode


def once(command, call, rounds, words, seconds):
    """So many calls."""
    done = run(command, call, rounds, words, seconds and seconds + MARGIN)
    told, status = done or ("late", 0)
    if told.startswith("late"):
        return missing(f"not ended in {seconds} s", True)
    answer, bar, nanoseconds = told.rpartition("|")
    if not bar:
        return missing(told or f"ends with status {status}")
    return Timed([int(word) for word in answer.split()], int(nanoseconds), rounds, "", False)


def rounds_for(nanoseconds):
    """How many calls are made where one takes so long."""
    least = LEAST_ROUNDS if nanoseconds <= NOT_LONG else 1
    return min(MOST_ROUNDS, max(least, NANOSECONDS // max(nanoseconds, 1)))


def timed(command, call, words, seconds=None):
    """One call and, where that one answers within so many seconds, as many as fit."""
    first = once(command, call, 1, words, seconds)
    rounds = 1 if first.answer is None else rounds_for(first.nanoseconds)
    if rounds == 1:
        return first
    again = once(command, call, rounds - 1, words, seconds)
    if again.answer is None:
        return first
    assert again.answer == first.answer, (call, again)
    return again._replace(nanoseconds=min(first.nanoseconds, again.nanoseconds), rounds=rounds)


# ---- in plain words


def in_units(nanoseconds):
    """Three digits and a unit."""
    for unit, size in (("days", 8.64e13), ("h", 3.6e12), ("s", 1e9), ("ms", 1e6), ("µs", 1e3)):
        if nanoseconds >= size:
            count = nanoseconds / size
            return f"{count:,.{2 if count < 10 else 1 if count < 100 else 0}f} {unit}"
    return f"{nanoseconds:.0f} ns"


def processor():
    try:
        with open("/proc/cpuinfo", encoding="utf-8") as file:
            for line in file:
                if line.startswith("model name"):
                    return line.split(":", 1)[1].strip()
    except OSError:
        pass
    return platform.processor() or platform.machine()
