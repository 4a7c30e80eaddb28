"""Workers that try wrong answers, a crate at a time each, so that what one check proves serves the next."""
import queue
import subprocess
import threading

from edits import CRATES
from scratch import Scratch, Unproved, held
from trial import REFUSED, groups, tried


def prove(crates):
    """Has the crates proved that the wrong answers are of, and those below; what is unchanged is not proved again."""
    print(f"seeing that {len(crates)} crates are proved as they stand", flush=True)
    for crate in sorted(crates):
        with held("prove"):
            done = subprocess.run(["rt", "check"], cwd=CRATES / crate, stdout=subprocess.PIPE, stderr=subprocess.STDOUT)
        if done.returncode != 0:
            said = done.stdout.decode("utf-8", errors="replace")
            raise Unproved(f"{crate} is not proved as it stands:\n{said[-3000:]}")


class Run:
    """One run over many wrong answers."""

    def __init__(self, left, results, together):
        self.by_crate = {}
        for wrong in left:
            self.by_crate.setdefault(wrong.crate, []).append(wrong)
        self.results, self.together, self.total = results, together, len(left)
        self.crates = queue.Queue()
        for crate in sorted(self.by_crate, key=lambda name: -len(self.by_crate[name])):
            self.crates.put(crate)
        self.lock, self.done, self.refused, self.faults = threading.Lock(), 0, set(), []

    def work(self):
        scratch = Scratch()
        try:
            while not self.faults:
                self.try_crate(scratch, self.crates.get_nowait())
        except queue.Empty:
            return
        except Exception as fault:  # told by the main thread: what was not tried must not count as refused
            self.faults.append(fault)
        finally:
            scratch.remove()

    def try_crate(self, scratch, crate):
        for group in groups(self.by_crate[crate], self.together):
            for wrong, result in tried(scratch, group).items():
                self.results.put(wrong, result)
                self.tell(wrong, result)

    def tell(self, wrong, result):
        with self.lock:
            self.done += 1
            if result.outcome == REFUSED:
                self.refused.add(wrong)
            said = f"at {result.place}: {result.fact}" if result.outcome == REFUSED else result.fact
            beside = f", {result.beside} in one check" if result.beside > 1 else ""
            print(f"{self.done}/{self.total} {wrong.crate}/{wrong.name}: {result.outcome} {said} "
                  f"({result.seconds:.0f} s{beside})", flush=True)


def try_all(left, results, jobs, together):
    """Tries them, says what came of each and how many were refused; gives how many were not."""
    prove({wrong.crate for wrong in left})
    run = Run(left, results, together)
    threads = [threading.Thread(target=run.work, daemon=True) for _ in range(jobs)]
    for thread in threads:
        thread.start()
    for thread in threads:
        thread.join()
    if run.faults:
        raise run.faults[0]
    bad = [wrong for wrong in left if wrong not in run.refused]
    gate = sum(wrong.gate for wrong in left)
    print(f"{len(left)} tried ({gate} of them the gate's), {len(run.refused)} refused by a fact, {len(bad)} not")
    for wrong in bad:
        print(f"not refused by a fact: {wrong.crate}/{wrong.name}")
    return len(bad)
