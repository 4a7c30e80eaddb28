"""A scratch copy of the repository, in which a wrong answer is tried; the tree itself is never touched.

Each worker has a copy of its own, outside the repository, since the gate takes no code but that of crates. Its check
begins with what `rt check` proved of the tree, so only what an edit changes is proved there.
"""
import contextlib
import fcntl
import os
import shutil
import subprocess
import tempfile
from pathlib import Path

from edits import CRATES, PARTS, ROOT

WRONG = ROOT / "target" / "wrong"
# what the check needs of the folder above the crates
ABOVE = ("crates.txt", "HANDLES")


@contextlib.contextmanager
def held(what):
    """Has one run at a time do this, of those that go on beside each other."""
    WRONG.mkdir(parents=True, exist_ok=True)
    with open(WRONG / f"{what}.lock", "w") as lock:
        fcntl.flock(lock, fcntl.LOCK_EX)
        yield


def log_of(wrong):
    """Where what the check said of it is kept."""
    return WRONG / "log" / wrong.crate / f"{wrong.name}.log"


class Unproved(Exception):
    """A crate that is not proved as it stands, so that a refusal of an edit of it would show nothing."""


class Scratch:
    """One worker's copy of the repository."""

    def __init__(self):
        self.root = Path(tempfile.mkdtemp(prefix="wrong-"))
        for name in ABOVE:
            if (ROOT / name).is_file():
                shutil.copy(ROOT / name, self.root)
        shutil.copytree(CRATES, self.root / "crates", ignore=shutil.ignore_patterns("must-fail", "out"))

    def remove(self):
        shutil.rmtree(self.root, ignore_errors=True)

    def folder(self, crate):
        return self.root / "crates" / crate

    def restore(self, crate):
        """The crate as it stands in the tree."""
        for part in PARTS:
            source = CRATES / crate / part
            if source.is_dir():
                shutil.rmtree(self.folder(crate) / part, ignore_errors=True)
                shutil.copytree(source, self.folder(crate) / part)

    def check(self, crate):
        """What the check says of the crate as it stands in this copy: its status, its text, the processor's seconds."""
        with open(self.root / "said", "w+b") as said:
            child = subprocess.Popen(["rt", "check"], cwd=self.folder(crate), stdout=said, stderr=subprocess.STDOUT)
            status, used = os.wait4(child.pid, 0)[1:]
            child.returncode = os.waitstatus_to_exitcode(status)
            said.seek(0)
            text = said.read().decode("utf-8", errors="replace")
        return child.returncode, text, used.ru_utime + used.ru_stime

    def log(self, group, said):
        """Keeps what the check said, so that a refusal can be read up."""
        for wrong in group:
            log_of(wrong).parent.mkdir(parents=True, exist_ok=True)
            log_of(wrong).write_text(said)
