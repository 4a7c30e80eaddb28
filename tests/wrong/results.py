"""What came of each wrong answer, kept in target/wrong/results.json with what it was tried on."""
import hashlib
import json
import subprocess
import threading

from edits import CRATES, PARTS, ROOT
from scratch import WRONG, held
from trial import REFUSED, Result

KEPT = WRONG / "results.json"


def deps_of(crate):
    """The crates of the repository that it uses."""
    for line in (ROOT / "crates.txt").read_text().splitlines():
        name, colon, deps = line.partition("#")[0].partition(":")
        # (the kind of a crate may stand behind its name)
        if colon and name.split()[:1] == [crate]:
            return [dep for dep in deps.split() if (CRATES / dep).is_dir()]
    return []


def below(crate):
    """The crates of the repository that it rests on, however far down."""
    found = set()
    for dep in deps_of(crate):
        found |= {dep} | below(dep)
    return found


def state_of(crate):
    """A digest of the crate's files, of those that it rests on and of the kit."""
    digest = hashlib.sha256(subprocess.run(["rt", "version"], stdout=subprocess.PIPE, check=False).stdout)
    for each in (crate, *sorted(below(crate))):
        files = [path for part in PARTS for path in sorted((CRATES / each / part).rglob("*")) if path.is_file()]
        for path in files:
            digest.update(str(path.relative_to(ROOT)).encode() + b"\0" + path.read_bytes())
    return digest.hexdigest()


def read_kept():
    return json.loads(KEPT.read_text()) if KEPT.is_file() else {}


class Results:
    def __init__(self):
        self.kept = read_kept()
        self.states = {}
        self.lock = threading.Lock()

    def key(self, wrong):
        if wrong.crate not in self.states:
            self.states[wrong.crate] = state_of(wrong.crate)
        return hashlib.sha256((self.states[wrong.crate] + wrong.path.read_text()).encode()).hexdigest()

    def of(self, wrong):
        """What came of it as it stands now; None where that was not tried."""
        key, *result = self.kept.get(f"{wrong.crate}/{wrong.name}", ("",))
        return Result(*result) if key == self.key(wrong) else None

    def stands(self, wrong):
        result = self.of(wrong)
        return result is not None and result.outcome == REFUSED

    def put(self, wrong, result):
        """Adds one; another run beside this one may have added others."""
        with self.lock, held("results"):
            self.kept = read_kept()
            self.kept[f"{wrong.crate}/{wrong.name}"] = (self.key(wrong), *result)
            KEPT.write_text(json.dumps(self.kept, indent=0, sort_keys=True))
