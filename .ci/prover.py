"""The repository's crates, and the calls of the prover that `rt` makes for one: shared by .ci/edits and .ci/first_use.

A proved library is a folder NAME.rlib. Those that `rt ci` leaves in crates/NAME/out are noted by .ci/run with a sum of the
text that they were proved from, and taken while that is the text; so nothing that changed since is taken for proved.

  prover.py -- COMMAND ..    runs a command that proves all, and where it passes notes what it has left. `rt ci` then has a crate
                             on each processor: by itself it leaves processors idle, since it takes a crate to need two to
                             four times the memory that it does"""
import ctypes
import functools
import hashlib
import json
import os
import pathlib
import shutil
import signal
import subprocess
import sys

ROOT = pathlib.Path(__file__).resolve().parent.parent
PARTS = ("src", "specs", "proofs")
# the libraries that `rt ci` has left here: of each crate a sum of its text, and one of what was built
GATE = ROOT / "out" / "gate.json"


@functools.cache
def kit():
    """The folder of the Rattle kit."""
    if not shutil.which("rt"):
        sys.exit(f"{sys.argv[0]}: rt, the command of the Rattle kit, was not found on the path")
    return pathlib.Path(subprocess.run(["rt", "doc"], capture_output=True, text=True).stdout.strip()).parent


@functools.cache
def version():
    """The kit's name, and the sum of the logic that it proves by: kits that prove the same have the same one."""
    name, *_, logic = subprocess.run(["rt", "version"], capture_output=True, text=True).stdout.split()
    return name, logic


class Tree:
    """The crates of a copy of the repository."""

    def __init__(self, root=ROOT):
        self.root = root
        self.uses = {}
        for line in (root / "crates.txt").read_text(encoding="utf-8").splitlines():
            if ":" in line and not line.startswith("#"):
                name, names = line.split(":", 1)
                self.uses[name.split()[0]] = names.split()

    def folder(self, crate):
        return self.root / "crates" / crate

    def own_uses(self, crate):
        """The crates of the repository that a crate names."""
        return [it for it in self.uses[crate] if it in self.uses]

    def below(self, crate):
        """All crates below a crate, each after those that it stands on."""
        found = {}
        for use in self.own_uses(crate):
            found |= dict.fromkeys(self.below(use)) | {use: None}
        return list(found)

    def files(self, crate):
        """The files that a crate is proved from, by their paths in it."""
        folder = self.folder(crate)
        paths = (path for part in PARTS for path in (folder / part).rglob("*") if path.suffix in (".rt", ".antt"))
        return sorted(path.relative_to(folder) for path in paths)

    def root_file(self, crate):
        return "src/main.rt" if (self.folder(crate) / "src/main.rt").is_file() else "src/lib.rt"

    @functools.cache
    def key(self, crate):
        """A sum of the logic and of all that a crate is proved from, that of the crates below too."""
        whole = hashlib.sha256(repr((version()[1], crate, self.uses[crate])).encode())
        for path in self.files(crate):
            whole.update(repr((str(path), (self.folder(crate) / path).read_bytes())).encode())
        for use in self.own_uses(crate):
            whole.update(self.key(use).encode())
        return whole.hexdigest()

    def left_by_gate(self, crate):
        """The libraries that `rt ci` has proved of the very text of the crates below and left in this checkout, by name."""
        noted = json.loads(GATE.read_text(encoding="utf-8")) if GATE.is_file() else {}
        found = {}
        for it in self.below(crate):
            rlib = ROOT / f"crates/{it}/out/rlib/{it}.rlib"
            if all(use in found for use in self.own_uses(it)) and noted.get(it) == [self.key(it), mark_of(rlib)]:
                found[it] = rlib
        return found


def mark_of(rlib):
    """What tells one build of a library from another: its file `format` holds a sum of all others. None where there is none."""
    path = rlib / "format"
    return hashlib.sha256(path.read_bytes()).hexdigest() if path.is_file() else None


def note_gate(begun=None):
    """Gives the sum of each crate's text; with those of before `rt ci`, which has passed since, notes the libraries that it has left."""
    tree = Tree()
    sums = {it: tree.key(it) for it in tree.uses}
    if begun is not None:
        GATE.parent.mkdir(exist_ok=True)
        left = {it: [sums[it], mark_of(ROOT / f"crates/{it}/out/rlib/{it}.rlib")] for it in sums if sums[it] == begun.get(it)}
        GATE.write_text(json.dumps(left, indent=0), encoding="utf-8")
    return sums


def command(tree, crate, verb, libraries, *flags):
    """A call of the prover on a crate, from its own folder or a copy of it, over proved libraries by name."""
    words = [f"{kit()}/bin/rattle", verb, "--crate-name", crate, tree.root_file(crate)]
    for name in ["std", *tree.uses[crate]]:
        words += ["--extern", f"{name}={libraries.get(name, f'{kit()}/rlibs/{name}.rlib')}"]
    words += ["-L", f"dependency={kit()}/rlibs"]
    for folder in dict.fromkeys(str(pathlib.Path(libraries[it]).parent) for it in tree.below(crate)):
        words += ["-L", f"dependency={folder}"]
    words += ["--antt-project", f"{kit()}/rattle/logic/antt-project.json", "--logic-built", f"{kit()}/logic_built"]
    return [*words, "--links", f"{crate}=", *flags]


def dies_with_this(nice):
    """Has a started process end when this one does, however that ends; and not by the terminal's interrupt, which this one passes on."""
    ctypes.CDLL(None).prctl(1, signal.SIGKILL)
    os.setpgrp()
    os.nice(nice)


def start(words, cwd, to, nice=0):
    """Starts a call with its output going to a file, behind other work by so much as `nice` says."""
    how = {"stdin": subprocess.DEVNULL, "stdout": to, "stderr": subprocess.STDOUT}
    return subprocess.Popen(words, cwd=cwd, preexec_fn=lambda: dies_with_this(nice), **how)


def cores():
    """How many processors there are to use, and one for each 4 GB of free memory at most."""
    with open("/proc/meminfo", encoding="utf-8") as it:
        free = next(int(line.split()[1]) for line in it if line.startswith("MemAvailable"))
    return max(1, min(len(os.sched_getaffinity(0)), free // 4_000_000))


if __name__ == "__main__":
    before = note_gate()
    status = subprocess.run(sys.argv[2:], env={"RT_JOBS": str(cores()), **os.environ}).returncode
    if status == 0:
        note_gate(before)
    sys.exit(status if status >= 0 else 128 - status)
