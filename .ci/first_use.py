#!/usr/bin/env python3
"""Proves and builds a program of this repository, for its first use: first_use.py PROGRAM [--try ARGS ..]

It works on a copy of what the program is made from. Each crate is proved by the calls of the prover that `rt` makes too, as
many side by side as there are processors, those first that the longest chain of others waits for. What is proved is kept in
out/proved under a sum of all that it was proved from, so whatever ends this run, the next goes on where it stood, and going
back to an earlier state costs nothing. Libraries that `rt ci` has proved in this checkout are taken. `rt ci` is the judge of
what may be merged: it proves with a kit's own checks on texts, and builds by two compilers.

With --try it runs the program unproved, by `rt try`, which stops it at a wrong access."""
import contextlib
import fcntl
import os
import pathlib
import shutil
import signal
import subprocess
import sys
import tempfile
import time

sys.dont_write_bytecode = True
import prover

OUT = prover.ROOT / "out"
STORE = OUT / "proved" / prover.version()[0]
LOGS = OUT / "logs"
# of each crate so many states stay
STATES = 3


def kept(tree, crate):
    """Where the proved library, or the built program, of a crate is kept."""
    return STORE / f"{crate}-{tree.key(crate)[:32]}"


def made(tree, crate):
    """The library or program that is kept of a crate, in its folder."""
    is_program = tree.root_file(crate) == "src/main.rt"
    return kept(tree, crate) / (crate.removesuffix("_main") if is_program else f"{crate}.rlib")


def weight(tree, crate):
    """How long a crate takes, in lines: a line of code takes as long as some four of proofs."""
    counts = {it: (tree.folder(crate) / it).read_bytes().count(b"\n") for it in tree.files(crate)}
    return 200 + sum(count if it.suffix == ".rt" else count / 4 for it, count in counts.items())


class Progress:
    """What is told of a run: how many crates are proved, after how long, and how long the rest may take."""

    def __init__(self, tree, program, crates, done):
        self.tree, self.program, self.all, self.number, self.began = tree, program, len(crates), 0, time.time()
        self.weights = {it: weight(tree, it) for it in crates}
        self.left = sum(self.weights[it] for it in crates if it not in done)
        self.whole = self.left
        for it in done:
            self.tell(it, "before")

    def tell(self, crate, how):
        self.number += 1
        print(f"{self.program}: proved {self.number} of {self.all}: {crate} ({how})", file=sys.stderr, flush=True)

    def ended(self, crate, running):
        self.left -= self.weights[crate]
        spent = time.time() - self.began
        # (of those under way half is taken as done)
        ahead = self.left - sum(self.weights[it] for it in running) / 2
        rest = spent * ahead / max(self.whole - ahead, 1)
        self.tell(crate, f"{spent / 60:.0f} min" + (f", about {rest / 60:.0f} left" if self.number < self.all else ""))


class Stopped(Exception):
    """Why a run ends early."""


class Build:
    """Proves crates side by side, each once those below it are proved."""

    def __init__(self, tree, crates, found, program):
        self.tree, self.found, self.running = tree, found, {}
        self.left = [it for it in crates if it not in found]
        self.progress = Progress(tree, program, crates, [it for it in crates if it in found])
        self.heights = {}

    def height(self, crate):
        """How long the longest chain of crates is that begins with a crate and waits for it."""
        if crate not in self.heights:
            above = [self.height(it) for it in self.left if crate in self.tree.own_uses(it)]
            self.heights[crate] = weight(self.tree, crate) + max(above, default=0)
        return self.heights[crate]

    def run(self):
        for it in self.left:
            self.height(it)
        try:
            while self.left or self.running:
                self.start_ready()
                self.take_ended()
                time.sleep(0.2)
        finally:
            for process, _ in self.running.values():
                with contextlib.suppress(ProcessLookupError):
                    os.killpg(process.pid, signal.SIGKILL)

    def start_ready(self):
        """Starts what can be proved now. The crate that most others wait for has a job for each processor, whatever else runs, and
        goes first. Half as many jobs again as there are processors keep these busy; the other crates share what is left of them."""
        ready = [it for it in self.left if all(use in self.found for use in self.tree.own_uses(it))]
        ready.sort(key=self.height, reverse=True)
        tallest = max([*ready, *self.running], key=self.height, default=None)
        for place, crate in enumerate(ready):
            cores = len(os.sched_getaffinity(0)) if self.running else prover.cores()
            idle = cores + cores // 2 - sum(jobs for _, jobs in self.running.values())
            if idle < 1 and crate != tallest:
                break
            jobs = cores if crate == tallest else max(1, idle - (len(ready) - place - 1))
            jobs = min(4, jobs)
            self.left.remove(crate)
            self.running[crate] = self.start(crate, jobs, 0 if crate == tallest else 5), jobs

    def start(self, crate, jobs, nice):
        room = STORE / f"new-{crate}"
        shutil.rmtree(room, ignore_errors=True)
        room.mkdir(parents=True)
        is_program = self.tree.root_file(crate) == "src/main.rt"
        more = ["--toolchain", f"{prover.kit()}/toolchain", *backend(), "-o", f"{room}/{crate}.o"]
        flags = ["--jobs", str(jobs), *(more if is_program else ["--statements", "-o", f"{room}/{crate}.rlib"])]
        libraries = {it: made(self.tree, it) if self.found[it] is None else self.found[it] for it in self.tree.below(crate)}
        with open(LOGS / f"{crate}.log", "w", encoding="utf-8") as log:
            return prover.start(prover.command(self.tree, crate, "build", libraries, *flags), self.tree.folder(crate), log, nice)

    def take_ended(self):
        for crate, (process, _) in list(self.running.items()):
            if process.poll() is None:
                continue
            del self.running[crate]
            room = STORE / f"new-{crate}"
            if process.returncode or (room / f"{crate}.o").is_file() and link(room, crate):
                raise Stopped(f"{crate} was not proved; {LOGS}/{crate}.log says why")
            shutil.rmtree(kept(self.tree, crate), ignore_errors=True)
            room.rename(kept(self.tree, crate))
            self.found[crate] = None
            self.progress.ended(crate, self.running)


def backend():
    """The flag that has LLVM compile, for kits that have another compiler too."""
    said = subprocess.run([f"{prover.kit()}/bin/rattle", "build", "--help"], capture_output=True, text=True).stdout
    return ["--backend", "llvm"] if "--backend" in said else []


def link(room, crate):
    """Links a program that was compiled; the linker's status."""
    kit, program = prover.kit(), room / crate.removesuffix("_main")
    words = [f"{kit}/bin/rattle-link", "--target", "x86_64-unknown-linux-gnu", "--toolchain", f"{kit}/toolchain"]
    words += ["-o", str(program), f"{room}/{crate}.o", f"{kit}/c/libos_c.a", f"{kit}/c/liblibc_c.a"]
    with open(LOGS / f"{crate}.log", "a", encoding="utf-8") as log:
        return prover.start(words, room, log).wait()


def copied(room, crate):
    """A copy of what a crate is made from, as a tree."""
    whole = prover.Tree()
    crates = [*whole.below(crate), crate]
    for name in crates:
        for path in whole.files(name):
            to = room / "crates" / name / path
            to.parent.mkdir(parents=True, exist_ok=True)
            shutil.copyfile(whole.folder(name) / path, to)
    lines = [f"{it}: {' '.join(whole.uses[it])}\n" for it in crates]
    (room / "crates.txt").write_text("".join(lines), encoding="utf-8")
    return prover.Tree(room)


def proved(tree, crates, program):
    """Proves what isn't proved of these crates; where each library is, by name."""
    STORE.mkdir(parents=True, exist_ok=True)
    LOGS.mkdir(exist_ok=True)
    found = {it: None for it in crates if made(tree, it).exists()} | tree.left_by_gate(crates[-1])
    Build(tree, crates, found, program).run()
    for it in crates:
        if found[it] is None:
            os.utime(kept(tree, it))
        states = sorted(STORE.glob(f"{it}-" + "?" * 32), key=lambda at: at.stat().st_mtime, reverse=True)
        for old in states[STATES:]:
            shutil.rmtree(old, ignore_errors=True)
    return {it: made(tree, it) if at is None else at for it, at in found.items()}


def libraries(tree, crate):
    """The proved libraries below a crate, by name."""
    below = tree.below(crate)
    of_gate = tree.left_by_gate(crate)
    if len(of_gate) == len(below):
        return of_gate
    with one_at_a_time(".ci/edits"):
        return proved(tree, below, ".ci/edits")


@contextlib.contextmanager
def one_at_a_time(program):
    """Has one run prove at a time; another waits for it."""
    OUT.mkdir(exist_ok=True)
    with open(OUT / "lock", "w", encoding="utf-8") as lock:
        try:
            fcntl.flock(lock, fcntl.LOCK_EX | fcntl.LOCK_NB)
        except BlockingIOError:
            print(f"{program}: waiting for another first use to end", file=sys.stderr, flush=True)
            fcntl.flock(lock, fcntl.LOCK_EX)
        yield


def build(program):
    """Has out/built/PROGRAM be the program of the present sources."""
    crate, link_to = f"{program}_main", OUT / "built" / program
    with one_at_a_time(program), tempfile.TemporaryDirectory(prefix="ocl-first-use-") as room:
        began = time.time()
        tree = copied(pathlib.Path(room), crate)
        if not made(tree, crate).exists():
            print(f"{program}: proving and building the program, since it is its first use or its sources have changed;"
                  f" what the prover says goes to {LOGS}", file=sys.stderr, flush=True)
            proved(tree, [*tree.below(crate), crate], program)
        link_to.parent.mkdir(exist_ok=True)
        new = link_to.with_suffix(".new")
        new.unlink(missing_ok=True)
        new.symlink_to(made(tree, crate))
        new.rename(link_to)
        # what changes from a second before the copy on is looked at again
        mark = link_to.with_suffix(".looked")
        mark.touch()
        os.utime(mark, (began - 1, began - 1))


def try_it(program, words):
    """Runs the program unproved, with the files and folders that the words name."""
    print(f"{program}: this run is not of the proved program: nothing is proved of it", file=sys.stderr, flush=True)
    given, data = [], []
    for number, word in enumerate(words):
        if number == 0:  # the command: a folder may have its name
            pass
        elif os.path.isfile(word):
            name = word if not os.path.isabs(word) and ".." not in word.split("/") else f"{number}-{os.path.basename(word)}"
            data += ["--data", f"{os.path.normpath(name)}={os.path.abspath(word)}"]
            word = os.path.normpath(name)
        elif os.path.isdir(word):
            word = os.path.abspath(word)
        given.append(word)
    folder = prover.ROOT / "crates" / f"{program}_main"
    return subprocess.run(["rt", "try", *data, "--", *given], cwd=folder, stdin=subprocess.DEVNULL).returncode


def main(program, *words):
    for it in (signal.SIGTERM, signal.SIGHUP):
        signal.signal(it, lambda number, _: sys.exit(128 + number))
    if words[:1] == ("--try",):
        return try_it(program, words[1:])
    try:
        build(program)
    except KeyboardInterrupt:
        return 130
    except (Stopped, OSError) as why:
        print(f"{program}: {why}", file=sys.stderr)
        return 3
    return 0


if __name__ == "__main__":
    sys.exit(main(*sys.argv[1:]))
