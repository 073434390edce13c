"""The programs that the tools use, proved and built first where they are missing or older than their sources. What that takes is told on standard error;
a build reads nothing of standard input and writes nothing to standard output."""

import contextlib
import fcntl
import functools
import os
import select
import shutil
import signal
import subprocess
import sys
import time
from pathlib import Path

from workbench.trouble import Trouble, say

ROOT = Path(__file__).resolve().parent.parent
TARGET = ROOT / "target"
REFERENCE = ROOT / "reference/target/release/reference"
# All of them at once, so that one first build serves every tool.
PROGRAMS = ["console", "replay"]
# The last line of a proof that was done now, and not taken from before.
PROVED = "logic=proved"
# A build that is told to stop gets so many seconds for it.
GRACE = 5


@functools.lru_cache(maxsize=None)
def program(name):
    """The path of a proved program, looked after once in a run."""
    wanted = PROGRAMS if name in PROGRAMS else [name]
    build_where(lambda: stale_program(name), lambda lock, reason: prove(wanted, lock, f"the program {name} {reason}"))
    return str(out(name) / name)


@functools.lru_cache(maxsize=None)
def reference():
    """The path of the second implementation, likewise."""
    build_where(stale_reference, lambda lock, reason: compile_reference(lock, f"the second implementation {reason}"))
    return str(REFERENCE)


def build_where(stale, build):
    """Builds what is stale, one tool at a time. Who had to wait for another looks again."""
    if not stale():
        return
    with locked() as lock:
        reason = stale()
        if reason:
            build(lock, reason)


@contextlib.contextmanager
def locked():
    """One build at a time: two would write the same files."""
    TARGET.mkdir(exist_ok=True)
    with open(TARGET / "build.lock", "w") as lock:
        try:
            fcntl.flock(lock, fcntl.LOCK_EX | fcntl.LOCK_NB)
        except BlockingIOError:
            say("build", "another tool is building; this one waits until that is done")
            fcntl.flock(lock, fcntl.LOCK_EX)
        yield lock


# What is stale, and why.


def out(name):
    """Where rt puts what it makes of a crate."""
    return ROOT / "crates" / name / "out"


def stale_program(name):
    """Why a program has to be built, or nothing."""
    path = out(name) / name
    if not os.access(path, os.X_OK) or not is_whole(path):
        return "is not built yet"
    return "is older than its crates" if is_behind(path, name) else ""


def is_whole(path):
    """Whether the build of a program came to its end: `rt run` leaves a stamp then, and `rt ci` what the program wrote."""
    stamp, wrote = path.with_name(f"{path.name}.stamp"), path.with_name("stdout")
    return stamp.exists() or (wrote.exists() and wrote.stat().st_mtime_ns >= path.stat().st_mtime_ns)


def is_behind(path, name):
    """Whether what was made of a crate is older than it and what it uses."""
    return is_older(path, [ROOT / "crates.txt"], [ROOT / "crates" / crate for crate in with_uses([name])])


def stale_reference():
    if not os.access(REFERENCE, os.X_OK):
        return "is not built yet"
    files = [ROOT / "reference/Cargo.toml", ROOT / "reference/Cargo.lock"]
    return "is older than its sources" if is_older(REFERENCE, files, [ROOT / "reference/src"]) else ""


def is_older(path, files, folders):
    made = path.stat().st_mtime_ns
    inside = (os.path.join(at, name) for folder in folders for at, names in walked(folder) for name in names)
    return any(changed(source) > made for source in [*files, *inside])


def walked(folder):
    """The folders of a source with their files, without what rt has made there."""
    for at, below, names in os.walk(folder):
        if at == os.fspath(folder) and "out" in below:
            below.remove("out")
        yield at, names


def changed(source):
    """When a file was changed last. One that is gone in the meantime, as the notes of an editor are, is nobody's source."""
    try:
        return os.stat(source).st_mtime_ns
    except FileNotFoundError:
        return 0


def with_uses(names):
    """Names of crates with all that they use, each after what it uses. What crates.txt does not list comes with the toolchain."""
    lines = (line.partition("#")[0].partition(":") for line in (ROOT / "crates.txt").read_text().splitlines())
    uses = {said.split()[0]: used.split() for said, colon, used in lines if colon}
    found = []

    def visit(name):
        if name in uses and name not in found:
            for used in uses[name]:
                visit(used)
            found.append(name)

    for name in names:
        visit(name)
    return found


# Builds.


def prove(names, lock, reason):
    """Proves crates and all that they use by rt, the lowest first, and builds them: a library for those above it, a program with a run of no input."""
    needed("rt", "the Rattle toolchain, which proves and builds the engine", reason)
    crates = with_uses(names)
    long = "tens of minutes on two cores where nothing is proved yet"
    say("build", f"{reason}: rt proves {len(crates)} crates and builds {' and '.join(names)}, which takes {long}")
    began, progress = time.time(), Progress(len(crates))
    try:
        for crate in crates:
            prove_crate(crate, lock, progress)
    finally:
        progress.end()
    for name in names:
        if (out(name) / name).exists():
            date(out(name) / name, began)


def prove_crate(crate, lock, progress):
    folder, log, anew, began = ROOT / "crates" / crate, TARGET / "log" / f"{crate}.out", [], time.monotonic()
    log.parent.mkdir(exist_ok=True)

    def hear(line):
        print(line, file=kept)
        anew.append(line.startswith(PROVED))

    with open(log, "w") as kept:
        status = run(["rt", "run" if (folder / "src/main.rt").exists() else "lib"], lock, progress, hear, folder)
    if status != 0:
        raise Trouble(f"the engine is not built: {crate} NOT PROVED (rt ended with status {status}); {log.relative_to(ROOT)} has what was said of it")
    progress.count(crate, f"build: {crate} proved ({time.monotonic() - began:.0f} s)" if any(anew) else "")


def compile_reference(lock, reason):
    """Builds the second implementation by cargo."""
    needed("cargo", "which builds it", reason)
    say("build", f"{reason}: cargo builds it, which takes less than a minute")
    log = TARGET / "log/reference.out"
    log.parent.mkdir(exist_ok=True)
    words = ["cargo", "build", "--release", "--offline", "--quiet", "--manifest-path", "reference/Cargo.toml", "--target-dir", "reference/target"]
    began = time.time()
    progress = Progress(0)
    with open(log, "w") as kept:
        try:
            status = run(words, lock, progress, lambda line: print(line, file=kept))
        finally:
            progress.end()
    if status != 0 or not REFERENCE.exists():
        raise Trouble("the second implementation is not built; target/log/reference.out has what cargo said")
    date(REFERENCE, began)


def needed(word, what, reason):
    if not shutil.which(word):
        raise Trouble(f"{reason}, and {word}, {what}, is not on the PATH: install it, or add its folder to the PATH")


def date(path, began):
    """Dates a program to when its build began: sources that were saved since then are newer."""
    os.utime(path, (began, began))


def run(words, lock, progress, hear, folder=ROOT):
    """Runs a command, hears its lines and gives its status. It has a group of its own, since the jobs that rt starts would outlive an interrupt, and it
    holds the lock as long as any of it runs."""
    process = subprocess.Popen(
        words, cwd=folder, stdin=subprocess.DEVNULL, stdout=subprocess.PIPE, stderr=subprocess.STDOUT, start_new_session=True, pass_fds=[lock.fileno()]
    )
    try:
        for line in lines(process.stdout):
            hear(line) if line is not None else progress.show()
        return process.wait()
    finally:
        stop(process)


def lines(stream):
    """Lines as they come, and None after each second in which none came."""
    rest = b""
    while True:
        if not select.select([stream], [], [], 1)[0]:
            yield None
            continue
        part = os.read(stream.fileno(), 65536)
        if not part:
            return
        *whole, rest = (rest + part).split(b"\n")
        yield from (line.decode(errors="replace") for line in whole)


def stop(process):
    """Ends a command that is not over, with all that it started."""
    if process.poll() is not None:
        return
    os.killpg(process.pid, signal.SIGTERM)
    with contextlib.suppress(subprocess.TimeoutExpired):
        process.wait(GRACE)
    with contextlib.suppress(ProcessLookupError):
        os.killpg(process.pid, signal.SIGKILL)
    process.wait()


class Progress:
    """How far a build is, on standard error: on a terminal one line that is rewritten, elsewhere a line for each crate that is proved anew."""

    def __init__(self, crates):
        self.crates = crates
        self.done = 0
        self.last = ""
        self.began = time.monotonic()
        self.rewritten = sys.stderr.isatty()
        self.shown = False

    def count(self, name, line):
        """Counts a crate; its line is empty where it was proved before."""
        self.done += 1
        self.last = f", {name} proved"
        if self.rewritten:
            self.show()
        elif line:
            print(f"{line}, {self.done} of {self.crates}", file=sys.stderr, flush=True)

    def show(self):
        if not self.rewritten:
            return
        minutes, seconds = divmod(int(time.monotonic() - self.began), 60)
        crates = f"{self.done} of {self.crates} crates{self.last}, " if self.crates else ""
        text = f"build: {crates}{minutes}:{seconds:02} elapsed"
        width = (os.get_terminal_size(sys.stderr.fileno()).columns or 80) - 1
        print(f"\r{text[:width]:<{width}}", end="", file=sys.stderr, flush=True)
        self.shown = True

    def end(self):
        if self.shown:
            print(file=sys.stderr, flush=True)
