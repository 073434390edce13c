"""The build before the first use, with an rt and a cargo that only say what the real ones say."""

import os
import pty
import signal
import sys
import time
from pathlib import Path

from common import PATIENCE, PROGRAM, lines
from tree import ANSWERS, GIVEN, in_a_tree

FAILING = "if [ $name = replay ]; then echo 'logic=not-proved'; exit 1; fi"


@in_a_tree
def first_build(tree):
    tree.rt()
    status, output, told = tree.ran()
    first, *more = told.splitlines()
    yield "the first use", (0, ANSWERS), (status, output)
    yield "a sentence at once", [], [part for part in ["is not built yet", "3 crates", "tens of minutes"] if part not in first]
    yield "a line for each crate that is proved anew, and nothing else of rt", ["build: console proved (0 s), 2 of 3", "build: replay proved (0 s), 3 of 3"], more
    yield "one build for all tools", "laws lib\nconsole run\nreplay run\n", (tree.root / "calls").read_text()
    yield "what rt said", "fn console::main: proved", (tree.root / "target/log/console.out").read_text().splitlines()[1]
    yield "standard input is the console's", "", (tree.root / "read").read_text()
    yield "the second use", (0, ANSWERS, ""), tree.ran()


@in_a_tree
def older_programs(tree):
    tree.rt()
    tree.ran()
    later = time.time() + 1
    os.utime(tree.source, (later, later))
    status, output, told = tree.ran()
    yield "a newer source", (0, ANSWERS, True, 2), (status, output, "is older than its crates" in told, tree.builds())
    os.utime(tree.source, (1, 1))
    yield "then none", (0, ANSWERS, ""), tree.ran()
    tree.program.unlink()
    yield "a program that is gone, its stamp there", (0, ANSWERS, 3), (*tree.ran()[:2], tree.builds())
    tree.stamp.unlink()
    yield "a build that was cut off, its program there", (0, ANSWERS, 4), (*tree.ran()[:2], tree.builds())


@in_a_tree
def left_by_the_gate(tree):
    """`rt ci` leaves no stamp, and what the program wrote."""
    tree.rt()
    tree.programs(f"#!/bin/sh\nexec '{PROGRAM}'\n")
    tree.stamp.unlink()
    wrote = tree.program.with_name("stdout")
    wrote.write_text("")
    yield "a program that was run", (0, ANSWERS, ""), tree.ran()
    later = time.time() + 1
    os.utime(tree.program, (later, later))
    yield "one that was linked since and not run", (0, ANSWERS, 1), (*tree.ran()[:2], tree.builds())


@in_a_tree
def failures(tree):
    status, output, told = tree.ran(path="/nowhere")
    yield "no rt", (1, b"", 1), (status, output, lines(told))
    yield "no rt, told", [], [part for part in ["rt", "PATH", "is not built yet"] if part not in told]
    tree.rt(end=FAILING)
    status, output, told = tree.ran()
    yield "a crate that is not proved", (1, b""), (status, output)
    yield "a crate that is not proved, told", [], [part for part in ["replay NOT PROVED", "target/log/replay.out"] if part not in told.splitlines()[-1]]
    tree.tool("rt", "#!/bin/sh\nexit 2\n")
    tree.program.unlink()
    yield "an rt that breaks", (1, b"", True), (*tree.ran()[:2], "status 2" in tree.ran()[2])


@in_a_tree
def interrupt(tree):
    """The jobs of rt ignore an interrupt, so they have to be ended one by one."""
    tree.rt(wait="(trap '' INT; sleep 60) & echo $! >job; wait")
    started = tree.start()
    job = tree.root / "job"
    until(lambda: job.exists() and job.read_text().endswith("\n"))
    started.send_signal(signal.SIGINT)
    output, told = started.communicate(timeout=PATIENCE)
    yield "interrupted", (130, b"", True), (started.returncode, output, told.endswith(b"bin/console: interrupted\n"))
    yield "nothing of the build is left", True, until(lambda: not alive(int(job.read_text())))


def until(holds):
    began = time.monotonic()
    while not holds() and time.monotonic() - began < PATIENCE:
        time.sleep(0.01)
    return holds()


def alive(pid):
    try:
        return Path(f"/proc/{pid}/stat").read_text().rpartition(")")[2].split()[0] != "Z"
    except (FileNotFoundError, ProcessLookupError):
        return False


@in_a_tree
def two_at_once(tree):
    tree.rt(wait="until [ -f go ]; do sleep 0.01; done")
    first = tree.start()
    until((tree.root / "calls").exists)
    second = tree.start()
    waits = second.stderr.readline().decode()
    (tree.root / "go").touch()
    yield "the second waits, and says so", True, "another tool is building" in waits
    yield "both go on", [ANSWERS, ANSWERS], [tool.communicate(GIVEN, PATIENCE)[0] for tool in [first, second]]
    yield "one build", 1, tree.builds()


@in_a_tree
def at_a_terminal(tree):
    """One line, rewritten."""
    tree.rt(wait="sleep 1.1")
    ours, theirs = pty.openpty()
    started = tree.start(stderr=theirs)
    os.close(theirs)
    output, _ = started.communicate(GIVEN, PATIENCE)
    told = os.read(ours, 65536).decode()
    os.close(ours)
    yield "answers", (0, ANSWERS), (started.returncode, output)
    yield "a sentence, then one line", 2, told.count("\r\n")
    yield "progress with the time", [], [part for part in ["1 of 3 crates, laws proved, 0:01 elapsed", "\rbuild: 3 of 3 crates"] if part not in told]


@in_a_tree
def second_implementation(tree):
    words = [sys.executable, "-B", "-c", "from workbench import build, trouble; trouble.run('x', lambda: print(build.reference()))"]
    status, output, told = tree.ran(words=words, path="/nowhere", cwd=tree.root)
    yield "no cargo", (1, b"", True), (status, output, "cargo" in told and "PATH" in told)
    tree.tool("cargo", "#!/bin/sh\necho 'error: no such thing'; exit 101\n")
    status, output, told = tree.ran(words=words, cwd=tree.root)
    yield "a cargo that fails", (1, b"", True), (status, output, "target/log/reference.out" in told)
    yield "its log", "error: no such thing\n", (tree.root / "target/log/reference.out").read_text()
    tree.tool("cargo", "#!/bin/sh\nmkdir -p reference/target/release; cp /bin/sh reference/target/release/reference\n")
    made = f"{tree.root}/reference/target/release/reference\n".encode()
    yield "a build", (0, made, 1), (*(seen := tree.ran(words=words, cwd=tree.root))[:2], lines(seen[2]))
    yield "no second one", (0, made, ""), tree.ran(words=words, cwd=tree.root)


TESTS = [first_build, older_programs, left_by_the_gate, failures, interrupt, two_at_once, at_a_terminal, second_implementation]
