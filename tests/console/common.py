"""What the tests of the console share. A test gives what it looks at, what must be seen and what is seen."""

import os
import signal
import subprocess
import sys
import time
from pathlib import Path

ROOT = Path(__file__).resolve().parent.parent.parent
sys.path.insert(0, str(ROOT))
CONSOLE = str(ROOT / "bin/console")
PROGRAM = str(ROOT / "crates/console/out/console")
# What does not come within so many seconds does not come.
PATIENCE = 10


def ran(words, given=b"", **more):
    """Status, standard output and standard error of a command."""
    done = subprocess.run(words, input=given, capture_output=True, timeout=PATIENCE, **more)
    return done.returncode, done.stdout, done.stderr.decode()


def alone(given):
    """What the program console itself writes."""
    return subprocess.run([PROGRAM], input=given, capture_output=True, timeout=PATIENCE).stdout


def lines(text):
    return len(text.splitlines())


def ended(pid):
    """The status of a child, which is killed where it does not end."""
    began = time.monotonic()
    while True:
        done, status = os.waitpid(pid, os.WNOHANG)
        if done:
            return os.waitstatus_to_exitcode(status)
        if time.monotonic() - began > PATIENCE:
            os.kill(pid, signal.SIGKILL)
        time.sleep(0.001)
