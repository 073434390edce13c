"""Tests that are programs of their own, two at a time."""

import signal
import subprocess
import time
from concurrent.futures import ThreadPoolExecutor
from pathlib import Path

ROOT = Path(__file__).resolve().parent.parent
AT_ONCE = 2


def run(test):
    """Whether a test went well; what it writes is passed on when it ends."""
    began = time.monotonic()
    ran = subprocess.run([ROOT / test], stdin=subprocess.DEVNULL, stdout=subprocess.PIPE, stderr=subprocess.STDOUT, text=True)
    failed = "" if ran.returncode == 0 else f"{test}: status {ran.returncode}\n"
    print(f"{ran.stdout}{failed}{test}: {time.monotonic() - began:.0f} s", flush=True)
    return ran.returncode == 0


def run_all(tests):
    """The status of all tests, the longest given first."""
    # A job in the background may have been started with interrupts ignored, and the tests inherit that; they send some.
    signal.signal(signal.SIGINT, signal.default_int_handler)
    with ThreadPoolExecutor(AT_ONCE) as pool:
        return 0 if all([*pool.map(run, tests)]) else 1
