"""Words of the command line, and outputs that take nothing."""

import subprocess

from common import TOOL, Ran, full_text


WRONG = [
    [], ["read"], ["take"], ["take", "console", "--address", "48"], ["take", "console", "--timeout", "0"], ["take", "console", "--parity", "mark"],
    ["take", "console", "--dat"], ["compare", "a"], ["compare", "a", "b", "--brief"], ["program"], ["calls", "a", "b"],
]  # fmt: skip


def wrong_words(folder):
    """Usage on standard error, and status 2."""
    for case in WRONG:
        ran = Ran(*case)
        if ran.status != 2 or ran.out or not ran.err.startswith("usage: bin/reading"):
            yield f"{case}: status {ran.status}, {ran.out!r}, {ran.err!r}"


def help_asked(folder):
    """Usage on standard output, and status 0."""
    for case in [[], ["take"], ["compare"], ["program"], ["calls"]]:
        ran = Ran(*case, "--help")
        if ran.status != 0 or ran.err or not ran.out.startswith("usage: bin/reading"):
            yield f"{case} --help: status {ran.status}, {ran.err!r}"


def full_device(folder):
    source = folder.file("full.reading", full_text())
    for case in [["take", "console"], ["program", source], ["calls", source], ["compare", source, source]]:
        with open("/dev/full", "wb") as full:
            ran = subprocess.run([TOOL, *case], stdout=full, stderr=subprocess.PIPE, stdin=subprocess.DEVNULL)
        if ran.returncode != (2 if case[0] == "compare" else 1) or b"No space left" not in ran.stderr or ran.stderr.count(b"\n") != 1:
            yield f"{case[0]} to a full device: status {ran.returncode}, {ran.stderr!r}"


CASES = [wrong_words, help_asked, full_device]
