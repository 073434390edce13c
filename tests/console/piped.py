"""bin/console in a pipe: bytes as the program console alone writes them."""

import os
import random
import signal
import subprocess
import tempfile

from common import CONSOLE, PATIENCE, PROGRAM, alone, ended, lines, ran
from workbench import console_pipe, trouble
from workbench.console_codes import COMMANDS, INSTRUCTIONS, REQUESTS

RANDOM = random.Random(17)
EXAMPLE = b"00QA\r00WN,228,65,0400,000\r00QM,228\r"
EXAMPLES = [topic.example.encode() for topic in [*COMMANDS, *REQUESTS, *INSTRUCTIONS]]


def example_of_01():
    yield "01's example", (0, b"00QA,+0\r00Y\r00QM,228,65,400,000\r", ""), ran([CONSOLE], EXAMPLE)
    yield "no input", (0, b"", ""), ran([CONSOLE])
    yield "bytes after the last 13", (0, b"00QA,+0\r", ""), ran([CONSOLE], b"00QA\r00QA")


def any_string():
    """An example, whole or with a byte changed, or any bytes; one in eight is long."""
    string = bytearray(RANDOM.choice(EXAMPLES))
    if RANDOM.randrange(3) == 0:
        string[RANDOM.randrange(len(string))] = RANDOM.randrange(256)
    if RANDOM.randrange(6) == 0:
        string = bytearray(RANDOM.randbytes(RANDOM.randint(0, 90)))
    return bytes(string) + RANDOM.choice([b"\r"] * 6 + [b"\r\n", b""]) + bytes(RANDOM.randrange(8) == 0) * 100


def any_input():
    return b"".join(any_string() for _ in range(RANDOM.choice([1, 3, 30])))


def talked(given):
    """What the tool writes, in a copy of this process: starting an interpreter for each of hundreds takes too long."""
    with tempfile.TemporaryFile() as source, tempfile.TemporaryFile() as sink:
        source.write(given)
        source.seek(0)
        child = os.fork()
        if child == 0:
            talk_over(source.fileno(), sink.fileno())
        status = ended(child)
        sink.seek(0)
        return status, sink.read()


def talk_over(source, sink):
    """Never comes back."""
    status = trouble.FAILED
    try:
        os.dup2(source, 0)
        os.dup2(sink, 1)
        os.dup2(os.open(os.devnull, os.O_WRONLY), 2)
        # Whether it has to be built is looked at elsewhere.
        console_pipe.build.program = lambda _: PROGRAM
        console_pipe.talk()
        status = 0
    finally:
        os._exit(status)


def random_inputs():
    for _ in range(300):
        given = any_input()
        yield f"input {given!r}", (0, alone(given)), talked(given)


def large_input():
    given = b"00WN,100,65,0400,000\r00QM,100\r" * 20_000
    yield "600,000 bytes", (0, alone(given), ""), ran([CONSOLE], given)


def step_by_step():
    """A client that waits for each answer before it sends the next string."""
    with subprocess.Popen([CONSOLE], stdin=subprocess.PIPE, stdout=subprocess.PIPE, bufsize=0) as console:
        for string, answer in [(b"00QA\r", b"00QA,+0\r"), (b"00SA,-7\r", b"00Y\r"), (b"00QA\r", b"00QA,-7\r")]:
            console.stdin.write(string)
            yield f"answer to {string!r} alone", answer, os.read(console.stdout.fileno(), 64)
        console.stdin.close()
        yield "end of the input", (b"", 0), (console.stdout.read(), console.wait(PATIENCE))


def line_ends():
    """One line that says what to send."""
    for what, given, answers, told in [
        ("line feeds alone", b"00QA\n00QE\n", b"", ["line feeds", "no byte 13", "printf '00QA\\r'"]),
        ("neither 13 nor line feed", b"00QA", b"", ["no byte 13", "printf '00QA\\r'"]),
        ("line feeds after 13", b"00QA\r\n00QA\r\n", b"00QA,+0\r", ["line feeds", "after byte 13"]),
        ("a line feed within", b"00Q\nA\r00QA\r", b"00N\r00QA,+0\r", []),
    ]:
        status, output, complaint = ran([CONSOLE], given)
        yield what, (0, answers, bool(told)), (status, output, lines(complaint) == 1)
        yield f"{what}, told", [], [part for part in told if part not in complaint]


def outputs_that_fail():
    with open("/dev/full", "wb") as full:
        done = subprocess.run([CONSOLE], input=EXAMPLE, stdout=full, stderr=subprocess.PIPE, timeout=PATIENCE)
    yield "a full output", (1, 1, True), (done.returncode, lines(done.stderr.decode()), b"standard output" in done.stderr)
    with subprocess.Popen([CONSOLE], stdin=subprocess.PIPE, stdout=subprocess.PIPE, stderr=subprocess.PIPE) as console:
        console.stdout.close()
        console.stdin.write(EXAMPLE)
        console.stdin.close()
        complaint = console.stderr.read().decode()
        yield "a closed pipe", (1, 1, True), (console.wait(PATIENCE), lines(complaint), "closed" in complaint)
    status, output, complaint = ran(["sh", "-c", f"exec '{CONSOLE}' >&-"], EXAMPLE)
    yield "no standard output", (1, b"", 1), (status, output, lines(complaint))


def interrupts():
    """The child ends too: its end of the pipe of complaints would stay open else."""
    for number in [signal.SIGINT, signal.SIGTERM]:
        with subprocess.Popen([CONSOLE], stdin=subprocess.PIPE, stdout=subprocess.PIPE, stderr=subprocess.PIPE, bufsize=0) as console:
            console.stdin.write(b"00QA\r")
            answer = os.read(console.stdout.fileno(), 64)
            console.send_signal(number)
            complaint = console.stderr.read().decode()
            yield f"signal {number}", (b"00QA,+0\r", b"", 130, 1), (answer, console.stdout.read(), console.wait(PATIENCE), lines(complaint))


def words():
    status, output, complaint = ran([CONSOLE, "--help"])
    yield "--help", (0, True, ""), (status, b"bin/console" in output, complaint)
    for wrong in [["help"], ["--nothing"], ["--help", "x"], [""]]:
        status, output, complaint = ran([CONSOLE, *wrong], EXAMPLE)
        yield f"words {wrong}", (2, b"", True), (status, output, "bin/console [--help]" in complaint)


TESTS = [example_of_01, random_inputs, large_input, step_by_step, line_ends, outputs_that_fail, interrupts, words]
