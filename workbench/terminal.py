"""bin/console at a terminal: strings are typed, and the answers of the program console stand below them, with the reason where one is N or missing."""

import os
import select
import signal
import subprocess
import sys
import time
from typing import NamedTuple, Optional

from workbench import build
from workbench.console_help import help_text
from workbench.console_pipe import write
from workbench.reasons import Reasons
from workbench.trouble import Trouble

try:
    import readline
except ImportError:  # A python3 without it: lines are typed without history.
    readline = None

WELCOME = "One drive of address 00: type a string and Enter, for example 00QA. ? helps, Ctrl-D ends."
IN_A_RUN = (
    "a run is under way and does not end here, since the console has no pulse board that makes its steps; "
    "bin/program run shows runs, Ctrl-D and bin/console give a fresh drive"
)
# 01: "then a wait of 1,000".
WAIT = 1000
# Seconds for an answer that must come, and for one that must not; a Ctrl-C ends what has lasted longer than the last of them.
PATIENCE, GLANCE, LASTING = 5, 0.1, 1
# Seconds between two looks at signals while a line is typed.
BEAT = 0.2


class Exchange(NamedTuple):
    """What the engine answers to a string and what the second implementation does, None where neither answers; why; whether a run is then under way; and
    the address that the drive then has."""

    answer: Optional[str]
    other: Optional[str]
    why: str
    moving: bool
    own: int


class Console:
    """The program console, and the second implementation in step with it."""

    def __init__(self):
        words = [build.program("console")]
        self.reasons = Reasons()
        # Apart from the terminal's group: Ctrl-C is for the line that is typed.
        self.process = subprocess.Popen(words, stdin=subprocess.PIPE, stdout=subprocess.PIPE, bufsize=0, start_new_session=True)
        self.rest = b""

    def close(self):
        self.process.kill()
        self.process.wait()
        self.reasons.close()

    def string(self, data):
        """Gives a string, to which byte 13 is added, to both."""
        said = self.reasons.string(data)
        end, _ = self.reasons.wait(WAIT)
        own = self.reasons.address()
        try:
            write(self.process.stdin.fileno(), data + b"\r")
        except BrokenPipeError:
            raise Trouble("the program console has ended; start bin/console again") from None
        answer = self.read(GLANCE if said.answer is None else PATIENCE)
        if answer is None and said.answer is not None:
            raise Trouble(f"the program console gave no answer within {PATIENCE} seconds, where {said.answer} is due; start bin/console again")
        return Exchange(answer, said.answer, said.why, end == "moving", own)

    def read(self, seconds):
        """An answer without its byte 13, None where none comes in time."""
        while b"\r" not in self.rest:
            if not select.select([self.process.stdout], [], [], seconds)[0]:
                return None
            part = os.read(self.process.stdout.fileno(), 4096)
            if not part:
                raise Trouble("the program console has ended; start bin/console again")
            self.rest += part
        answer, _, self.rest = self.rest.partition(b"\r")
        return answer.decode("ascii", "backslashreplace")


class Stopped(KeyboardInterrupt):
    """Told to end, which no prompt catches."""


class Interrupts:
    """Ctrl-C drops the line that is typed. While a string is with the drive it does nothing, since a half exchange would leave the two implementations
    apart; it ends one that hangs."""

    def __init__(self):
        self.typing = False
        self.since = time.monotonic()
        signal.signal(signal.SIGINT, self.interrupt)
        signal.signal(signal.SIGTERM, self.stop)
        signal.signal(signal.SIGALRM, lambda *_: None)

    def interrupt(self, *_):
        if self.typing or time.monotonic() - self.since > LASTING:
            self.typing, self.since = False, time.monotonic()
            raise KeyboardInterrupt

    def stop(self, *_):
        raise Stopped

    def line(self, prompt):
        """A line that is typed, None where it is dropped."""
        try:
            self.typing = True
            # A signal that comes right before the wait for a key would be noticed at the next key alone, were it not for a beat.
            signal.setitimer(signal.ITIMER_REAL, BEAT, BEAT)
            return input(prompt)
        except Stopped:
            raise
        except KeyboardInterrupt:
            print()
            return None
        finally:
            signal.setitimer(signal.ITIMER_REAL, 0)
            self.typing, self.since = False, time.monotonic()


class Dialogue:
    """What is typed and what is shown. Answers have an output of their own; all else is printed."""

    def __init__(self, console, answers):
        self.console = console
        self.answers = answers
        self.own = 0
        self.hinted = False

    def prompt(self):
        return f"{self.own:02}> "

    def typed(self, line):
        if line.strip().startswith("?"):
            print(help_text(line.strip()[1:].split(), self.own))
            return
        # A 13 that is typed by force ends a string as Enter does.
        for data in line.encode("utf-8", "surrogateescape").split(b"\r"):
            if data:
                self.show(self.console.string(data))
                if not data[:2].isdigit():
                    print("? helps, Ctrl-D ends")

    def show(self, exchange):
        self.own = exchange.own
        if exchange.answer is not None:
            print(exchange.answer, file=self.answers, flush=True)
        if exchange.answer != exchange.other:
            print(f"the engine and the second implementation differ, which is a fault of ours: {told(exchange.answer)} and {told(exchange.other)}")
        elif exchange.why:
            print(exchange.why if exchange.answer else f"no answer: {exchange.why}")
        if exchange.moving and not self.hinted:
            self.hinted = True
            print(IN_A_RUN)
        sys.stdout.flush()


def told(answer):
    return "no answer" if answer is None else answer


# The terminal.


def answers_output():
    """Where answers go. Where standard output is no terminal, they alone go there, and the rest to standard error, where lines can be edited too."""
    if sys.stdout.isatty():
        return sys.stdout
    number = sys.stdout.fileno()
    answers = os.fdopen(os.dup(number), "w")
    os.dup2(sys.stderr.fileno(), number)
    # Anew, since a terminal has no places to seek, which a file has.
    sys.stdout = open(number, "w", buffering=1, closefd=False)
    return answers


def prepare():
    """Bytes are taken as they are typed, whatever the terminal's encoding, and a paste of several lines is several strings."""
    sys.stdin.reconfigure(encoding="utf-8", errors="surrogateescape")
    sys.stdout.reconfigure(errors="backslashreplace")
    if readline:
        readline.parse_and_bind("set enable-bracketed-paste off")


def talk():
    """Takes lines until Ctrl-D."""
    console = Console()
    try:
        dialogue = Dialogue(console, answers_output())
        prepare()
        print(WELCOME)
        converse(dialogue, Interrupts())
    finally:
        console.close()


def converse(dialogue, interrupts):
    while True:
        try:
            line = interrupts.line(dialogue.prompt())
        except EOFError:
            print()
            return
        if line:
            dialogue.typed(line)
