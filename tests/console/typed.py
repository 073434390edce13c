"""bin/console at a terminal, in a real pty."""

import fcntl
import os
import pty
import re
import select
import signal
import struct
import sys
import tempfile
import termios
import time
from pathlib import Path

from common import CONSOLE, PATIENCE, ended
from tree import in_a_tree
from workbench.console_codes import COMMANDS, INSTRUCTIONS, REQUESTS

PROMPT = "00> "
TOPICS = [*COMMANDS, *REQUESTS, *INSTRUCTIONS]
UP, LEFT, CTRL_C, CTRL_D, ENTER = "\x1b[A", "\x1b[D", "\x03", "\x04", "\r"
# Wide enough that no line is folded.
ROWS, COLUMNS = 40, 250
ALWAYS_Y = f"#!{sys.executable}\nimport os\nwhile os.read(0, 65):\n    os.write(1, b'00Y\\r')\n"
FREE_RUN = "00WN,100,02,10,20,+,x1,000"


class Terminal:
    """The console, or the one of another tree, in a terminal of its own. Its output and complaints may go to files instead."""

    def __init__(self, output=None, complaints=None, console=CONSOLE):
        self.shown = ""
        self.child, self.end = pty.fork()
        if self.child == 0:
            self.begin(output, complaints, console)
        fcntl.ioctl(self.end, termios.TIOCSWINSZ, struct.pack("HHHH", ROWS, COLUMNS, 0, 0))

    def begin(self, output, complaints, console):
        os.environ.update(TERM="dumb", INPUTRC="/dev/null", COLUMNS=str(COLUMNS))
        for number, path in [(1, output), (2, complaints)]:
            if path:
                os.dup2(os.open(path, os.O_WRONLY | os.O_CREAT), number)
        os.execv(console, ["console"])

    def until(self, end):
        """All that is shown until it ends so, or until nothing more comes."""
        began = time.monotonic()
        while not re.search(end + r"\Z", self.shown) and time.monotonic() - began < PATIENCE:
            if not select.select([self.end], [], [], 1)[0]:
                continue
            try:
                part = os.read(self.end, 65536)
            except OSError:  # The terminal's way of saying that nobody is left at its other side.
                break
            self.shown += part.decode(errors="replace").replace("\r\n", "\n")
        shown, self.shown = self.shown, ""
        return shown

    def settled(self):
        """All that is shown until nothing has come for a while."""
        shown = ""
        while select.select([self.end], [], [], 0.4)[0]:
            shown += os.read(self.end, 65536).decode().replace("\r\n", "\n")
        return shown

    def prompt(self):
        return self.until(rf"(\A|\n){PROMPT}")

    def until_prompt(self, keys, prompt):
        """What is shown below a line that is typed, down to another prompt."""
        os.write(self.end, keys.encode("latin-1") + b"\r")
        return self.until(rf"(\A|\n){prompt}").partition("\n")[2]

    def typed(self, keys):
        """What is shown below a line that is typed, down to the next prompt."""
        os.write(self.end, keys.encode("latin-1") + b"\r")
        return self.prompt().partition("\n")[2].removesuffix(PROMPT)

    def children(self):
        """The processes that the console started, by their names."""
        pids = Path(f"/proc/{self.child}/task/{self.child}/children").read_text().split()
        return {Path(f"/proc/{pid}/comm").read_text().strip(): int(pid) for pid in pids}

    def left(self, keys=CTRL_D):
        """What is shown last, and the status."""
        os.write(self.end, keys.encode())
        shown, status = self.until("(?!)"), ended(self.child)
        os.close(self.end)
        return shown, status


def opened(**where):
    terminal = Terminal(**where)
    return terminal, terminal.prompt()


def answers():
    terminal, first = opened()
    yield "the first line says what this is, helps and ends", [], [word for word in ["address 00", "?", "Ctrl-D"] if word not in first.splitlines()[0]]
    yield "an answer", "00QA,+0\n", terminal.typed("00QA")
    yield "a command", "00Y\n", terminal.typed("00WN,228,65,0400,000")
    yield "what it stored", "00QM,228,65,400,000\n", terminal.typed("00QM,228")
    yield "an empty line", "", terminal.typed("")
    yield "N, and why", "00N\nfield 3 (FF) is out of range: 25, and 03 to 24 is taken\n", terminal.typed("00WN,100,01,25,20,+5,x1,000")
    yield "N to an unknown code, and why", True, terminal.typed("00QX").startswith("00N\nQX is no command or request")
    yield "another address", "no answer: the string is for address 07, and this drive has 00\n", terminal.typed("07QA")
    yield "all addresses", "no answer: carried out; address 99 is never answered\n", terminal.typed("99WS,IN,2")
    yield "and carried out", "00QS,IN,2\n", terminal.typed("00QS,IN")
    yield "no address", True, terminal.typed("QA").startswith("no answer: the first two characters are not digits")
    yield "bytes that are no text", True, terminal.typed("00Q\xff\xc3").startswith("00N\n")
    yield "its own address changed", ("00Y\n05> ", "05QA,+0\n05> "), (terminal.until_prompt("00WS,AD,5", "05> "), terminal.until_prompt("05QA", "05> "))
    yield "Ctrl-D", ("\n", 0), terminal.left()


def long_lines():
    """Of a longer string the first 64 bytes and the 13 are given, which is too long."""
    terminal, _ = opened()
    for length in [64, 65, 200]:
        shown = terminal.typed("00QA" + "," * (length - 4))
        yield f"{length} bytes and the 13", True, shown.startswith("00N\nthe string has over 64 bytes")
    yield "the next string", "00QA,+0\n", terminal.typed("00QA")
    yield "Ctrl-D", ("\n", 0), terminal.left()


def editing():
    terminal, _ = opened()
    yield "left and a byte put in", "00QA,+0\n", terminal.typed(f"00A{LEFT}Q")
    yield "a byte taken out", "00QE,00,000\n", terminal.typed("00QX\x7fE")
    yield "the line before", "00QE,00,000\n", terminal.typed(UP)
    yield "the line two before", "00QA,+0\n", terminal.typed(UP * 2)
    yield "Ctrl-D within a line does not end", "00QA,+0\n", terminal.typed(f"00QA{CTRL_D}")
    yield "Ctrl-D", ("\n", 0), terminal.left()


def interrupts():
    """Ctrl-C drops the line, and the drive stays as it is."""
    terminal, _ = opened()
    yield "before", "00Y\n", terminal.typed("00SA,42")
    os.write(terminal.end, b"00SA,99")
    terminal.until("00SA,99")
    os.write(terminal.end, CTRL_C.encode())
    yield "a new prompt", True, terminal.prompt().endswith(f"\n{PROMPT}")
    yield "the line dropped, the drive there", "00QA,+42\n", terminal.typed("00QA")
    for _ in range(20):
        os.write(terminal.end, CTRL_C.encode())
        time.sleep(0.003)
    yield "a prompt after many", True, terminal.settled().endswith(f"\n{PROMPT}")
    yield "the drive still there", "00QA,+42\n", terminal.typed("00QA")
    yield "Ctrl-D", ("\n", 0), terminal.left()
    terminal, _ = opened()
    os.kill(terminal.child, signal.SIGTERM)
    yield "told to end", 130, terminal.left("")[1]


def broken_programs():
    """Either of the two ends before its time."""
    for name, told in [("console", "the program console has ended"), ("reference", "the second implementation has ended")]:
        terminal, _ = opened()
        os.kill(terminal.children()[name], signal.SIGKILL)
        shown, status = terminal.left(f"00QA{ENTER}")
        yield f"{name} killed", (1, True), (status, f"bin/console: {told}" in shown)


@in_a_tree
def differing(tree):
    """A program that is not the engine, and answers its own."""
    tree.programs(ALWAYS_Y)
    terminal, _ = opened(console=str(tree.root / "bin/console"))
    yield "both are told", "00Y\nthe engine and the second implementation differ, which is a fault of ours: 00Y and 00QA,+0\n", terminal.typed("00QA")
    yield "Ctrl-D", ("\n", 0), terminal.left()


def busy():
    terminal, _ = opened()
    hint = "a run is under way and does not end here, since the console has no pulse board"
    yield "a free run stored", "00Y\n", terminal.typed(FREE_RUN)
    yield "the hint of a run", True, terminal.typed("00PS,100").startswith(f"00Y\n{hint}")
    yield "silence of a busy drive", "no answer: the drive is busy with a run at cell 100, and hears only EE and ES\n", terminal.typed("00QA")
    yield "a stop is answered, the hint told once", "00Y\n", terminal.typed("00EE")
    yield "Ctrl-D", ("\n", 0), terminal.left()


def delay():
    """After each string the drive runs for 1,000 milliseconds."""
    terminal, _ = opened()
    yield "a delay stored", "00Y\n", terminal.typed("00WN,100,65,2500,000")
    yield "started, without a hint", "00Y\n", terminal.typed("00PS,100")
    for second in [2, 3]:
        yield f"in its delay, second {second}", True, terminal.typed("00QA").startswith("no answer: the drive is busy with cell 100 (delay")
    yield "after its delay", "00QA,+0\n", terminal.typed("00QA")
    yield "Ctrl-D", ("\n", 0), terminal.left()


def help_texts():
    terminal, _ = opened()
    shown = terminal.typed("?")
    yield "? has every code and example", [], [topic.code for topic in TOPICS if topic.example not in shown or topic.code not in shown]
    yield "? fits 80 columns", [], [line for line in shown.splitlines() if len(line) > 79]
    for topic in TOPICS:
        shown = terminal.typed(f"? {topic.code}")
        missing = [part for part in [topic.code, topic.example, *(letters for letters, _ in topic.fields)] if part not in shown]
        yield f"? {topic.code}", [], missing
    yield "? of two, small letters", 2, terminal.typed("?wn 01").count("For example")
    yield "? of no code", "There is no code XY; ? lists them.\n", terminal.typed("? XY")
    yield "? of a preset", "AD: address of the drive, 0 to 47\n", terminal.typed("? AD")
    yield "a word that is no string", True, terminal.typed("quit").endswith("address, 00\n? helps, Ctrl-D ends\n")
    yield "the prompt has the address", "00Y\n07> ", terminal.until_prompt("00WS,AD,7", "07> ")
    yield "help has the address", "QA: position\n  Asks the absolute position: steps forward less steps back.\n  For example 07QA\n07> ", terminal.until_prompt("? QA", "07> ")
    yield "back to 00", "07Y\n", terminal.typed("07WS,AD,0")
    yield "Ctrl-D", ("\n", 0), terminal.left()


def examples():
    """Every example of the help gets an answer that is no N, one after the other."""
    terminal, _ = opened()
    for topic in TOPICS:
        shown = terminal.typed(topic.example)
        yield f"{topic.example} has an answer", True, bool(re.fullmatch(r"00(?!N).*\n", shown)) or shown
    yield "Ctrl-D", ("\n", 0), terminal.left()


def redirected():
    """Answers alone go to a standard output that is no terminal; the prompt and the reasons stay at the terminal, or go to standard error."""
    with tempfile.TemporaryDirectory() as folder:
        yield from answers_alone(Path(folder) / "answers")
        yield from all_redirected(Path(folder) / "all", Path(folder) / "complaints")


def answers_alone(path):
    terminal, first = opened(output=path)
    yield "the first line is at the terminal", True, "Ctrl-D" in first
    yield "no answer there", "", terminal.typed(f"00A{LEFT}Q")
    yield "a reason there", True, terminal.typed("00QX").startswith("QX is no command")
    yield "Ctrl-D", ("\n", 0), terminal.left()
    yield "answers alone", "00QA,+0\n00N\n", path.read_text()


def all_redirected(path, complaints):
    terminal = Terminal(output=path, complaints=complaints)
    _, status = terminal.left(f"00QE{ENTER}{CTRL_D}")
    told = complaints.read_text()
    yield "both redirected", (0, "00QE,00,000\n", True, True), (status, path.read_text(), PROMPT in told, "Ctrl-D" in told)


def full_output():
    terminal, _ = opened(output="/dev/full")
    shown, status = terminal.left(f"00QA{ENTER}")
    yield "a full output", (1, True), (status, "bin/console: " in shown)


TESTS = [answers, long_lines, editing, interrupts, broken_programs, differing, busy, delay, help_texts, examples, redirected, full_output]
