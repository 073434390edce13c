"""One drive of the proved engine. Scripts of calls (docs/SCRIPTS.md) go to the program replay, and a line of what is seen comes back for each call."""

import re
from typing import NamedTuple, Optional

from workbench import build
from workbench.process import Process
from workbench.trouble import Trouble

# So many calls are on their way at once: fewer than fill a pipe either way.
AT_ONCE = 256
FIRST, LAST = 100, 230
HIGHEST_ADDRESS = 47
# 01: "Address 99 is never answered."
ALL_DRIVES = "99"
CELLS = range(FIRST, LAST + 1)
INPUTS = ["I0", "I1", "I2", "PX", "S0", "S1", "S2", "S3", "ST", "ES", "EE"]
OUTPUTS = ["O0", "O1", "O2", "O3", "F0", "F1", "F2", "F3", "F4", "F5", "F6", "F7", "FC", "CU"]
PHASES = ["waiting", "delay", "run", "braking", "slowing", "emergency slowing", "back"]
RESOLUTIONS = ["D0", "D1", "D2", "D3", "B0", "B1", "B2", "B3"]


class Order(NamedTuple):
    """The order to the board: stand, slow or run. Without a run, hertz, ramp and rest are 0."""

    kind: str
    forward: bool
    hertz: int
    ramp: int
    rest: int
    current: int
    powered: bool
    fc: bool


class Seen(NamedTuple):
    """What is seen of a call. The outputs are 14 bits in the order of OUTPUTS."""

    refusal: Optional[int]
    answer: Optional[str]
    end: Optional[str]
    count: Optional[int]
    order_text: str
    outputs: str

    @property
    def order(self):
        return order_of(self.order_text)

    def said(self):
        """The answer to a string without its byte 13, None where the drive was silent."""
        return None if self.answer is None else unescaped(self.answer).rstrip("\r")


class Record(NamedTuple):
    """The record of a drive, under the names of K lines."""

    ad: int
    in_: int
    rs: int
    es: int
    cm: int
    pos: int
    inp: int
    camset: int
    campos: int
    errcode: int
    errcell: int
    reccell: int
    recrest: int
    recloop: int
    cell: int
    phase: int
    rest: int
    loop: int
    mark: int

    @property
    def idle(self):
        return self.cell == 0

    @property
    def moving(self):
        return self.phase >= 2

    def phase_name(self):
        return "idle" if self.idle else PHASES[self.phase]


def unescaped(text):
    return re.sub(r"\\x([0-9a-f]{2})", lambda found: chr(int(found[1], 16)), text)


def order_of(text):
    kind, _, words = text.partition(":")
    values = words.split(",")
    if kind == "run":
        sign, hertz, ramp, rest, *values = values
        moving = (sign == "+", int(hertz), int(ramp), int(rest))
    else:
        moving = (True, 0, 0, 0)
    return Order(kind, *moving, int(values[0]), values[1] == "1", values[2] == "1")


def seen_of(line):
    refusal, answer, _, end, count, order, outputs = line.split(" ")
    dash = lambda word, kind: None if word == "-" else kind(word)
    return Seen(dash(refusal, int), dash(answer, str), dash(end, str), dash(count, int), order, outputs)


class Engine(Process):
    """A drive, made fresh. Every method gives what is seen of its call, or what the call answers."""

    def __init__(self, address=0, command=None):
        super().__init__("the engine", command or [build.program("replay")])
        self.call(f"F {address}")

    def lines(self, calls):
        """The lines of observations of calls, as they come."""
        for start in range(0, len(calls), AT_ONCE):
            part = calls[start : start + AT_ONCE]
            self.give(*part)
            yield from (self.line() for _ in part)

    def call(self, line):
        return seen_of(next(iter(self.lines([line]))))

    def calls(self, lines):
        return [seen_of(line) for line in self.lines(lines)]

    def string(self, text):
        """A string, to which byte 13 is added; more than 64 bytes are cut as the console cuts them."""
        return self.call(string_call(text))

    def inputs(self, word):
        return self.call(f"I {word}")

    def record(self):
        return Record(*map(int, self.call("V").answer.split(",")))

    def image(self):
        return bytes.fromhex(self.call("X").answer)

    def load(self, image):
        """Reads an image into the drive; False where its bytes are none."""
        return len(image) <= 2048 and self.call(f"L {image.hex() or '-'}").refusal is None

    def used(self):
        """The cells that can be reached from 100 to 115."""
        bits = f"{int(self.call('U').answer, 16):0132b}"
        return {cell for cell, bit in zip(CELLS, bits) if bit == "1"}

    def totals(self, start):
        """Net steps and milliseconds, or the number of the refusal."""
        seen = self.call(f"T {start}")
        return seen.refusal if seen.answer is None else tuple(map(int, seen.answer.split(",")))

    def request(self, text):
        """The value that a request is answered with, by the drive's own address: request("QM,100") is the cell's code, parameters and next."""
        own = f"{self.record().ad:02}"
        answer = self.string(own + text).said()
        if answer is None or not answer.startswith(f"{own}{text},"):
            raise Trouble(f"the drive does not answer {text}: it is busy")
        return answer[len(own) + len(text) + 1 :]

    def cells(self):
        """Code, parameters and next of every cell, by its address."""
        own = f"{self.record().ad:02}"
        asked = [string_call(f"{own}QM,{cell}") for cell in CELLS]
        return {cell: seen.said()[len(own) + 7 :] for cell, seen in zip(CELLS, self.calls(asked))}


def string_call(text):
    data = text if isinstance(text, bytes) else text.encode("utf-8", "surrogateescape")
    return f"S {(data[:64] + bytes([13])).hex()} 64 0"
