"""What six masters do with their drives: a program for each that differs from the others', its run, and what must be seen."""

import time
from typing import NamedTuple

from container.clients import ANSWER, SILENCE
from workbench.asking import taken
from workbench.engine import CELLS
from workbench.files import PRESETS
from workbench.reading import REQUESTS
from workbench.trouble import Trouble

# 02: "Cells 228 to 230 aren't kept and are Null after reading."
KEPT = [*(f"QM,{cell}" for cell in CELLS if cell < 228), *(f"QS,{name}" for name in PRESETS)]
START, ENDLESS = 100, 120
FILLED = range(130, 230)


class Program(NamedTuple):
    """The strings without their address, and where the run from START ends."""

    strings: list
    position: int
    milliseconds: int


def program(number):
    """The program of one of the six. Runs without a ramp, with one, a delay, an output; a run without end; cells that are there to be kept."""
    forward, back, hertz, pause = 300 + 50 * number, 100 + 20 * number, 1000, 30 + number
    strings = [
        f"WS,IN,{number % 4}",
        f"WS,RS,D{number % 4}",
        "WN,100,58,O0,1,101",
        f"WN,101,21,{hertz},+{forward},x1,102",
        f"WN,102,65,{pause},103",
        f"WN,103,31,200,42,-{back},x1,104",
        "WN,104,58,O1,1,105",
        "WN,105,58,O0,0,000",
        f"WN,{ENDLESS},32,100,42,+,x1,000",
        *(f"WN,{cell},65,{1000 * number + cell},000" for cell in FILLED),
    ]
    return Program(strings, forward - back, 1000 * forward // hertz + pause)


def work(port, address, number):
    """Loads a program, runs it to its end and looks at what it left. The readings before all, and after."""
    fresh = taken(port, address, ANSWER)
    made = program(number)
    for string in made.strings:
        port.expect(f"{address:02}{string}", f"{address:02}Y")
    port.expect(f"{address:02}WN,100,01,25,20,+5,x1,000", f"{address:02}N")
    port.expect(f"{(address + 1) % 48:02}QA", None)
    run(port, address, made)
    return fresh, taken(port, address, ANSWER)


def run(port, address, made):
    """A run takes its time, and ends at its position with its outputs."""
    began = time.monotonic()
    port.expect(f"{address:02}PS,{START}", f"{address:02}Y")
    port.expect(f"{address:02}QA", None)
    while port.say(f"{address:02}QA", SILENCE) is None:
        if time.monotonic() - began > 10 * ANSWER:
            raise Trouble(f"the program of drive {address:02} has not ended in {10 * ANSWER:g} s")
    took = 1000 * (time.monotonic() - began)
    if took < made.milliseconds:
        raise Trouble(f"the program of drive {address:02} took {took:.0f} ms, and its steps and delay alone take {made.milliseconds}")
    port.expect(f"{address:02}QA", f"{address:02}QA,{made.position:+}")
    port.expect(f"{address:02}QO,O0", f"{address:02}QO,O0,0")
    port.expect(f"{address:02}QO,O1", f"{address:02}QO,O1,1")


def run_without_end(port, address):
    """Begins a run that only a stop ends; the drive is busy and so silent."""
    port.expect(f"{address:02}PS,{ENDLESS}", f"{address:02}Y")
    port.expect(f"{address:02}QA", None)


def compare(port, address, fresh, before):
    """After a start: cells 100 to 227 and presets as before it, all else as of a fresh drive."""
    after = taken(port, address, ANSWER)
    for request in REQUESTS:
        wanted = (before if request in KEPT else fresh).values[request]
        if after.values[request] != wanted:
            raise Trouble(f"{address:02}{request} after the new start is {after.values[request]} and not {wanted}")
