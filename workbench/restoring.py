"""The list of calls that brings a fresh drive to a full reading.

Only calls of 01 are used, and no raw writes, so whatever is reached is a drive that demand 3 speaks of. There is a list for every reading that such a
drive gives (docs/READINGS.md says why), and reading back tells whether this was one.
"""

import re
from collections import deque
from itertools import chain, islice, repeat

from workbench.engine import CELLS, Engine, string_call
from workbench.instructions import EMPTY
from workbench.progress import progress
from workbench.reading import read_back
from workbench.trouble import Trouble

INDEXED = ["01", "31", "11", "21"]
WITH_RAMP = ["01", "31"]
# 01 and 02: the most steps and milliseconds of a cell, and the longest shift in absolute mode; the lowest position; the longest wait.
FARTHEST = 8_388_607
LOWEST = -(2**31)
LONGEST_WAIT = 1_000_000
MOST_LOOPS = 65_535
ST, EE = 1 << 8, 1 << 10
# For each error a cell that ends with it, from the state that `toward` makes.
ERRING = {50: "11,02,+0,x1,000", 51: "11,02,+0,x4,000", 52: "62,100,000"}
# So many calls go to the engine at once.
PORTION = 50_000


class Bench:
    """A drive that is being brought to a reading: what its cells and presets hold after the calls so far. Its methods give calls."""

    def __init__(self, address):
        self.own = f"{address:02}"
        self.cells = dict.fromkeys(CELLS, EMPTY)
        self.presets = {"IN": "1", "RS": "D2", "ES": "0", "CM": "0"}
        # The interrupted record's cell: a changed WN into it would empty the record.
        self.recorded = None

    def say(self, text):
        return string_call(self.own + text)

    def write(self, cell, text):
        """A WN where the cell holds something else: of equal content it would be without effect."""
        if self.cells[cell] != text:
            self.cells[cell] = text
            yield self.say(f"WN,{cell},{text}")

    def preset(self, name, value):
        if self.presets[name] != value:
            self.presets[name] = value
            yield self.say(f"WS,{name},{value}")

    def taken(self, cell):
        """A start, and the millisecond that takes the cell."""
        yield self.say(f"PS,{cell}")
        yield "M"


def calls(reading):
    """The script (docs/SCRIPTS.md). The order matters: the record stands before the error, since each start clears the error, and before cells that are
    written back, since no cell but its own touches it; the inputs come last, since with EE on nothing starts."""
    bench = Bench(reading.address)
    yield f"# brings a fresh drive to a full reading of drive {reading.address:02}"
    yield f"F {reading.address}"
    yield from current(bench, reading)
    yield from interrupted(bench, reading)
    yield from error(bench, reading)
    yield "# cells and presets"
    yield from chain.from_iterable(bench.write(cell, text) for cell, text in reading.cells.items())
    yield from chain.from_iterable(bench.preset(name, reading.presets[name]) for name in list(bench.presets))
    yield "# position, cam, outputs, inputs"
    yield bench.say(f"SA,{reading.position}")
    yield from ([] if reading.cam is None else [bench.say(f"SC,1,{reading.cam}")])
    yield from (bench.say(f"SO,{name},1") for name in reading.outputs if name != "CU")
    yield from inputs(reading)


def current(bench, reading):
    """No string sets CU, so a program does."""
    if "CU" in reading.outputs:
        yield "# motor current on"
        yield from bench.write(CELLS[-1], "70,1,000")
        yield from bench.taken(CELLS[-1])


def inputs(reading):
    """ST going on would start a program on the idle drive, and clear the error. With EE on it starts none, and in the next word it does not go on."""
    if reading.inputs & ST:
        yield f"I {ST | EE}"
    if reading.inputs:
        yield f"I {reading.inputs}"


# The interrupted record.


def interrupted(bench, reading):
    """An emergency stop at the record's cell, with its rest left. Without a rest the cell is not even taken."""
    record = reading.interrupted
    if record is None or record.cell not in CELLS or record.loops > MOST_LOOPS:
        return
    text = reading.cells[record.cell]
    way = approach(text, record.rest)
    if way is None:
        return
    bench.recorded = record.cell
    mode, position, further = way
    yield f"# the interrupted program: cell {record.cell}, rest {record.rest:+}, loop count {record.loops}"
    yield from bench.write(record.cell, text)
    yield from bench.preset("CM", mode)
    yield bench.say(f"SA,{position:+}")
    yield from begun(bench, record)
    yield from further
    yield bench.say("EE")
    if record.rest and text[:2] in WITH_RAMP:
        yield "H"


def begun(bench, record):
    """A start that waits at the record's cell with its loop count, which only a 61 can set."""
    if record.loops == 0:
        yield bench.say(f"PS,{record.cell}")
        return
    opening = CELLS[-1] if record.cell != CELLS[-1] else CELLS[-2]
    yield from bench.write(opening, f"61,{record.loops},{record.cell}")
    yield from bench.taken(opening)


def approach(text, rest):
    """Coordinates mode and position before the start, and the calls from there until so much of a cell is left; None where it never is."""
    code, *fields = text.split(",")
    if rest == 0:
        return None if code == "69" else ("0", 0, [])
    if code == "65" and len(fields) == 2:
        return in_delay(number(fields[0]), rest)
    if code in INDEXED and len(fields) >= 3:
        return in_run(number(fields[-3]), fields[-2] == "x4", rest)
    return None


def in_delay(milliseconds, rest):
    if not 0 < rest <= milliseconds <= FARTHEST:
        return None
    spent = milliseconds - rest
    waits = [*repeat(LONGEST_WAIT, spent // LONGEST_WAIT), spent % LONGEST_WAIT]
    return "0", 0, ["M", *(f"W {wait}" for wait in waits if wait)]


def in_run(steps, x4, rest):
    """In absolute mode the position makes the shift. A longer rest is of a relative run at x4, whose steps are made one by one."""
    if abs(rest) <= FARTHEST:
        return "1", steps - rest, ["M"]
    shift = 4 * steps if x4 and abs(steps) <= FARTHEST else 0
    if abs(rest) > abs(shift) or (rest < 0) != (shift < 0):
        return None
    return "0", 0, chain(["M"], repeat("P", abs(shift - rest)))


def number(text):
    return int(text) if re.fullmatch("[+-]?[0-9]{1,10}", text) else 0


# The error.


def error(bench, reading):
    """A start that ends with the error. The cell is written back later, unless the record is of it: then what it holds must end so itself."""
    code, cell = reading.error
    if code not in ERRING or cell not in CELLS:
        return
    text = reading.cells[cell] if cell == bench.recorded else ERRING[code]
    if ends_with(code, text):
        yield f"# error {code} at cell {cell}"
        yield from toward(bench, code)
        yield from bench.write(cell, text)
        yield from bench.taken(cell)


def ends_with(code, text):
    fields = text.split(",")
    return {50: fields[0] in INDEXED and len(fields) > 3, 51: "x4" in fields, 52: fields[0] == "62"}[code]


def toward(bench, code):
    """50: in absolute mode, too far from any place that a cell can name. 51: RS without x4. 52: a start has loop count 0."""
    yield from bench.preset("RS", "D0" if code == 51 else "D2")
    if code == 50:
        yield from bench.preset("CM", "1")
        yield bench.say(f"SA,{LOWEST}")


# On the engine.


def give(engine, script):
    """Puts a drive through a script; what is seen of it is passed over."""
    given = (call for call in script if not call.startswith("#"))
    for count, portion in enumerate(iter(lambda: list(islice(given, PORTION)), [])):
        progress(f"{count * PORTION:,} calls of the list made" if count else "")
        deque(engine.lines(portion), maxlen=0)
    progress("")


def built(kept):
    """A drive of the engine with the reading of a file, read back and found equal. A reading that no drive gives is refused by its first wrong line."""
    engine = Engine()
    try:
        give(engine, calls(kept.reading))
        check(kept, read_back(engine, kept.reading.address))
    except BaseException:
        engine.close()
        raise
    return engine


def check(kept, answers):
    pairs = enumerate(zip(kept.reading.answers(), answers))
    for index, (wanted, got) in pairs:
        if wanted != got:
            instead = "is silent" if got is None else f"answers {got}"
            raise Trouble(f"{kept.place(index)}: no drive gives {wanted} beside the other answers: one that was given the calls for it {instead}")
