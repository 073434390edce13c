"""bin/program run: a program with a simulated board, a table of what happens when, and a picture."""

import argparse
import os
import sys
import time

from workbench import files, picture, saving, schedule
from workbench.engine import FIRST, LAST, RESOLUTIONS
from workbench.ranges import counted
from workbench.rig import Rig
from workbench.table import Table
from workbench.trace import Trace
from workbench.trouble import FAILED, say

LIMIT = 60_000
LONGEST = 10**10
# Seconds between words of progress: at a terminal, where each takes the place of the last, and elsewhere.
OFTEN, SELDOM = 1, 10
# So much of a file's name stands over a picture.
TITLE = 70
REMEDIES = {
    50: "the place is more than 8388607 steps away; go there in several runs",
    51: "x4 is not available with RS {rs}; set RS to D2, D3, B2 or B3, or write x1",
    52: "the loop count is 0; open the loop with a 61 before its 62",
}
EPILOG = """A line of the schedule says when and what: "500 PX=1 I0=0" (at 500 ms), "+20 PX=0" (20 ms after the line above), "at +2000 PX=1" (when a step brings
the position to +2000) and "1500 send EE" (a string). The status is 0 where the program ran, also up to the limit; 1 where it ended by an error 50 to 52 or
something is wrong with a file; 2 for wrong words. docs/PROGRAMS.md says more."""


def add_words(parser):
    parser.epilog = EPILOG
    parser.add_argument("file", metavar="FILE", help="a program file or an image, or - for standard input")
    parser.add_argument("--start", metavar="CELL", required=True, type=cell, help="the cell where the program starts, 100 to 230")
    parser.add_argument("--inputs", metavar="SCHEDULE", help="a text file of inputs and strings that come during the run")
    parser.add_argument("--svg", metavar="OUT", type=picture_file, help="a file for the picture: position, speed, outputs and inputs against time")
    parser.add_argument("--limit", metavar="MS", type=limit, default=LIMIT, help=f"the simulated milliseconds after which the run is stopped ({LIMIT})")


def cell(text):
    if not (text.isascii() and text.isdecimal() and FIRST <= int(text) <= LAST):
        raise argparse.ArgumentTypeError(f"{text!r} is no cell; give one from {FIRST} to {LAST}")
    return int(text)


def limit(text):
    if not (text.isascii() and text.isdecimal() and 1 <= int(text) <= LONGEST):
        raise argparse.ArgumentTypeError(f"{text!r} is no number of milliseconds; give one from 1 to {LONGEST}")
    return int(text)


def picture_file(text):
    if text == saving.STANDARD_OUTPUT:
        raise argparse.ArgumentTypeError("standard output has the table; name a file for the picture")
    return text


def run(options):
    saving.judge(options.svg, options.file, options.inputs)
    lines = schedule.read(options.inputs) if options.inputs else schedule.Schedule()
    with files.loaded(options.file) as engine:
        return ran(engine, lines, options)


def ran(engine, lines, options):
    """A run with its table and picture; what was seen of it is kept also where it is interrupted."""
    trace = Trace(engine.record(), engine.call("B").outputs)
    rig = Rig(engine, lines, options.limit, Table(sys.stdout), trace)
    try:
        go(rig, options.start)
    except KeyboardInterrupt:
        finish(rig, "interrupted", options)
        raise
    finish(rig, how(rig), options)
    return judged(rig)


def go(rig, start):
    """Starts the program and goes on until the drive is idle with no line of the schedule to come, or to the limit."""
    progress = Progress()
    rig.start(start)
    try:
        while rig.time < rig.limit and not over(rig):
            progress.tell(rig)
    finally:
        progress.end()


def over(rig):
    """Goes on to what happens next, or says that nothing can."""
    rig.come_due()
    if not rig.record.idle:
        rig.turn()
    elif rig.schedule.next_time() is not None:
        rig.time = min(rig.schedule.next_time(), rig.limit)
    else:
        return True
    return False


def stopped(rig):
    """Whether the limit has cut the run short."""
    return rig.time >= rig.limit and (not rig.record.idle or rig.schedule.next_time() is not None)


def unfinished(rig):
    return "schedule" if rig.record.idle else "program"


def how(rig):
    """How a run ended."""
    if stopped(rig):
        return f"stopped, the {unfinished(rig)} has not ended"
    if rig.record.errcode:
        return f"the program ended by error {rig.record.errcode} at cell {rig.record.errcell}"
    return "the program ended"


def finish(rig, ending, options):
    """The last line, and the picture."""
    rig.table.end(f"{counted(rig.steps, 'step')} made, {rig.time} ms, position {rig.position:+}: {ending}")
    sys.stdout.flush()
    rig.trace.ended(rig.time)
    if options.svg:
        saving.save(options.svg, picture.drawn(rig.trace, f"{title(options.file)}, started at {options.start}").encode())


def title(path):
    """The name of a file, as a picture can hold it."""
    name = "standard input" if path == files.STANDARD_INPUT else os.path.basename(path)
    plain = "".join(sign if sign.isprintable() else "?" for sign in name)
    return plain if len(plain) <= TITLE else f"{plain[: TITLE - 2]}.."


def judged(rig):
    """The status, with sentences for what a user should know."""
    for note in rig.notes:
        say(files.TOOL, note)
    if stopped(rig):
        say(files.TOOL, f"stopped at {rig.time} ms: the {unfinished(rig)} has not ended; --limit gives it longer")
    elif rig.schedule.next():
        line = rig.schedule.next()
        say(files.TOOL, f"{rig.schedule.path}:{line.number}: it did not come, since no step brought the position to {line.when:+}")
    if rig.record.errcode:
        meaning = REMEDIES[rig.record.errcode].format(rs=RESOLUTIONS[rig.record.rs])
        say(files.TOOL, f"error {rig.record.errcode} at cell {rig.record.errcell}: {meaning}")
        return FAILED
    return 0


class Progress:
    """Words on standard error during a long run."""

    def __init__(self):
        self.terminal = sys.stderr is not None and sys.stderr.isatty()
        self.pause = OFTEN if self.terminal else SELDOM
        self.due, self.told = time.monotonic() + self.pause, False

    def tell(self, rig):
        if time.monotonic() < self.due:
            return
        self.due, self.told = time.monotonic() + self.pause, True
        words = f"{files.TOOL}: at {rig.time} ms of at most {rig.limit}, {rig.steps} steps made"
        print(f"\r{words}" if self.terminal else words, end="" if self.terminal else "\n", file=sys.stderr, flush=True)

    def end(self):
        if self.told and self.terminal:
            print(file=sys.stderr)
