"""bin/program check: what a drive answers to each line of a program file, which cells programs use, and the totals of each start."""

import sys
from itertools import groupby

from workbench import files
from workbench.engine import CELLS, Engine
from workbench.instructions import EMPTY, END, code_of, name_of, next_of, ways_of
from workbench.ranges import counted, in_words
from workbench.trouble import FAILED, Trouble, say

# The cells that inputs S0 to S3 and ST start.
STARTED_BY_INPUT = range(100, 116)
# 02, Slip 2: the codes that totals take, and the numbers of its refusals.
TOTALLED = {"00", "01", "11", "21", "31", "57", "58", "60", "65", "70"}
MET_TWICE, OTHER_CODE = 12, 13
NONE = "none"
WITH_X4 = {"D2", "D3", "B2", "B3"}
# Strings are shown in a column of at most this width.
COLUMN = 40


def add_words(parser):
    parser.epilog = "The exit status is 1 where a line got N or no answer."
    parser.add_argument("file", metavar="FILE", help="a program file or an image, or - for standard input")


def run(options):
    name, data = files.named(options.file), files.content(options.file)
    if files.is_image(data):
        with files.loaded_image(name, data) as engine:
            report(engine)
        return 0
    return check_lines(name, files.lines_in(name, data))


def check_lines(name, lines):
    address = files.first_address(lines)
    with Engine(address) as engine:
        sent = list(files.given(engine, lines))
        print_lines(name, sent, address)
        if sent and not sent[-1].record.idle:
            print(f"note: the drive is busy after the last line; every other word of {files.TOOL} wants the PS left out")
        stop(engine)
        print()
        report(engine)
    wrong = [each.line.number for each in sent if not each.taken]
    if wrong:
        sys.stdout.flush()
        places = f"{'line' if len(wrong) == 1 else 'lines'} {in_words(wrong)}"
        say(files.TOOL, f"{name}: {len(wrong)} of {counted(len(sent), 'string')} not taken, in {places}")
    return FAILED if wrong else 0


# Lines.


def print_lines(name, sent, address):
    if not sent:
        print(f"{name}: no string in it, which is the program of a fresh drive")
    reasons = [""] * len(sent) if all(each.taken for each in sent) else files.reasons_of(address, sent)
    strings = [files.shown(each.string) for each in sent]
    width = min(COLUMN, max(map(len, strings), default=0))
    idle = [True, *(each.record.idle for each in sent)]
    for each, string, why, before in zip(sent, strings, reasons, idle):
        note = why or ("starts a program: the drive is busy from here on" if before and not each.record.idle else "")
        print(f"{each.line.number:>4}  {string:<{width}}  {files.in_words(each.answer)}{': ' if note else ''}{note}")


def stop(engine):
    """A drive that a PS left busy shows its cells when it is stopped; nothing of memory changes."""
    record = engine.record()
    if not record.idle:
        engine.string(f"{record.ad:02}EE")


# Cells.


def report(engine):
    memory = files.memory_of(engine)
    print_cells(memory.cells, engine.used())
    print()
    print_totals(engine, memory)


def print_cells(cells, used):
    ways = {cell: ways_of(text) for cell, text in cells.items()}
    if reached(ways, STARTED_BY_INPUT) != used:
        raise Trouble("the cells that the engine's map and the answers to QM say can be reached are not the same; report this program")
    written = {cell for cell, text in cells.items() if text != EMPTY}
    apart = written - used
    entered = {way for cell in used for way in ways[cell]} - written
    free = set(CELLS) - used - apart
    print(f"{counted(len(used), 'cell')} can be reached from cells 100 to 115, these 16 included: {in_words(used)}")
    print(f"{len(free)} free: {in_words(free)}" if free else "no cell is free")
    if apart:
        print(f"{len(apart)} written, but reached by none of 100 to 115, so only PS can start there: {in_words(apart)}")
    if entered:
        print(f"{len(entered)} gone on to, but empty, so a program ends there: {in_words(entered)}")


def reached(ways, starts):
    """Cells with all that they lead to by DDD and EEE."""
    found, left = set(starts), list(starts)
    while left:
        more = ways[left.pop()] - found
        found |= more
        left += more
    return found


# Totals.


def print_totals(engine, memory):
    starts = starts_of(memory.cells)
    if not starts:
        return print("no totals: no cell is written")
    print("totals, in relative mode, with an RS that allows x4, of a run that nothing interrupts:")
    told = {start: totals(engine, memory.cells, start) for start in starts}
    # Starts with one reason share a line; a start with totals has its own.
    for _, same in groupby(starts, lambda start: told[start] if told[start].startswith(NONE) else start):
        same = list(same)
        print(f"{'start' if len(same) == 1 else 'starts'} {in_words(same)}: {told[same[0]]}")
    for note in notes(memory):
        print(note)


def starts_of(cells):
    """Of the written cells, those that an input can start and those that no cell leads to; of what is led to from a circle alone, the lowest."""
    ways = {cell: ways_of(text) for cell, text in cells.items()}
    written = {cell for cell, text in cells.items() if text != EMPTY}
    led_to = set().union(*ways.values())
    starts = {cell for cell in written if cell in STARTED_BY_INPUT or cell not in led_to}
    while written - reached(ways, starts):
        starts.add(min(written - reached(ways, starts)))
    return sorted(starts)


def totals(engine, cells, start):
    """What the engine tells. Of its refusal the walk here finds the cell, and must find the same number."""
    told = engine.totals(start)
    refusal, why = walk(cells, start)
    if refusal != (None if isinstance(told, tuple) else told):
        raise Trouble(f"the engine's totals of start {start} and the walk over the answers to QM are not the same; report this program")
    if refusal:
        return f"{NONE}, since {why}"
    steps, delay = told
    return f"{steps:+} steps, {delay} ms of delays"


def walk(cells, start):
    """The first refusal along DDD and why, or None and an empty sentence."""
    met, cell = set(), start
    while cell != END:
        text = cells[cell]
        if cell in met:
            return MET_TWICE, f"cell {cell} is met twice"
        if code_of(text) not in TOTALLED:
            return OTHER_CODE, f"cell {cell} has code {code_of(text)}, {name_of(text)}, which totals do not take"
        met.add(cell)
        cell = next_of(text)
    return None, ""


def notes(memory):
    """Where the presets are not those that totals are for."""
    presets = memory.presets
    if presets["CM"] == "1":
        yield "note: CM is 1, so runs go to places; totals hold after WS,CM,0"
    if presets["RS"] not in WITH_X4 and any(",x4," in text for text in memory.cells.values()):
        yield f"note: RS is {presets['RS']}, so a run with x4 ends with error 51; totals hold after WS,RS,D2, D3, B2 or B3"
