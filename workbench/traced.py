"""bin/program trace: the picture of what a gateway has traced of a drive (docs/PROGRAMS.md)."""

import argparse
import os
import re

from workbench import files, picture, saving
from workbench.engine import HIGHEST_ADDRESS
from workbench.reading import OUTPUTS
from workbench.trace import Bends
from workbench.trouble import Trouble, WrongWords

# A trace goes on in FILE; what is older than its beginning is in FILE.1.
OLDER = ".1"
# Two files of 4 MB each, and room to spare.
LIMIT = 20_000_000
LINE = re.compile(r"([0-9]{1,2}),([0-9]{1,15}),(-?[0-9]{1,10}),(-?[0-9]{1,6}),([01]{14})")
MINUTE = 60_000
# Rows so many milliseconds apart, with another speed each, are of a ramp.
SLOPE = 3
LONGEST = 100_000
FORM = "a trace has lines of address,ms,position,hertz,outputs"


def add_words(parser):
    parser.epilog = "FILE is what `gateway --trace FILE` writes; FILE.1, the part before it, is read too where it is there. What was before the gateway's last start is left out."
    parser.add_argument("file", metavar="FILE", help="the trace of a gateway")
    parser.add_argument("--address", metavar="NN", type=address, help="the drive whose picture is drawn; needed where the trace has several")
    parser.add_argument("--minutes", metavar="M", type=minutes, help="only the last M minutes of the trace")
    parser.add_argument("-o", dest="out", metavar="OUT", required=True, help="the picture, or - for standard output; an old file stays until the new one is whole")


def address(text):
    if not re.fullmatch("[0-9]{1,2}", text) or int(text) > HIGHEST_ADDRESS:
        raise argparse.ArgumentTypeError(f"{text!r} is no address of a drive; give 00 to 47")
    return int(text)


def minutes(text):
    if not re.fullmatch("[0-9]{1,6}([.][0-9]{1,6})?", text) or not 0 < float(text) <= LONGEST:
        raise argparse.ArgumentTypeError(f"{text!r} is no number of minutes; give one above 0 and up to {LONGEST}, as 0.5")
    return float(text)


def run(options):
    older = options.file + OLDER
    saving.judge(options.out, options.file, older)
    rows = [*rows_of(older), *rows_of(options.file)] if os.path.exists(older) else rows_of(options.file)
    rows = since_start(rows)
    if not rows:
        raise Trouble(f"{options.file}: nothing is traced in it; let a drive of the gateway run, and take it again")
    own = chosen(rows, options)
    end = rows[-1].time
    start = max(rows[0].time, end - int(options.minutes * MINUTE)) if options.minutes else rows[0].time
    shown = Traced([row for row in rows if row.address == own], start, end)
    saving.save(options.out, picture.recorded(shown, f"{os.path.basename(options.file)}, drive {own:02}").encode())


class Row:
    """What a drive was at a time, when something of it had changed."""

    __slots__ = ("address", "time", "position", "hertz", "outputs")

    def __init__(self, words):
        self.address, self.time, self.position, self.hertz = map(int, words[:4])
        self.outputs = words[4]


def rows_of(path):
    """The rows of a file. A last line without its end was being written, and is left out."""
    with open(path, "rb") as file:
        data = file.read(LIMIT + 1)
    if len(data) > LIMIT:
        raise Trouble(f"{path}: over {LIMIT} bytes, which no gateway writes; {FORM}")
    return [row_of(path, number, line) for number, line in enumerate(data.split(b"\n")[:-1], 1)]


def row_of(path, number, line):
    found = LINE.fullmatch(line.decode("ascii", "replace"))
    if not found or int(found[1]) > HIGHEST_ADDRESS:
        raise Trouble(f"{path}:{number}: {files.shown(line[:40].decode('ascii', 'replace'))} is no line of a trace; {FORM}")
    return Row(found.groups())


def since_start(rows):
    """The rows after the last start of the gateway, from which its time counts: there the time of a drive goes back."""
    start, last = 0, {}
    for place, row in enumerate(rows):
        if row.time < last.get(row.address, 0):
            start, last = place, {}
        last[row.address] = row.time
    return rows[start:]


def chosen(rows, options):
    """The address of the drive that is drawn."""
    there = sorted({row.address for row in rows})
    if options.address in there:
        return options.address
    names = ", ".join(f"{each:02}" for each in there)
    if options.address is not None:
        raise Trouble(f"{options.file}: nothing of drive {options.address:02} is traced in it; give --address with one of {names}")
    if len(there) > 1:
        raise WrongWords(f"{options.file} has the drives {names}; give --address with one of them")
    return there[0]


class Traced:
    """What a picture shows of a trace: position and speed by their bends, outputs by their changes, from a time to another."""

    def __init__(self, rows, start, end):
        self.start, self.end = start, end
        before = [row for row in rows if row.time <= start][-1:]
        after = [row for row in rows if row.time > start]
        first = (before or after or rows)[0]
        self.position, self.speed = Bends(start, first.position), Bends(start, first.hertz)
        self.lanes = {name: [(start, int(bit))] for name, bit in zip(OUTPUTS, first.outputs)}
        for last, row in zip([first, *after], after):
            self.add(last, row)
        self.position.level(end)
        self.speed.level(end)

    def add(self, last, row):
        """What has changed. A drive that stood moved only in the last millisecond before the row; the speed is another from the row on, but in a ramp,
        where each row brings another, it is a slope."""
        if not last.hertz:
            self.position.level(max(self.start, row.time - 1))
        self.position.add(row.time, row.position)
        if last.hertz and row.hertz and row.time - last.time <= SLOPE:
            self.speed.add(row.time, row.hertz)
        else:
            self.speed.jump(row.time, row.hertz)
        for name, bit in zip(OUTPUTS, row.outputs):
            if self.lanes[name][-1][1] != int(bit):
                self.lanes[name].append((row.time, int(bit)))
