"""Program files and lists of calls of a reading, and drives brought to it: random ones, some at the ends of what they can hold, and an old one."""

from pathlib import Path

from common import Ran, edited, full_text
from lists import END, further, generated, raw
from workbench import asking, reading, restoring
from workbench.engine import Engine
from workbench.played import played
from workbench.reading import REQUESTS, Reading

# A random drive comes of a list of so many calls, and is then put through so many more.
CALLS, MORE = 400, 200
# The old drive: a list of about so many calls, so many times; and what follows.
OLD_CALLS, OLD_TIMES, OLD_MORE = 212_000, 5, 20_000


def program(folder):
    """A program file of a reading, given to a console, reads back as the same presets and cells."""
    source = folder.file("full.reading", full_text())
    text = Ran("program", source).out
    out = folder.file("again.reading")
    yield from Ran("take", "console", "--send", folder.file("full.program", text), "-o", out).faults(0, "")
    a, b = reading.kept(source).reading, reading.kept(out).reading
    if (a.cells, a.presets) != (b.cells, b.presets):
        yield "the program file gives other cells or presets"
    yield from Ran("program", out).faults(0, text)


def calls(folder):
    """The list of a reading, run as the script that it is."""
    ran = Ran("calls", folder.file("full.reading", full_text()))
    yield from ran.faults(0)
    yield from Ran("take", "script:" + folder.file("full.calls", ran.out)).faults(0, full_text())
    if any(line.startswith("K") for line in ran.out.splitlines()):
        yield "a raw write is in the list"


def read(engine):
    """The reading of an idle drive."""
    address = engine.record().ad
    return Reading(address, {request: answer[len(request) + 3 :] for request, answer in zip(REQUESTS, reading.read_back(engine, address))})


def compare_further(what, drives, calls):
    """Whether drives are seen alike through a further list, every observation of it."""
    seen = [list(drive.lines(calls)) for drive in drives]
    places = [place for place, lines in enumerate(zip(*seen)) if len(set(lines)) > 1]
    yield from (f"{what}: call {place} of the further list is seen differently: {calls[place]}" for place in places[:1])


def unequal(what, drive, wanted):
    """The answers of a drive that are not those of a reading."""
    pairs = zip(wanted.answers(), reading.read_back(drive, wanted.address))
    yield from (f"{got} for {had}, {what}" for had, got in pairs if had != got)


def restored(seed, folder):
    """A random drive, and a fresh one brought to its reading; and one written raw, which checks both."""
    with Engine() as old, Engine() as fresh, Engine() as written:
        old.calls([*generated(seed, CALLS), *END])
        wanted = read(old)
        restoring.give(fresh, restoring.calls(wanted))
        restoring.give(written, raw(wanted))
        yield from unequal("brought", fresh, wanted)
        yield from unequal("written raw", written, wanted)
        yield from compare_further("three drives", [old, fresh, written], further(seed + 10_000, MORE, wanted.address))


# Records and errors at their ends: each with the cell of both, code and parameters, rest and loop count, and error.
ENDS = [
    ("230", "62,100,118", "+0,65535", "52,230"), ("230", "65,8388607,000", "+1,1", "52,229"), ("229", "65,8388607,000", "+8388607,0", "00,000"),
    ("100", "01,24,42,+8388607,x4,100", "+33554428,65535", "51,100"), ("100", "31,240,10,-8388607,x4,000", "-33554000,1", "50,100"),
    ("100", "21,4800,+0,x4,000", "-8388607,2", "51,230"), ("228", "11,02,-5,x1,000", "+8388607,0", "50,228"),
    ("100", "05,10,20,+,0,x4,000", "+0,9", "51,100"), ("150", "00,000", "+0,1", "50,151"),
    ("150", "03,10,20,+,05,000", "+0,0", "52,100"), ("150", "22,0001,-,x4,150", "+0,3", "51,150"),
]  # fmt: skip


def ends(case, folder):
    cell, text, rest, error = case
    edits = [("07QR,117,+350,7\n", f"07QR,{cell},{rest}\n"), ("QE,52,103", f"QE,{error}")]
    lines = [f"07QM,{cell},{text}" if line.startswith(f"07QM,{cell},") else line for line in edited(full_text(), *edits).splitlines()]
    kept = reading.kept(folder.file("ends", "\n".join(lines) + "\n"))
    with restoring.built(kept) as fresh, Engine() as written:
        restoring.give(written, raw(kept.reading))
        yield from unequal("written raw", written, kept.reading)
        yield from compare_further("two drives", [fresh, written], further(77, MORE, 7))


def kept_of(engine, path):
    """Takes the reading of a drive, and keeps it as the tool does."""
    Path(path).write_text(reading.text_of(asking.taken(engine, 31, 1)))
    return path


def old_drive(folder):
    """One drive through a million calls. Its reading is taken, a fresh one is brought to it, and the two are seen alike through a further list."""
    calls = "".join(f"{call}\n" for call in further(3, OLD_CALLS, 31)) * OLD_TIMES
    old = folder.file("old.script", "".join(["F 31\n", calls, *(f"{call}\n" for call in END)]))
    if calls.count("\n") < 1_000_000:
        yield "the old drive has not had a million calls"
    with played(old) as one:
        a = kept_of(one, folder.file("old.reading"))
        with played(folder.file("fresh.script", Ran("calls", a).out)) as other:
            b = kept_of(other, folder.file("fresh.reading"))
            yield from Ran("compare", a, b).faults(0, "alike: no list of calls tells them apart\n")
            yield from compare_further("the old drive", [one, other], further(4, OLD_MORE, 31))


CASES = [program, calls]
