"""bin/program diff: what differs between two program files or images, preset by preset and cell by cell."""

from typing import NamedTuple

from workbench import files
from workbench.images import UNKEPT
from workbench.instructions import EMPTY, name_of
from workbench.ranges import counted, listed
from workbench.trouble import WrongWords, compare, say

EPILOG = "The exit status is 0 where nothing differs, 1 where something does, and 2 for trouble."


class Side(NamedTuple):
    """A file, whether it is an image, and what it holds."""

    name: str
    image: bool
    memory: files.Memory


def add_words(parser):
    parser.epilog = EPILOG
    parser.add_argument("a", metavar="A", help="a program file or an image, or - for standard input")
    parser.add_argument("b", metavar="B", help="another one, of either kind")


def run(options):
    return compare(lambda: compared(options.a, options.b))


def compared(a, b):
    if a == b == files.STANDARD_INPUT:
        raise WrongWords("only one of A and B can be standard input; name a file for the other")
    a, b = side(a), side(b)
    rows = [*preset_rows(a, b), *cell_rows(a, b)]
    if not rows:
        print("no preset and no cell differs")
        return 0
    print(f"{a.name} | {b.name}")
    print_rows(rows)
    print(counted(len(rows), "difference"))
    return 1


def side(path):
    name, data = files.named(path), files.content(path)
    image = files.is_image(data)
    with (files.loaded_image if image else files.loaded_program)(name, data) as engine:
        lost = files.passing(engine)
        if lost:
            say(files.TOOL, f"{name}: only presets and cells are compared, not {listed(lost)}")
        return Side(name, image, files.memory_of(engine))


def preset_rows(a, b):
    pairs = ((name, a.memory.presets[name], b.memory.presets[name]) for name in files.PRESETS)
    return [(f"preset {name}", old, new, files.PRESETS[name]) for name, old, new in pairs if old != new]


def cell_rows(a, b):
    """Cells 228 to 230 count only where both are program files: an image does not keep them."""
    pairs = [(cell, old, b.memory.cells[cell]) for cell, old in a.memory.cells.items() if old != b.memory.cells[cell]]
    kept = [pair for pair in pairs if pair[0] not in UNKEPT or not (a.image or b.image)]
    if len(kept) < len(pairs):
        say(files.TOOL, "cells 228 to 230 are not compared, since an image does not keep them")
    return [(f"cell {cell}", *map(text, (old, new)), names(old, new)) for cell, old, new in kept]


def text(cell):
    return "empty" if cell == EMPTY else cell


def names(old, new):
    """The instructions, once where they are the same or one side is empty."""
    held = [name_of(cell) for cell in (old, new) if cell != EMPTY]
    return " | ".join(dict.fromkeys(held))


def print_rows(rows):
    widths = [max(len(row[column]) for row in rows) for column in range(3)]
    for row in rows:
        what, old, new = (word.ljust(width) for word, width in zip(row, widths))
        print(f"{what}  {old} | {new}  {row[3]}".rstrip())
