"""bin/program image: the memory image of 02, Slip 1, of a program file."""

import sys

from workbench import files, saving
from workbench.instructions import EMPTY
from workbench.ranges import listed
from workbench.trouble import WrongWords, say

# 02: "Cells 228 to 230 aren't kept".
UNKEPT = range(228, 231)


def add_words(parser):
    parser.add_argument("file", metavar="FILE", help="a program file or an image, or - for standard input")
    words = "the image, or - for standard output; an old file stays until the new one is whole"
    parser.add_argument("-o", dest="out", metavar="OUT", required=True, help=words)


def run(options):
    judge(options)
    with files.loaded(options.file) as engine:
        lost = unkept(engine)
        saving.save(options.out, engine.image())
    if lost:
        say(files.TOOL, f"{files.named(options.file)}: an image keeps presets and cells 100 to 227, so these are not in it: {listed(lost)}")


def judge(options):
    """Refuses an OUT that would be lost."""
    if options.out == saving.STANDARD_OUTPUT and sys.stdout.isatty():
        raise WrongWords("standard output is a terminal, and an image is bytes that it cannot show; name a file with -o")
    saving.judge(options.out, options.file)


def unkept(engine):
    """What a drive holds that its image does not, in words."""
    cells = engine.cells()
    held = [cell for cell in UNKEPT if cells[cell] != EMPTY]
    return [f"cell {cell}" for cell in held] + files.passing(engine)
