"""bin/program show: what an image or a program file holds, as a program file that makes the same image."""

import sys

from workbench import files
from workbench.ranges import listed
from workbench.trouble import say


def add_words(parser):
    parser.add_argument("file", metavar="IMAGE", help="an image or a program file, or - for standard input")


def run(options):
    with files.loaded(options.file) as engine:
        sys.stdout.write(files.program_text(*files.memory_of(engine)))
        lost = files.passing(engine)
    if lost:
        say(files.TOOL, f"{files.named(options.file)}: only presets and cells are shown, not {listed(lost)}")
