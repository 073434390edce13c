"""bin/reading calls and bin/reading program: what a reading is good for on the bench."""

import sys

from workbench.files import program_text
from workbench.reading import kept
from workbench.restoring import built, calls


def add_words(parser):
    parser.add_argument("file", metavar="FILE", help="a full reading")


def run_calls(options):
    """The list is run first: what is written has been seen to end in this reading."""
    found = kept(options.file)
    built(found).close()
    for call in calls(found.reading):
        sys.stdout.write(f"{call}\n")


def run_program(options):
    found = kept(options.file)
    built(found).close()
    sys.stdout.write(program_text(found.reading.presets, found.reading.cells))
