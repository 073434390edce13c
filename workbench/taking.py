"""bin/reading take: asks a drive its full reading and keeps it."""

import argparse
import datetime
import re

from workbench import files, lines, saving
from workbench.asking import named, sent, taken
from workbench.engine import HIGHEST_ADDRESS
from workbench.lines import BAUD, LINES, PARITIES
from workbench.played import played
from workbench.reading import text_of
from workbench.trouble import Trouble, WrongWords

CONSOLE, SCRIPT = "console", "script"
LONGEST_TIMEOUT = 600
EPILOG = """\
FROM is one of
  tty:PATH       a serial line or a pty
  unix:PATH      a socket of this machine
  tcp:HOST:PORT  a socket of another
  console        a fresh drive of the console, after the strings of --send
  script:FILE    the drive that a script of calls leaves (docs/SCRIPTS.md)

The drive must be idle and at rest. Only requests are sent, so nothing of it changes. All 165 answers are kept, or none."""


def address(text):
    if not re.fullmatch("[0-9]{1,2}", text) or int(text) > HIGHEST_ADDRESS:
        raise argparse.ArgumentTypeError(f"{text!r} is no address of a drive; give 00 to 47")
    return int(text)


def seconds(text):
    if not re.fullmatch("[0-9]{1,3}([.][0-9]{1,6})?", text) or not 0 < float(text) <= LONGEST_TIMEOUT:
        raise argparse.ArgumentTypeError(f"{text!r} is no time; give seconds above 0 and up to {LONGEST_TIMEOUT}, as 0.5")
    return float(text)


def add_words(parser):
    parser.formatter_class = argparse.RawDescriptionHelpFormatter
    parser.epilog = EPILOG
    parser.add_argument("source", metavar="FROM", help="where the drive is, see below")
    parser.add_argument("-o", dest="out", metavar="FILE", help="the reading; without it, standard output. An old file stays until the new one is whole")
    parser.add_argument("--address", metavar="NN", type=address, help="the drive's address, 00 to 47 (00; of console and script, that of their drive)")
    parser.add_argument("--timeout", metavar="S", type=seconds, default=1.0, help="seconds of silence after which no answer is awaited (1)")
    parser.add_argument("--baud", metavar="N", type=int, default=BAUD, help="speed of a tty (9600)")
    parser.add_argument("--parity", choices=PARITIES, default="none", help="parity of a tty (none)")
    parser.add_argument("--send", metavar="FILE", help="a program file that the console is given first")
    parser.add_argument("--date", action="store_true", help="note the time in the file; equal readings are then no longer equal files")


def run(options):
    if options.send and options.source != CONSOLE:
        raise WrongWords("--send goes with console alone, since a reading changes nothing of a drive in use; leave it out")
    saving.judge(options.out, options.send, options.source.partition(":")[2])
    reading = from_source(options)
    notes = [f"taken at {datetime.datetime.now().astimezone().isoformat(timespec='seconds')}"] if options.date else []
    text = text_of(reading, notes)
    saving.save(options.out or saving.STANDARD_OUTPUT, text.encode())


def from_source(options):
    kind, _, place = options.source.partition(":")
    if options.source == CONSOLE:
        return from_console(options)
    if not place or kind not in (*LINES, SCRIPT):
        raise WrongWords(f"{options.source!r} is no line to a drive; give tty:PATH, unix:PATH, tcp:HOST:PORT, console or script:FILE")
    if kind == SCRIPT:
        return from_script(place, options)
    with lines.opened(kind, place, options) as line:
        return taken(line, options.address or 0, options.timeout)


def from_console(options):
    """A drive of the console, made with the address that the file names, as bin/program has it."""
    strings = strings_of(options.send) if options.send else []
    first = files.first_address(strings)
    with lines.console() as line:
        named(line, first, options.timeout)
        own = sent(line, options.send, strings, first, options.timeout)
        judge(options.address, own)
        busy = f"{options.send}: the drive is still busy after the last line; let its program end, or leave out the PS"
        return taken(line, own, options.timeout, busy)


def strings_of(path):
    if files.is_image(files.content(path)):
        raise Trouble(f"{path}: an image, and --send takes a program file; bin/program show makes one of it")
    return files.lines_of(path)


def from_script(path, options):
    with played(path) as engine:
        own = engine.record().ad
        judge(options.address, own)
        return taken(engine, own, options.timeout)


def judge(wanted, own):
    """Of a drive that is made here the address is known."""
    if wanted not in (None, own):
        raise WrongWords(f"the drive has address {own:02}, and not {wanted:02}; leave out --address")
