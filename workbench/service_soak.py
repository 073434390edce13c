"""bin/soak HOURS: a simulated line in simulated time, as fast as it goes; the engine is compared with the second implementation at every answer."""

import shlex
import sys
import time
from collections import Counter
from pathlib import Path

from workbench import build
from workbench.service_line import Line
from workbench.service_pair import Difference
from workbench.trouble import FAILED, Trouble

HOUR = 3_600_000
# A line is given up after so many simulated milliseconds for the next seed's, with other addresses.
EACH = HOUR // 4
# Differences that are reported; after them the run ends.
REPORTED = 5
# Seconds between words of progress.
OFTEN = 10


def commands(options):
    """The words that start the engine, or what stands in its place, and the second implementation."""
    engine = shlex.split(options.engine) if options.engine else [build.program("engine")]
    return [engine, [build.reference(), "serve"]]


def run(options):
    wanted, words = options.hours * HOUR, commands(options)
    print(f"seed {options.seed}, {options.hours:g} simulated hours of a line of {options.drives} drives", flush=True)
    soak = Soak(words, options)
    while soak.milliseconds < wanted and soak.differences < REPORTED:
        soak.line(min(EACH, wanted - soak.milliseconds))
    soak.report()
    return FAILED if soak.differences else 0


class Soak:
    """Lines of one seed after another, and what was seen of all."""

    def __init__(self, words, options):
        self.words, self.seed, self.drives, self.folder = words, options.seed, options.drives, Path(options.keep)
        self.counts, self.faults = Counter(), Counter()
        self.milliseconds, self.differences = 0, 0
        self.began, self.told = time.monotonic(), time.monotonic()

    def line(self, span):
        """One line, for so many milliseconds or up to a difference."""
        line = Line(self.seed)
        try:
            line.begin(self.words, self.drives)
            while line.clock < span:
                line.turn()
                self.progress(line)
        except Difference as difference:
            self.tell(difference)
        finally:
            line.end()
        self.seed += 1
        self.milliseconds += line.clock
        self.faults += line.faults
        self.counts += line.counts
        self.counts["requests"] += sum(drive.pair.requests for drive in line.drives)

    def tell(self, difference):
        """A difference, with the requests that lead to it in a file."""
        self.differences += 1
        self.folder.mkdir(parents=True, exist_ok=True)
        kept = self.folder / f"{self.seed}.frames"
        kept.write_bytes(b"".join(difference.journal))
        print(f"seed {self.seed}: {difference}\n{kept} has the {len(difference.journal)} frames that lead there", flush=True)

    def progress(self, line):
        if time.monotonic() - self.told < OFTEN:
            return
        self.told = time.monotonic()
        print(f"bin/soak: {(self.milliseconds + line.clock) / HOUR:.2f} hours simulated, seed {self.seed}", file=sys.stderr, flush=True)

    def report(self):
        seconds = time.monotonic() - self.began
        shown = {**self.counts, "stops": self.counts["stops"], "collisions": self.counts["collisions"]}
        print(f"{self.milliseconds / HOUR:.2f} simulated hours in {seconds:.0f} s: {', '.join(f'{count:,} {name}' for name, count in sorted(shown.items()))}")
        print(f"faults: {', '.join(f'{count} {name}' for name, count in sorted(self.faults.items())) or 'none'}")
        print(f"{self.differences} differences")
        if not self.counts["answers"]:
            raise Trouble("no drive has answered anything, so nothing was compared; give more hours")
