"""A simulated pulse board: an order becomes steps, at-speed and halted, a millisecond at a time.

Speeds are in Hz, and so in thousandths of a step a millisecond; distances are in thousandths of a step. Only IEEE arithmetic and square roots are
used, which give the same results on every machine."""

from math import sqrt
from typing import NamedTuple

# 001, Table 5: the milliseconds in which a ramp code, 10 to 42, brings a motor that stands to 24,000 Hz.
TOP = 24_000
RAMP_TIMES = dict(
    zip(
        range(10, 43),
        [16, 18, 20, 22, 24, 27, 30, 32, 34, 37, 40, 44, 48, 53, 60, 68, 80, 87, 96, 107, 120, 137, 160, 192, 206, 240, 288, 320, 360, 480, 720, 960, 1440],
    )
)
# A speed so near to the ordered one has got there: sums of fractions are a little off.
NEAR = 1e-6
AT_SPEED, HALTED = "A", "H"


class Move(NamedTuple):
    """A millisecond: its steps, the part of a step after them, the speed at its beginning and end, and what the board reports after it, if anything."""

    steps: int
    part: float
    start: float
    end: float
    report: str


class Board:
    """What a board keeps of a run: its speed, the part of a step that is on its way, the slope of its ramp in Hz a millisecond (0 without), and whether
    at-speed is reported."""

    def __init__(self):
        self.begin(0, 1)

    def begin(self, ramp, times):
        """A run begins, from standing. 001, 5.1: x4 multiplies the acceleration too."""
        self.speed, self.part, self.reported = 0.0, 0.0, False
        self.slope = TOP / RAMP_TIMES[ramp] * times if ramp else 0

    def move(self, order, rest):
        """The next millisecond under an order, with so many steps left, 0 where none are counted. It never makes more than these."""
        if order.kind == "slow":
            return self.slowed(rest)
        if not self.slope:
            return self.moved(order.hertz, order.hertz, order.hertz, rest, "")
        return self.ramped(order.hertz, rest)

    def ramped(self, hertz, rest):
        """Up to the ordered speed, and never faster than the steps left allow: where they are too few, the speed drops."""
        left = 1000 * rest - self.part
        start = min(self.speed, sqrt(2 * self.slope * left)) if rest else self.speed
        end = min(start + self.slope, hertz)
        if rest:
            end = min(end, self.braked(start, left))
        if end <= 0:
            return self.moved(start, 0.0, left, rest, "")
        end = hertz if end > hertz - NEAR else end
        report = AT_SPEED if end == hertz and not self.reported else ""
        self.reported = self.reported or bool(report)
        return self.moved(start, end, (start + end) / 2, rest, report)

    def braked(self, start, left):
        """The speed at the millisecond's end from which the ramp comes down with the last step: its square is twice the slope times what is left then.
        Where there is none above 0, the run ends in this millisecond."""
        under = self.slope * self.slope + 8 * self.slope * left - 4 * self.slope * start
        return (sqrt(max(0.0, under)) - self.slope) / 2

    def slowed(self, rest):
        """Down the ramp to standing, then halted."""
        start = self.speed
        end = max(0.0, start - self.slope) if self.slope else 0.0
        if end > 0:
            return self.moved(start, end, (start + end) / 2, rest, "")
        return self.moved(start, 0.0, start * start / (2 * self.slope) if self.slope else 0.0, rest, HALTED)

    def moved(self, start, end, distance, rest, report):
        """The whole steps of a distance; what is over is kept for the next millisecond."""
        self.speed = end
        gone = self.part + distance
        steps = int(gone // 1000)
        if rest and (steps >= rest or gone > 1000 * rest - NEAR):
            steps, gone = rest, 1000.0 * rest
        self.part = gone - 1000 * steps
        return Move(steps, self.part, start, end, report)
