"""What a picture shows of a run, gathered as it goes: position and speed by their bends, inputs and outputs by their changes, cells and strings."""

from workbench.engine import INPUTS, OUTPUTS

# Two slopes whose difference is so small a part of them are one.
STRAIGHT = 1e-6


class Bends:
    """A line through points, of which only the bends are kept."""

    def __init__(self, time, value):
        self.points = [(time, value)]

    def add(self, time, value):
        """A point, not before the last one. The last one goes where the line is straight through it."""
        point = (time, value)
        if point == self.points[-1]:
            return
        if len(self.points) > 1 and straight(self.points[-2], self.points[-1], point):
            self.points.pop()
        self.points.append(point)

    def level(self, time):
        """The line goes on level up to a time."""
        self.add(time, self.points[-1][1])

    def jump(self, time, value):
        """Level up to a time, and there to a value."""
        self.level(time)
        self.add(time, value)


def straight(first, middle, last):
    across, up = middle[0] - first[0], middle[1] - first[1]
    further, higher = last[0] - middle[0], last[1] - middle[1]
    one, other = across * higher, further * up
    return up * higher >= 0 and abs(one - other) <= STRAIGHT * (abs(one) + abs(other))


class Trace:
    """A run from time 0. A lane is a list of times and the values from then on."""

    def __init__(self, record, outputs):
        self.position = Bends(0, record.pos)
        self.speed = Bends(0, 0)
        self.lanes = {name: [(0, value)] for name, value in values(record, outputs)}
        self.cells, self.strings, self.error = [(0, None)], [], None
        self.end = 0

    def see(self, time, record, outputs):
        """The drive after something has happened. What moves the position without a step, and what ends a run, is a jump."""
        self.changed(time, record, outputs)
        if record.errcode and not self.error:
            self.error = (time, record.errcode, record.errcell)
        if record.idle:
            self.taken(time, None)
        if not record.moving:
            self.position.jump(time, record.pos)
            self.speed.jump(time, 0)

    def changed(self, time, record, outputs):
        """Inputs and outputs that have another value now."""
        for name, value in values(record, outputs):
            if self.lanes[name][-1][1] != value:
                self.lanes[name].append((time, value))

    def moved(self, time, position, direction, move):
        """A millisecond of a run, which ends at a time and at a position, parts of a step included."""
        if self.position.points[-1][0] < time - 1:
            self.position.level(time - 1)
        self.position.add(time, position + direction * move.part / 1000)
        self.speed.jump(time - 1, direction * move.start)
        self.speed.add(time, direction * move.end)

    def taken(self, time, cell):
        """A cell is taken; one that is taken again and again is kept once. Time without a cell is one of None."""
        if not self.cells or self.cells[-1][1] != cell:
            self.cells.append((time, cell))

    def string(self, time, text):
        self.strings.append((time, text))

    def ended(self, time):
        """The run is over, at the last time that anything was told of where it is interrupted."""
        self.end = max(time, self.position.points[-1][0], self.speed.points[-1][0])
        self.position.level(self.end)
        self.speed.level(self.end)


def values(record, outputs):
    """The value of each output and input by its name; none is the name of both."""
    yield from ((name, int(bit)) for name, bit in zip(OUTPUTS, outputs))
    yield from ((name, record.inp >> bit & 1) for bit, name in enumerate(INPUTS))
