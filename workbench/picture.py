"""The picture of a run as SVG: cells, position, speed, outputs, inputs and strings over one axis of time.

It is drawn in black and greys, so that it can be read on any paper, and the same run gives the same bytes."""

from typing import NamedTuple
from xml.sax.saxutils import escape

from workbench.engine import INPUTS, OUTPUTS
from workbench.thinning import thinned

WIDTH, LEFT, RIGHT = 960, 112, 24
TOP, GAP, FOOT = 52, 16, 46
CELLS, POSITION, SPEED, LANE = 24, 190, 130, 24
# Of a lane, the space above and below its line.
ROOM = 5
# Letters are about so wide, and a cell's number is written across from the first width on, upright from the second.
LETTER, ACROSS, UPRIGHT = 6.1, 26, 12
# Strings that are no further apart stand as one.
CLOSE = 4
# From so many milliseconds on the axis is in seconds.
SECONDS = 10_000
# The most parts of an axis.
TICKS_DOWN, TICKS_ACROSS = 8, 10
STYLE = """text{font-family:sans-serif;font-size:11px;fill:#000}
.title{font-size:15px;font-weight:bold}
.name{font-size:12px}
.line{fill:none;stroke:#000;stroke-width:1.5;stroke-linejoin:round}
.lane{fill:none;stroke:#000;stroke-width:1.2}
.on{fill:#ccc;stroke:none}
.grid{fill:none;stroke:#999;stroke-width:.6;stroke-dasharray:2 3}
.zero{fill:none;stroke:#555;stroke-width:.8}
.frame{fill:none;stroke:#000;stroke-width:.8}
.mark{fill:none;stroke:#000;stroke-width:1;stroke-dasharray:5 3}"""


class Scale(NamedTuple):
    """From values to places in the picture."""

    least: float
    most: float
    start: float
    end: float

    def at(self, value):
        return self.start + (value - self.least) * (self.end - self.start) / (self.most - self.least)


def number(value):
    """A coordinate, to a tenth of a unit."""
    text = f"{value:.1f}"
    return text[:-2] if text.endswith(".0") else text


def text(x, y, words, anchor="start", more=""):
    return f'<text x="{number(x)}" y="{number(y)}" text-anchor="{anchor}"{more}>{escape(words)}</text>'


def upright(x, y, words, style=""):
    """Words that read upwards, their middle at a point."""
    return text(x, y, words, "middle", f' transform="rotate(-90 {number(x)} {number(y)})"{style}')


def path(kind, points):
    """A line through points."""
    return f'<path class="{kind}" d="M{" ".join(f"{number(x)} {number(y)}" for x, y in points)}"/>'


def box(kind, x, y, width, height):
    return f'<rect class="{kind}" x="{number(x)}" y="{number(y)}" width="{number(width)}" height="{number(height)}"/>'


# Axes.


def step_of(span, most):
    """The least of 1, 2, 5, 10, 20, .. by which a span has at most so many parts."""
    unit = 1
    while span / (10 * unit) > most:
        unit *= 10
    return next(unit * times for times in (1, 2, 5, 10) if span / (unit * times) <= most)


def ticks(least, most, count):
    """Round numbers from one value to another."""
    step = step_of(most - least, count)
    first = -(-least // step) * step
    return [int(first + step * k) for k in range(int((most - first) // step) + 1)]


def grouped(value):
    return f"{value:,}"


def time_text(value, unit):
    """A time of the axis, in milliseconds or seconds; seconds have a fraction only where it is not 0."""
    if unit == 1:
        return grouped(value)
    whole, part = divmod(value, unit)
    return grouped(whole) + (f".{part:03}".rstrip("0") if part else "")


def bounds(points):
    """The least and greatest value, drawn a little apart where they are one."""
    values = [value for _, value in points]
    least, most = min(values), max(values)
    return (least - 1, most + 1) if most - least < 1 else (least, most)


# Panels. Each gives its lines, from a height on.


class Frame(NamedTuple):
    """The axis of time, and the times at which it has ticks."""

    across: Scale
    marks: list
    unit: int

    def grid(self, y, height):
        return [path("grid", [(self.across.at(mark), y), (self.across.at(mark), y + height)]) for mark in self.marks]


def frame_of(end, start=0):
    """A little more time than the run has, so that its end can be seen."""
    unit = 1000 if end >= SECONDS else 1
    most = max(start + 1, end + (end - start) / 40)
    return Frame(Scale(start, most, LEFT, WIDTH - RIGHT), ticks(start, most, TICKS_ACROSS), unit)


def curve(frame, points, y, height, name, with_zero):
    """A panel with a line, ticks and a name."""
    least, most = bounds([*points, (0, 0)] if with_zero else points)
    down = Scale(least, most, y + height - ROOM, y + ROOM)
    drawn = [*frame.grid(y, height)]
    for mark in ticks(least, most, TICKS_DOWN):
        drawn.append(path("zero" if mark == 0 else "grid", [(LEFT, down.at(mark)), (WIDTH - RIGHT, down.at(mark))]))
        drawn.append(text(LEFT - 6, down.at(mark) + 4, grouped(mark), "end"))
    drawn.append(path("line", thinned([(frame.across.at(time), down.at(value)) for time, value in points])))
    drawn.append(box("frame", LEFT, y, WIDTH - RIGHT - LEFT, height))
    drawn.append(upright(16, y + height / 2, name, ' class="name"'))
    return drawn


def lane(frame, end, changes, y, name):
    """An input or output: a line that is high where it is on, with grey under it."""
    high, low = y + ROOM, y + LANE - ROOM
    points, greys = [], []
    for (time, value), (after, _) in zip(changes, [*changes[1:], (end, 0)]):
        x, until = frame.across.at(time), frame.across.at(after)
        points += [(x, high if value else low), (until, high if value else low)]
        greys += [(x, until)] if value else []
    grey = "".join(f"M{number(x)} {number(low)}V{number(high)}H{number(until)}V{number(low)}z" for x, until in joined(greys))
    drawn = [*frame.grid(y, LANE), *([f'<path class="on" d="{grey}"/>'] if grey else []), path("lane", thinned(points))]
    drawn.append(text(LEFT - 6, y + LANE / 2 + 4, name, "end"))
    return drawn


def joined(spans):
    """Spans that are too near to be told apart, as one."""
    found = []
    for start, end in spans:
        if found and start - found[-1][1] < 1:
            found[-1] = (found[-1][0], end)
        else:
            found.append((start, end))
    return found


def lanes(trace, frame, names, y, title):
    """The inputs or outputs that are ever on, under a name."""
    shown = [name for name in names if any(value for _, value in trace.lanes[name])]
    if not shown:
        return [], y
    drawn = []
    for place, name in enumerate(shown):
        drawn += lane(frame, trace.end, trace.lanes[name], y + place * LANE, name)
    height = LANE * len(shown)
    drawn.append(box("frame", LEFT, y, WIDTH - RIGHT - LEFT, height))
    drawn.append(upright(16, y + height / 2, title, ' class="name"') if len(shown) > 1 else text(8, y + height / 2 + 4, title, more=' class="name"'))
    return drawn, y + height + GAP


def cells(trace, frame, y):
    """The cells in the order of their time, each from where it is taken to where the next one is; its number where there is room for it."""
    drawn = [box("frame", LEFT, y, WIDTH - RIGHT - LEFT, CELLS), text(8, y + CELLS / 2 + 4, "cell", more=' class="name"')]
    edges = [LEFT]
    for (time, name), (after, _) in zip(trace.cells, [*trace.cells[1:], (trace.end, 0)]):
        x, width = frame.across.at(time), frame.across.at(after) - frame.across.at(time)
        edges += [x] if x - edges[-1] >= 2 else []
        if name and width >= UPRIGHT:
            across = text(x + width / 2, y + CELLS / 2 + 4, str(name), "middle")
            drawn.append(across if width >= ACROSS else upright(x + width / 2 + 4, y + CELLS / 2, str(name)))
    ticked = "".join(f"M{number(x)} {number(y)}v{CELLS}" for x in edges)
    return [*drawn, f'<path class="frame" d="{ticked}"/>']


def strings(trace, frame, y):
    """When strings were sent, and which, where there is room for it before the next one or after the last."""
    if not trace.strings:
        return [], y
    drawn = [*frame.grid(y, LANE), box("frame", LEFT, y, WIDTH - RIGHT - LEFT, LANE), text(8, y + LANE / 2 + 4, "strings", more=' class="name"')]
    free, sent = LEFT, together([(frame.across.at(time), words) for time, words in trace.strings])
    for (x, words), (after, _) in zip(sent, [*sent[1:], (WIDTH - RIGHT, "")]):
        wide = len(words) * LETTER + 8
        drawn.append(path("line", [(x, y + ROOM), (x, y + LANE - ROOM)]))
        if x + wide <= after:
            drawn.append(text(x + 4, y + LANE / 2 + 4, words))
        elif x - wide >= free:
            drawn.append(text(x - 4, y + LANE / 2 + 4, words, "end"))
        free = x + wide if x + wide <= after else x
    return drawn, y + LANE + GAP


def together(sent):
    """Strings that were sent nearly at once, as one."""
    found = []
    for x, words in sent:
        if found and x - found[-1][0] < CLOSE:
            found[-1] = (found[-1][0], f"{found[-1][1]} {words}")
        else:
            found.append((x, words))
    return found


def failed(trace, frame, y):
    """An error that the drive noted: a broken line down the picture, named above it."""
    if not trace.error:
        return []
    time, code, cell = trace.error
    x, words = frame.across.at(time), f"error {code} at cell {cell}"
    right = x + len(words) * LETTER > WIDTH - RIGHT
    return [path("mark", [(x, TOP - 10), (x, y)]), text(x - 4 if right else x + 4, TOP - 6, words, "end" if right else "start")]


def axis(frame, y):
    """The axis of time under all panels."""
    drawn = [text(frame.across.at(mark), y + 14, time_text(mark, frame.unit), "middle") for mark in frame.marks]
    unit = "s" if frame.unit > 1 else "ms"
    return [*drawn, text((LEFT + WIDTH - RIGHT) / 2, y + 34, f"time ({unit})", "middle", ' class="name"')]


def drawn(trace, title):
    """The picture of a run that has ended."""
    frame = frame_of(trace.end)
    parts = cells(trace, frame, TOP)
    part, y = curves(trace, frame, TOP + CELLS + GAP / 2)
    parts += part
    for part, after in panels(trace, frame, y):
        parts += part
        y = after
    parts += [*failed(trace, frame, y - GAP), *axis(frame, y - GAP)]
    return document(parts, y - GAP + FOOT, title)


def recorded(trace, title):
    """The picture of what a gateway has traced: position, speed and outputs, since it tells no more."""
    frame = frame_of(trace.end, trace.start)
    parts, y = curves(trace, frame, TOP)
    part, y = lanes(trace, frame, OUTPUTS, y, "outputs")
    return document([*parts, *part, *axis(frame, y - GAP)], y - GAP + FOOT, title)


def curves(trace, frame, y):
    """Position and speed, and the height after them."""
    parts = curve(frame, trace.position.points, y, POSITION, "position (steps)", False)
    y += POSITION + GAP
    parts += curve(frame, trace.speed.points, y, SPEED, "speed (Hz)", True)
    return parts, y + SPEED + GAP


def panels(trace, frame, y):
    """The panels that only some runs have, each with the height after it."""
    part, y = lanes(trace, frame, OUTPUTS, y, "outputs")
    yield part, y
    part, y = lanes(trace, frame, INPUTS, y, "inputs")
    yield part, y
    yield strings(trace, frame, y)


def document(parts, height, title):
    size = f'width="{WIDTH}" height="{number(height)}" viewBox="0 0 {WIDTH} {number(height)}"'
    head = [
        '<?xml version="1.0" encoding="UTF-8"?>',
        f'<svg xmlns="http://www.w3.org/2000/svg" {size}>',
        f"<title>{escape(title)}</title>",
        f"<style>{STYLE}</style>",
        f'<rect width="{WIDTH}" height="{number(height)}" fill="#fff"/>',
        text(LEFT, 24, title, more=' class="title"'),
    ]
    return "\n".join([*head, *parts, "</svg>"]) + "\n"
