"""Lines of a picture with fewer points that look the same."""

from itertools import groupby

# A point is left out where the line is then no further away than so many units of the picture.
NEAR = 0.15
# Beyond so many points, each column of the picture, so many units wide, keeps four.
MANY, COLUMN = 1500, 2


def thinned(points):
    """The points that a line needs, in their order: the first, the last and its bends."""
    points = columns(points) if len(points) > MANY else points
    kept, open_parts = {0, len(points) - 1}, [(0, len(points) - 1)]
    while open_parts:
        start, end = open_parts.pop()
        far, away = farthest(points, start, end)
        if away > NEAR:
            kept.add(far)
            open_parts += [(start, far), (far, end)]
    return [points[place] for place in sorted(kept)]


def columns(points):
    """Of each column the first, lowest, highest and last point."""
    found = []
    for _, column in groupby(enumerate(points), key=lambda each: each[1][0] // COLUMN):
        column = list(column)
        heights = sorted(column, key=lambda each: (each[1][1], each[0]))
        found += sorted({column[0], heights[0], heights[-1], column[-1]})
    return [point for _, point in found]


def farthest(points, start, end):
    """The place between two others whose point is farthest from the line through theirs, and how far it is."""
    (x, y), (last_x, last_y) = points[start], points[end]
    across, up = last_x - x, last_y - y
    length = (across * across + up * up) ** 0.5
    far, away = start, 0.0
    for place in range(start + 1, end):
        right, high = points[place][0] - x, points[place][1] - y
        off = abs(across * high - up * right) / length if length else (right * right + high * high) ** 0.5
        if off > away:
            far, away = place, off
    return far, away
