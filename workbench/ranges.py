"""Cells in words."""


def ranges(cells):
    """The first and last of each row of cells without a gap."""
    found = []
    for cell in sorted(cells):
        if found and found[-1][1] == cell - 1:
            found[-1][1] = cell
        else:
            found.append([cell, cell])
    return found


def in_words(cells):
    """100; 100 and 101; 100 to 115 and 117; 100 to 115, 117, 118 and 120."""
    parts = []
    for first, last in ranges(cells):
        parts += [f"{first} to {last}"] if last > first + 1 else map(str, range(first, last + 1))
    return listed(parts)


def listed(words):
    return words[0] if len(words) == 1 else f"{', '.join(words[:-1])} and {words[-1]}"


def counted(number, noun):
    return f"{number} {noun}" if number == 1 else f"{number} {noun}s"
