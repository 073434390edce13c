"""Schedules: what comes to a drive from outside during a run, line by line. Each line says when, and which inputs change or which string is sent."""

import re
from collections import deque
from typing import NamedTuple, Optional

from workbench.engine import INPUTS
from workbench.trouble import Trouble

FORM = "write 500, +20 or at +2000, and then NAME=0, NAME=1 or send STRING"
WHEN = re.compile(r"(?P<clock>[0-9]+)|\+(?P<after>[0-9]+)|at\s+(?P<place>[+-]?[0-9]+)")
# The last millisecond that a line may name, some 116 days.
LATEST = 10**10 - 1


class Line(NamedTuple):
    """When is a time (clock), a time after the line above (after) or a position (place); changes are inputs by name, or there is a string."""

    number: int
    kind: str
    when: int
    changes: dict
    string: Optional[str]

    def __str__(self):
        if self.string is not None:
            return f"send {self.string}"
        return " ".join(f"{name}={value}" for name, value in self.changes.items())


class Schedule:
    """Lines happen in their order, none before the one above it."""

    def __init__(self, path=None, lines=()):
        self.path = path
        self.lines = deque(lines)
        self.happened = 0

    def next(self):
        return self.lines[0] if self.lines else None

    def next_time(self):
        """When the next line happens, None where that is no matter of time."""
        line = self.next()
        if line is None or line.kind == "place":
            return None
        return max(self.happened, line.when) if line.kind == "clock" else self.happened + line.when

    def place(self):
        """The position that the next line waits for, if it does."""
        line = self.next()
        return line.when if line and line.kind == "place" else None

    def take(self, time):
        """The next line, which happens now."""
        self.happened = time
        return self.lines.popleft()


def read(path):
    """The schedule of a file, or trouble with its first wrong line."""
    try:
        with open(path, encoding="utf-8-sig", errors="replace") as source:
            return Schedule(path, lines_of(path, source))
    except OSError as error:
        raise Trouble(f"{path}: {error.strerror}; name a schedule that can be read") from None


def lines_of(path, source):
    earliest = 0
    for number, text in enumerate(source, 1):
        words = text.partition("#")[0].strip()
        if words:
            line = line_of(f"{path}:{number}", number, words)
            earliest = in_order(f"{path}:{number}", line, earliest)
            yield line


def line_of(where, number, text):
    when = WHEN.match(text)
    rest = text[when.end() :] if when else ""
    if not when or (rest and not rest[0].isspace()):
        raise Trouble(f"{where}: {text.split()[0][:40]!r} is no time; {FORM}")
    kind = when.lastgroup
    value = whole(when[kind])
    if kind != "place" and value > LATEST:
        raise Trouble(f"{where}: the time {when[kind][:40]} is too large; write at most {LATEST} milliseconds")
    if kind == "place" and not -(2**31) <= value < 2**31:
        raise Trouble(f"{where}: the position {when[kind][:40]} is none; write one from -2147483648 to +2147483647")
    what, _, string = rest.strip().partition(" ")
    if what == "send":
        return Line(number, kind, value, {}, sent(where, string.strip()))
    return Line(number, kind, value, changes_of(where, rest.split()), None)


def whole(text):
    """A number; of one with very many digits, one that is as much too large."""
    return int(text[:20])


def sent(where, string):
    if not string or not string.isascii() or not string.isprintable():
        raise Trouble(f"{where}: send needs a string of plain characters after it, as send EE or send PS,100")
    return string


def changes_of(where, words):
    changes = {}
    for word in words:
        name, _, value = word.partition("=")
        if name not in INPUTS or value not in ("0", "1"):
            raise Trouble(f"{where}: {word[:40]!r} changes no input; write NAME=0 or NAME=1 with one of {', '.join(INPUTS)}")
        if name in changes:
            raise Trouble(f"{where}: {name} stands twice; give each input one value in a line")
        changes[name] = int(value)
    if not changes:
        raise Trouble(f"{where}: nothing happens in it; {FORM}")
    return changes


def in_order(where, line, earliest):
    """The earliest time of a line below this one."""
    if line.kind == "after":
        return earliest + line.when
    if line.kind == "place":
        return earliest
    if line.when < earliest:
        raise Trouble(f"{where}: {line.when} ms is before the line above it, {earliest} ms; put the lines in the order of their times")
    return line.when
