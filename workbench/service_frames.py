"""Lists and frames of docs/PROTOCOL.md: written, read, and given to a program that serves them."""

import contextlib
import select
import struct
import subprocess
from typing import NamedTuple

from workbench.engine import Order
from workbench.trouble import Trouble

VERSION, FRESH, LIST, LOAD, IMAGE = b"V", b"F", b"L", b"R", b"X"
# Why a list, an image or a frame is refused.
UNSOUND, NO_IMAGE, NO_WORD, CUT_WORD, NO_ROOM, TOO_LONG, NO_FRAME, CUT_FRAME = 2, 10, 100, 101, 102, 103, 104, 105
LONGEST_LIST = 16_384
LONGEST_FRAME = LONGEST_LIST + 1
# What each word but a string shows of itself, in bytes, and what its letter is followed by.
SHOWN = {"I": 1, "M": 1, "P": 1, "A": 1, "H": 1, "W": 6, "B": 17, "G": 5}
FOLLOWED = {"I": 2, "M": 0, "P": 0, "A": 0, "H": 0, "W": 4, "B": 0, "G": 4}
# A program that has not answered after so many seconds does not answer.
PATIENCE = 60
ENDS = [None, "idle", "moving", "spent"]
KINDS = ["stand", "slow", "run"]
ROOM = 64


class List:
    """Words, one after another. Each method adds one and gives the list."""

    def __init__(self):
        self.letters, self.parts, self.size = [], [], 0

    def __len__(self):
        return self.size

    def add(self, letter, rest=b"", times=1):
        part = (letter.encode() + rest) * times
        self.letters += letter * times
        self.parts.append(part)
        self.size += len(part)
        return self

    def string(self, text, room=ROOM):
        return self.add("S", struct.pack("<BH", room, len(text)) + text)

    def inputs(self, word):
        return self.add("I", struct.pack("<H", word))

    def millisecond(self, times=1):
        return self.add("M", times=times)

    def step(self, times=1):
        return self.add("P", times=times)

    def at_speed(self):
        return self.add("A")

    def halted(self):
        return self.add("H")

    def wait(self, budget):
        return self.add("W", struct.pack("<I", budget))

    def order(self):
        return self.add("B")

    def travel(self, steps):
        return self.add("G", struct.pack("<I", steps))

    def data(self):
        return b"".join(self.parts)


class Seen(NamedTuple):
    """What is seen of a word: the refusal or 0; the answer of a string, the end of a wait or the order of a B; the milliseconds or steps given, or the outputs."""

    letter: str
    refusal: int
    what: object = None
    count: int = 0


def seen_of(letters, data):
    """What is seen of each word of a list that was carried out."""
    found, at = [], 0
    for letter in letters:
        if letter == "S":
            end = at + 2 + data[at + 1]
            found.append(Seen(letter, data[at], data[at + 2 : end]))
        else:
            end = at + SHOWN[letter]
            found.append(decoded(letter, data[at:end]))
        at = end
    if at != len(data):
        raise Trouble(f"an answer has {len(data)} bytes where its list shows {at}")
    return found


def decoded(letter, data):
    if letter == "G":
        return Seen(letter, data[0], None, int.from_bytes(data[1:5], "little"))
    if letter == "W":
        return Seen(letter, data[0], ENDS[data[1]], int.from_bytes(data[2:6], "little"))
    if letter == "B":
        return Seen(letter, data[0], order_of(data[1:13]), int.from_bytes(data[13:17], "little"))
    return Seen(letter, data[0])


def order_of(data):
    kind, current, signals, ramp, hertz, rest = struct.unpack("<BBBBIi", data)
    return Order(KINDS[kind], not signals & 4, hertz, ramp, rest, current, bool(signals & 1), bool(signals & 2))


def words_of(data):
    """The words of a list in a reader's form, up to where it is none."""
    at = 0
    while at < len(data):
        letter = chr(data[at])
        if letter == "S":
            size = int.from_bytes(data[at + 2 : at + 4], "little")
            yield f"S {data[at + 4 : at + 4 + size]!r} room {data[at + 1] if at + 1 < len(data) else '-'}"
            at += 4 + size
        elif letter in FOLLOWED:
            number = data[at + 1 : at + 1 + FOLLOWED[letter]]
            yield f"{letter} {int.from_bytes(number, 'little')}" if number else letter
            at += 1 + FOLLOWED[letter]
        else:
            yield f"no word: {data[at:at + 16]!r}"
            return


def framed(body):
    return struct.pack("<I", len(body)) + body


class Server:
    """A program that serves frames on its standard input and output, given one request at a time."""

    def __init__(self, name, words):
        self.name, self.words = name, words
        # Apart from the tool's group of processes: a Ctrl-C is for the tool.
        self.process = subprocess.Popen(words, stdin=subprocess.PIPE, stdout=subprocess.PIPE, start_new_session=True)

    def send(self, data):
        try:
            self.process.stdin.write(data)
            self.process.stdin.flush()
        except BrokenPipeError:
            raise Trouble(f"{self.name} has ended") from None

    def receive(self):
        """The next answer, its status first; None where the program has ended."""
        if not select.select([self.process.stdout], [], [], PATIENCE)[0]:
            raise Trouble(f"{self.name} has not answered for {PATIENCE} s")
        head = self.process.stdout.read(4)
        if len(head) < 4:
            return None
        size = int.from_bytes(head, "little")
        body = self.process.stdout.read(size)
        return body if len(body) == size and size else None

    def end_input(self):
        with contextlib.suppress(BrokenPipeError):
            self.process.stdin.close()

    def kill(self):
        self.process.kill()
        self.process.wait()
        self.end_input()
        self.process.stdout.close()
