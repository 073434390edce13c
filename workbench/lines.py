"""Lines to a drive: a tty, a socket or the console. Each sends bytes, and gives those that come within a time."""

import os
import re
import select
import socket
import stat
import subprocess
import termios
import time

from workbench import build
from workbench.trouble import Trouble, WrongWords

# Chapter 3 of the manual: 9600 baud, eight bits, no parity bit, one stop bit.
BAUD = 9600
PARITIES = {"none": 0, "even": termios.PARENB, "odd": termios.PARENB | termios.PARODD}
# "To the total calculated time of serial line holding the user has to add a 4 milliseconds margin before the transmission of another string."
MARGIN = 0.004
CHUNK = 4096


class Closed(Trouble):
    """The other end of a line is gone."""


class Line:
    """A line over two descriptors, which may be the same. Before each string it rests for `margin` seconds."""

    def __init__(self, source, sink, close, margin=0.0):
        self.source, self.sink, self.closing, self.margin = source, sink, close, margin

    def __enter__(self):
        return self

    def __exit__(self, *_):
        self.closing()

    def send(self, data, timeout):
        """Sends bytes; False where the line has not taken them all in time."""
        time.sleep(self.margin)
        end = time.monotonic() + timeout
        while data and ready([], [self.sink], end):
            data = data[moved(os.write, self.sink, data) or 0 :]
        return not data

    def receive(self, timeout):
        """Some bytes that came, or none after so many seconds."""
        end = time.monotonic() + timeout
        while ready([self.source], [], end):
            data = moved(os.read, self.source, CHUNK)
            if data == b"":
                raise Closed("the line was closed at the other end")
            if data:
                return data
        return b""


def moved(call, descriptor, what):
    """What os.read or os.write gives, None where the descriptor was not ready after all."""
    try:
        return call(descriptor, what)
    except BlockingIOError:
        return None
    except OSError as error:
        raise Closed(f"the line was closed at the other end ({error.strerror})") from None


def ready(sources, sinks, end):
    found = select.select(sources, sinks, [], max(0, end - time.monotonic()))
    return bool(found[0] or found[1])


def opened(kind, place, options):
    """The line of a kind of LINES at a place."""
    try:
        return LINES[kind](place, options)
    except OSError as error:
        raise Trouble(f"{kind}:{place}: {error.strerror or error}; look whether the line is there and may be used") from None


def tty(path, options):
    """A serial line or a pty, raw while it is used and then as it was."""
    speed = speed_of(options.baud)
    if not stat.S_ISCHR(os.stat(path).st_mode):
        raise Trouble(f"{path}: no tty; a socket is named unix:{path}")
    descriptor = os.open(path, os.O_RDWR | os.O_NOCTTY | os.O_NONBLOCK)
    try:
        before = termios.tcgetattr(descriptor)
        termios.tcsetattr(descriptor, termios.TCSANOW, raw(before, speed, options.parity))
    except termios.error as error:
        os.close(descriptor)
        raise Trouble(f"{path}: {error.args[1]}, so no tty of {options.baud} baud and parity {options.parity}; name another") from None
    return Line(descriptor, descriptor, lambda: set_back(descriptor, before), MARGIN)


def set_back(descriptor, settings):
    try:
        termios.tcsetattr(descriptor, termios.TCSANOW, settings)
    except termios.error:
        # The other end is gone, and the settings with it.
        pass
    os.close(descriptor)


def speed_of(baud):
    speed = getattr(termios, f"B{baud}", None)
    if not speed:
        raise WrongWords(f"no tty has {baud} baud; give --baud 9600, as the manual does, or another usual speed")
    return speed


def raw(settings, speed, parity):
    """Eight bits, one stop bit, no echo, and no byte changed either way. A byte of wrong parity comes as 0, which no answer has."""
    flags = termios.CS8 | termios.CREAD | termios.CLOCAL | PARITIES[parity]
    checks = 0 if parity == "none" else termios.INPCK
    signs = list(settings[6])
    signs[termios.VMIN], signs[termios.VTIME] = 1, 0
    return [checks, 0, flags, 0, speed, speed, signs]


def unix(path, options):
    line = socket.socket(socket.AF_UNIX, socket.SOCK_STREAM)
    line.settimeout(options.timeout)
    try:
        line.connect(path)
    except OSError:
        line.close()
        raise
    return over(line)


def tcp(place, options):
    host, _, port = place.rpartition(":")
    if not host or not re.fullmatch("[0-9]{1,5}", port) or not 0 < int(port) < 65536:
        raise WrongWords(f"tcp:{place} names no host and port; give tcp:HOST:PORT, as tcp:localhost:4001")
    return over(socket.create_connection((host.strip("[]"), int(port)), options.timeout))


def over(connection):
    connection.setblocking(False)
    return Line(connection.fileno(), connection.fileno(), connection.close)


def console():
    """A console of document 01, whose drive is fresh and has the address 00."""
    process = subprocess.Popen([build.program("console")], stdin=subprocess.PIPE, stdout=subprocess.PIPE, bufsize=0)

    def close():
        process.stdin.close()
        process.stdout.close()
        process.wait()

    return Line(process.stdout.fileno(), process.stdin.fileno(), close)


LINES = {"tty": tty, "unix": unix, "tcp": tcp}
