"""A master of the line, as plants have them: python3-serial on a serial port. The port is a pty, bridged by socat to a gateway's socket or to the tty that is
bound into its container."""

import contextlib
import fcntl
import os
import re
import socket
import subprocess
import termios
import time

import serial

from container.commands import last_lines
from container.layout import USER
from container.runtime import environment, until
from workbench.asking import Talk
from workbench.trouble import Trouble

BAUD = 9600
# A drive that is not busy answers within so many seconds, also on a loaded machine; a busy one is silent for good.
ANSWER, SILENCE = 3.0, 0.3
# A start is asked about this often.
AGAIN = 0.02


class Port:
    """A serial port, in the form of a line of the workbench."""

    def __init__(self, path):
        self.serial = serial.Serial(str(path), BAUD, timeout=ANSWER, write_timeout=ANSWER)

    def send(self, data, timeout):
        try:
            return self.serial.write(data) == len(data)
        except serial.SerialTimeoutException:
            return False

    def receive(self, timeout):
        self.serial.timeout = timeout
        first = self.serial.read(1)
        return first + self.serial.read(self.serial.in_waiting) if first else b""

    def say(self, text, timeout=ANSWER):
        """The answer to a string, None where the drive is silent."""
        talk = Talk(self, 0, timeout)
        talk.at = text
        answer = talk.say(text)
        return None if answer is None else answer.decode("latin-1")

    def expect(self, text, wanted):
        """Gives a string, and complains of an answer that is not the one wanted; None is silence."""
        answer = self.say(text, SILENCE if wanted is None else ANSWER)
        if answer != wanted:
            raise Trouble(f"{text} got {answer or 'silence'} and not {wanted or 'silence'}")


@contextlib.contextmanager
def opened(path):
    port = Port(path)
    try:
        yield port
    finally:
        port.serial.close()


@contextlib.contextmanager
def bridge(port, other):
    """A pty at the path of a port, and socat between it and another end in socat's words."""
    words = ["socat", f"PTY,link={port},rawer", other]
    process = subprocess.Popen(words, env=environment(), stdin=subprocess.DEVNULL, stderr=subprocess.PIPE, text=True, start_new_session=True)
    try:
        until(lambda: port.exists() or process.poll() is not None, ANSWER, lambda: f"socat has made no port {port} in {ANSWER} s; look at the machine's load")
        if process.poll() is not None:
            raise Trouble(f"socat has ended with status {process.returncode}: {last_lines(process.stderr.read())}")
        yield
    finally:
        process.terminate()
        process.wait()
        process.stderr.close()
        port.unlink(missing_ok=True)


def to_socket(path):
    return f"UNIX-CONNECT:{path}"


def to_tty(path):
    """A second pty, for the gateway's user."""
    return f"PTY,link={path},rawer,user={USER},group={USER},mode=0600"


def free(tty):
    """Takes off the exclusive use of a pty. A serial device forgets it with its last close, a pty, whose other end stays open, only when it is told to."""
    descriptor = os.open(tty, os.O_RDWR | os.O_NOCTTY | os.O_NONBLOCK)
    fcntl.ioctl(descriptor, termios.TIOCNXCL)
    os.close(descriptor)


# The first answer after a start.


def first_on_socket(path, address, judge):
    """Waits for the answer to a first request on a gateway's socket, which may not be there yet."""
    return until(lambda: judge() or asked_on_socket(path, address), 10 * ANSWER, lambda: f"no answer on {path} in {10 * ANSWER:g} s")


def asked_on_socket(path, address):
    with socket.socket(socket.AF_UNIX, socket.SOCK_STREAM) as line:
        line.settimeout(ANSWER)
        try:
            line.connect(str(path))
            line.sendall(f"{address:02}QA\r".encode())
            return line.recv(64).startswith(f"{address:02}QA,".encode())
        except (FileNotFoundError, ConnectionError):
            return False


def first_on_port(port, address, judge):
    """The same on a port, whose other end nobody may have opened yet: the request is sent until it is answered. Later answers are left for who comes next."""
    end, came = time.monotonic() + 10 * ANSWER, b""
    while time.monotonic() < end:
        judge()
        port.send(f"{address:02}QA\r".encode(), ANSWER)
        came += port.receive(AGAIN)
        if re.search(rb"%02dQA,[^\r]+\r" % address, came):
            return
    raise Trouble(f"no answer from drive {address:02} on its tty in {10 * ANSWER:g} s")
