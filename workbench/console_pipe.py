"""bin/console where standard input is no terminal: bytes go to the program console as they come, and its answers to standard output, byte for byte."""

import os
import select
import signal
import subprocess
import sys
import threading

from workbench import build
from workbench.trouble import Trouble, say

STANDARD_INPUT, STANDARD_OUTPUT = 0, 1
# So many bytes at most are read at once.
PART = 65536
END, LINE_FEED = b"\r", b"\n"


class Feed(threading.Thread):
    """Hands standard input to the program. It has a thread of its own, so that neither way waits for the other."""

    def __init__(self, sink):
        super().__init__(daemon=True)
        self.sink = sink
        self.error = None
        self.whole = False
        # What the input has: any bytes, line feeds, ends of strings, and line feeds right after such ends.
        self.bytes = self.feeds = self.ends = self.pairs = False
        self.last = b""

    def run(self):
        # Signals are for the main thread, which waits for the answers.
        signal.pthread_sigmask(signal.SIG_BLOCK, [signal.SIGINT, signal.SIGTERM])
        try:
            while part := read(STANDARD_INPUT):
                self.note(part)
                write(self.sink.fileno(), part)
            self.whole = True
        except BrokenPipeError:
            pass  # The program is over; its status says how.
        except OSError as error:
            self.error = error
        self.sink.close()

    def note(self, part):
        self.bytes = True
        self.feeds = self.feeds or LINE_FEED in part
        self.ends = self.ends or END in part
        self.pairs = self.pairs or END + LINE_FEED in self.last + part
        self.last = part[-1:]

    def hint(self):
        """What is wrong with the line ends of the input, or nothing."""
        if self.pairs:
            return "the input has line feeds (byte 10) after byte 13: each begins the next string, which is then not heard; send byte 13 alone"
        if self.bytes and not self.ends:
            has = "line feeds (byte 10) and no byte 13" if self.feeds else "no byte 13"
            return f"the input has {has}, so no string of it ends; send byte 13 after each string, for example: printf '00QA\\r' | bin/console"
        return ""


def read(source):
    """Some bytes, as soon as there are any; none at the end."""
    while True:
        try:
            return os.read(source, PART)
        except BlockingIOError:
            select.select([source], [], [])


def write(sink, part):
    """Writes all the bytes of a part."""
    rest = memoryview(part)
    while rest:
        try:
            rest = rest[os.write(sink, rest) :]
        except BlockingIOError:
            select.select([], [sink], [])


def answer(part):
    try:
        write(STANDARD_OUTPUT, part)
    except BrokenPipeError:
        raise Trouble("standard output was closed before all answers were written") from None
    except OSError as error:
        raise Trouble(f"standard output takes no more answers: {error.strerror}") from None


def talk():
    """Strings in, answers out, until the input ends."""
    if sys.stdin is None:
        raise Trouble("standard input is closed: give it strings, for example: printf '00QA\\r' | bin/console")
    words = [build.program("console")]
    # Apart from this one's group, so that an interrupt reaches the program by this one alone.
    process = subprocess.Popen(words, stdin=subprocess.PIPE, stdout=subprocess.PIPE, bufsize=0, start_new_session=True)
    try:
        feed = Feed(process.stdin)
        feed.start()
        while part := read(process.stdout.fileno()):
            answer(part)
        status = process.wait()
    finally:
        process.kill()
        process.wait()
    judge(feed, status)


def judge(feed, status):
    """What did not go well, or is likely not meant."""
    if feed.error:
        raise Trouble(f"standard input cannot be read: {feed.error.strerror}")
    if status != 0 or not feed.whole:
        how = f"by signal {-status}" if status < 0 else f"with status {status}"
        raise Trouble(f"the program console ended {how} before its input did")
    if feed.hint():
        say("bin/console", feed.hint())
