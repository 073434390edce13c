"""A drive of the engine beside one of the second implementation: every request goes to both, and every byte of what they answer is compared."""

import contextlib
import signal
import time

from workbench.service_frames import CUT_FRAME, FRESH, LIST, LOAD, Server, framed, seen_of, words_of
from workbench.trouble import Trouble

# A stopped engine is let go on after so many seconds.
STOPPED = 0.002
# Of a request or an answer so much is shown.
SHOWN = 600


class Difference(Trouble):
    """The two answered otherwise, or one as neither may. The journal is the requests that bring two new programs there."""

    def __init__(self, text, journal):
        super().__init__(text)
        self.journal = journal


class Pair:
    """The commands are those of the engine and of the second implementation, in this order."""

    def __init__(self, commands):
        self.commands = commands
        self.servers, self.journal = [], []
        self.requests = 0
        self.begin()

    def begin(self):
        """Both programs started, each with a fresh drive of address 00."""
        self.servers = [Server(name, words) for name, words in zip(["the engine", "the second implementation"], self.commands)]
        self.journal = []

    def end(self):
        for server in self.servers:
            server.kill()

    def again(self):
        """Both killed, at whatever they are, and started again."""
        self.end()
        self.begin()

    def ask(self, kind, rest=b"", stopped=False):
        """A request: the status, and what comes after it."""
        answer = self.give(framed(kind + rest), stopped)
        if answer[0] == 0 and kind in (FRESH, LOAD):
            self.journal = self.journal[-1:]
        return answer[0], answer[1:]

    def give(self, data, stopped=False):
        """The bytes of one frame, whole or not; the answer of both."""
        self.journal.append(data)
        self.requests += 1
        engine = self.servers[0].process
        with self.watched():
            if stopped:
                engine.send_signal(signal.SIGSTOP)
            for server in self.servers:
                server.send(data)
            if stopped:
                time.sleep(STOPPED)
                engine.send_signal(signal.SIGCONT)
            return self.compared()

    @contextlib.contextmanager
    def watched(self):
        """A program that has ended or does not answer is a difference too."""
        try:
            yield
        except Difference:
            raise
        except Trouble as trouble:
            raise self.difference(str(trouble)) from None

    def compared(self):
        got, expected = (server.receive() for server in self.servers)
        if got is None or got != expected:
            word = first_word(self.journal[-1][5:], got, expected)
            raise self.difference(word or f"the engine answers {shown(got)}, the second implementation {shown(expected)}")
        return expected

    def difference(self, text):
        last = self.journal[-1][4:] if self.journal else b""
        words = "; ".join(words_of(last[1:])) if last[:1] == LIST else repr(last)
        return Difference(f"{text}, to {last[:1]!r} {words[-SHOWN:]}", self.journal)

    def perform(self, calls, stopped=False):
        """A list of calls, none of which may be refused whole."""
        status, body = self.ask(LIST, calls.data(), stopped)
        if status:
            raise self.difference(f"a list is refused by {status}")
        return seen_of(calls.letters, body)

    def cut(self, data):
        """The input ends within a frame: one last answer, which says so, and the programs end."""
        self.journal.append(data)
        with self.watched():
            for server in self.servers:
                server.send(data)
                server.end_input()
            answer = self.compared()
        if answer != bytes([CUT_FRAME]):
            raise self.difference(f"a frame that breaks off is answered by {shown(answer)}")
        further = [server.receive() for server in self.servers]
        if further != [None, None]:
            raise self.difference(f"after the last answer there came {shown(further[0])} and {shown(further[1])}")
        self.again()


def first_word(data, got, expected):
    """The first word of a list of which the two saw something else, where both have carried it out."""
    words = list(words_of(data))
    letters = [word[0] for word in words]
    try:
        pairs = enumerate(zip(words, seen_of(letters, got[1:]), seen_of(letters, expected[1:])), 1)
    except (Trouble, TypeError, LookupError):
        return ""
    differing = ((place, word, one, other) for place, (word, one, other) in pairs if one != other)
    return next((f"word {place} of {len(words)}, {word}: the engine shows {one}, the second implementation {other}" for place, word, one, other in differing), "")


def shown(answer):
    if answer is None:
        return "nothing, and has ended"
    text = answer[1:].hex() if len(answer) <= SHOWN // 2 else f"{answer[1:SHOWN // 2].hex()}.."
    return f"status {answer[0]}, {len(answer) - 1} bytes {text}".rstrip()
