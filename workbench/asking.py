"""The 165 requests, asked over a line: all answers or none."""

import re
import time

from workbench.engine import ALL_DRIVES, HIGHEST_ADDRESS
from workbench.files import shown
from workbench.lines import Closed
from workbench.progress import progress
from workbench.reading import LONGEST, PASSING, REQUESTS, Reading, is_value
from workbench.trouble import Trouble

END = b"\r"
# A line that is used by nobody else is silent for so many seconds, and within so many.
QUIET, PATIENCE = 0.05, 2


class Talk:
    """Requests to the drive of one address, one at a time. `at` says where the talk is, for messages."""

    def __init__(self, line, address, timeout, silence=None):
        self.line, self.own, self.timeout, self.reason = line, f"{address:02}", timeout, silence
        self.came = b""
        self.echoed = False
        self.at = ""

    def hush(self):
        """Passes over what came before the first request."""
        end = time.monotonic() + PATIENCE
        while self.line.receive(QUIET):
            if time.monotonic() > end:
                raise Trouble("bytes come on the line that nothing asked for; free the line of others and take the reading again")

    def say(self, text):
        """The string that answers one, without byte 13; None where none comes. A line of two wires brings the sent string back first."""
        self.send(text)
        string = self.string()
        self.echoed = string == text.encode()
        return self.string() if self.echoed else string

    def send(self, text):
        self.came = b""
        if not self.line.send(text.encode() + END, self.timeout):
            raise Trouble(f"the line takes no bytes at {self.at}; look whether its other end is alive")

    def string(self):
        while END not in self.came:
            part = self.line.receive(self.timeout)
            self.came += part
            if len(self.came) > LONGEST and END not in self.came[: LONGEST + 1]:
                raise Trouble(f"the answer at {self.at} has over {LONGEST} bytes without a byte 13; look at baud rate, parity and wiring")
            if not part and self.came:
                raise Trouble(f"the answer at {self.at} breaks off without byte 13 at {quoted(self.came)}; look at baud rate, parity and wiring, or give more --timeout")
            if not part:
                return None
        string, _, self.came = self.came.partition(END)
        return string

    def ask(self, request):
        """The value after a request in its answer."""
        asked = f"{self.own}{request}"
        answer = self.say(asked)
        if answer is None:
            raise Trouble(self.silence())
        if self.came:
            raise Trouble(f"more than an answer came at {self.at}: {quoted(answer + END + self.came)}; look for a second drive of address {self.own}")
        return self.judged(asked, answer)

    def silence(self):
        if self.reason:
            return self.reason
        echo = ", only its echo," if self.echoed else ""
        why = f"the drive is busy, has another address than {self.own}, or is not there"
        return f"no answer{echo} at {self.at} in {self.timeout:g} s: {why}; wait until it is idle, or give --address"

    def judged(self, asked, answer):
        text = answer.decode("latin-1")
        if text == f"{self.own}N":
            added = "; QR is document 01's own, and a drive without it has no full reading" if asked.endswith("QR") else "; ask a drive that knows it"
            raise Trouble(f"the drive answers N at {self.at}{added}")
        value = text[len(asked) + 1 :]
        if not text.startswith(f"{asked},") or not is_value(asked[2:], value):
            raise Trouble(f"{quoted(answer)} came at {self.at}, which is no answer to it; look at baud rate, parity and other drives on the line")
        return value


def quoted(data):
    return f"'{shown(data.decode('ascii', 'surrogateescape').replace(chr(13), '<13>'))}'"


def named(line, address, timeout):
    """Gives a fresh drive of address 00 another address. By demand 3 it is then as one that was made with it."""
    if address:
        talk = Talk(line, 0, timeout)
        talk.at = "the console's address"
        give(talk, f"00WS,AD,{address}")


def taken(line, address, timeout, silence=None):
    """The full reading of a drive at rest; silence is told in the words that are given, where there are any."""
    talk = Talk(line, address, timeout, silence)
    try:
        talk.hush()
        values = asked(talk, REQUESTS, "request {} of {}")
        again = asked(talk, PASSING, "its second asking {} of {}")
    except Closed as closed:
        raise Trouble(f"{closed} at {talk.at or 'the first request'}; look at the line and take the reading again") from None
    finally:
        progress("")
    changed = [request for request in PASSING if again[request] != values[request]]
    if changed:
        moved = f"{changed[0]} was {values[changed[0]]} and is {again[changed[0]]} now"
        raise Trouble(f"the drive is not at rest: {moved}; take the reading when no program runs and no input changes")
    return Reading(address, values)


def asked(talk, requests, place):
    values = {}
    for count, request in enumerate(requests, 1):
        talk.at = f"{talk.own}{request}, {place.format(count, len(requests))}"
        progress(talk.at)
        values[request] = talk.ask(request)
    return values


# Strings before the reading.


def sent(line, path, strings, own, timeout):
    """Gives the strings of a program file to a drive, which must take each. The address that it then has."""
    talk = Talk(line, own, timeout)
    for each in strings:
        text = each.string(own)
        talk.at = f"{path}:{each.number}"
        give(talk, text)
        own = address_after(text, own)
    return own


def give(talk, text):
    if text.startswith(ALL_DRIVES):
        return talk.send(text)
    answer = talk.say(text)
    if answer is None or answer[2:] == b"N":
        got = "no answer" if answer is None else shown(answer.decode("ascii", "surrogateescape"))
        raise Trouble(f"{talk.at}: {shown(text)} got {got}; bin/program check says why")


def address_after(text, own):
    found = re.fullmatch("[0-9]{2}WS,AD,([0-9]{1,10})", text)
    return int(found[1]) if found and int(found[1]) <= HIGHEST_ADDRESS else own
