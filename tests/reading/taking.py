"""Readings taken over lines with every fault, of the console and of scripts."""

import os
import subprocess
from pathlib import Path

import servers
from common import TOOL, Ran, full_script, full_text, said
from workbench import reading
from workbench.engine import Engine


def lines(folder):
    """Each line without a fault, and with those that a reading outlasts."""
    make = full_script()
    yield "a pty", servers.Pty(make, servers.Fault())
    yield "a pty with echo", servers.Pty(make, servers.Echo())
    yield "a unix socket", servers.Unix(make, servers.Fault(), folder.path)
    yield "a tcp socket", servers.Tcp(make, servers.Fault())
    yield "an echo before the answer", servers.Unix(make, servers.Echo(), folder.path)
    yield "an echo with the answer", servers.Unix(make, servers.EchoWithAnswer(), folder.path)
    yield "an answer in pieces", servers.Unix(make, servers.Pieces(), folder.path)
    yield "bytes from before", servers.Tcp(make, servers.Stale())


def taken(server, folder):
    with server:
        ran = Ran("take", server.name, "--address", "07", "--timeout", "5")
    yield from ran.faults(0, full_text())
    if not getattr(server, "kept_settings", True):
        yield "the settings of the tty are not as before"


def broken_lines(folder):
    """Each fault that a reading does not outlast, and what is said of it."""
    unix = lambda fault, script=full_script(): servers.Unix(script, fault, folder.path)
    busy = [*full_script()[:-1], said("WN,130,65,9999,000"), said("PS,130"), "M"]
    yield unix(servers.Silence()), "no answer at 07QM,100, request 1 of 165 in 0.5 s: the drive is busy, has another address than 07, or is not there"
    yield unix(servers.Silence(132)), "no answer at 07QS,AD, request 132 of 165 in 0.5 s"
    yield unix(servers.EchoAlone(3)), "no answer, only its echo, at 07QM,102, request 3 of 165"
    yield servers.Pty(busy, servers.Fault()), "no answer at 07QM,100, request 1 of 165"
    yield unix(servers.Fault(), ["F 8"]), "no answer at 07QM,100, request 1 of 165"
    yield unix(servers.HangUp(18)), "the line was closed at the other end"
    yield unix(servers.HangUp(18)), "at 07QM,117, request 18 of 165"
    yield unix(servers.Instead(165, b"07N\r")), "the drive answers N at 07QR, request 165 of 165; QR is document 01's own"
    yield unix(servers.Instead(4, b"07N\r")), "the drive answers N at 07QM,103, request 4 of 165"
    yield unix(servers.Instead(5, b"08QM,104,00,000\r")), "'08QM,104,00,000' came at 07QM,104, request 5 of 165, which is no answer to it"
    yield unix(servers.Instead(5, b"07QM,105,00,000\r")), "which is no answer to it"
    yield unix(servers.Instead(137, b"07QA,+1x\r")), "'07QA,+1x' came at 07QA, request 137 of 165"
    yield unix(servers.Instead(9, b"\xfe\x00\r")), "came at 07QM,108, request 9 of 165"
    yield unix(servers.Instead(7, b"07QM,106,58,O1" + b"0" * 90 + b"\r")), "at 07QM,106, request 7 of 165 has over 63 bytes without a byte 13"
    yield unix(servers.Unended(6)), "the answer at 07QM,105, request 6 of 165 breaks off without byte 13 at '07QM,105,00,000'"
    yield unix(servers.Twice(2)), "more than an answer came at 07QM,101, request 2 of 165"
    yield unix(servers.Restless(150, said("SA,+5"))), "the drive is not at rest: QA was -77 and is +5 now"
    yield servers.Tcp(full_script(), servers.Restless(160, "I 1")), "the drive is not at rest: QI,I0 was 0 and is 1 now"
    yield unix(servers.Restless(166, said("SO,O2,1"))), "the drive is not at rest: QO,O2 was 0 and is 1 now"
    yield unix(servers.Restless(140, said("PS,117"))), "no answer at 07QO,O3, request 141 of 165"


def refused(server, expected, folder):
    """Nothing is kept, and an older reading stays. Only where silence is the matter it is short."""
    old = folder.file("old", "an older reading\n")
    timeout = "0.5" if "no answer" in expected or "breaks off" in expected else "9"
    with server:
        ran = Ran("take", server.name, "--address", "7", "--timeout", timeout, "-o", old)
    yield from ran.faults(1, "", expected)
    if Path(old).read_text() != "an older reading\n":
        yield "the older reading is gone"
    if [name for name in os.listdir(folder.path) if ".new" in name]:
        yield "something is left beside it"


def console(folder):
    """A fresh console, with and without strings, and what it does not take."""
    fresh = Ran("take", "console")
    with Engine() as engine:
        answers = reading.read_back(engine, 0)
    yield from fresh.faults(0, "# full reading of drive 00, 165 answers\n" + "".join(f"{answer}\n" for answer in answers))
    program = folder.file("program", "# a program\nWN,100,58,O1,1,101 # output\n00WN,101,65,50,000\n99WS,IN,3\nPS,100\nWS,AD,12\nSA,+9\n")
    out = folder.file("console.reading")
    yield from Ran("take", "console", "--send", program, "-o", out, "--date").faults(0, "")
    text = Path(out).read_text()
    wanted = ["# taken at ", "\n12QM,101,65,50,000\n", "\n12QS,IN,3\n", "\n12QA,+9\n", "\n12QO,O1,1\n"]
    yield from (f"{part!r} is not in the reading" for part in wanted if part not in text)
    wrong = folder.file("wrong", "WN,100,65,50,000\nWN,231,65,50,000\n")
    yield from Ran("take", "console", "--send", wrong).faults(1, "", "wrong:2: 00WN,231,65,50,000 got 00N; bin/program check says why")
    busy = folder.file("busy", "WN,100,12,02,+,x1,000\nPS,100\n")
    yield from Ran("take", "console", "--send", busy, "--timeout", "0.2").faults(1, "", "busy: the drive is still busy after the last line")
    yield from Ran("take", "console", "--address", "7").faults(2, "", "the drive has address 00, and not 07; leave out --address")
    addressed = folder.file("addressed", "11WN,100,65,50,000\nWN,101,65,60,000\n")
    yield from Ran("take", "console", "--send", addressed, "-o", out).faults(0, "")
    text = Path(out).read_text()
    yield from (f"{part!r} is not in the reading" for part in ["\n11QM,101,65,60,000\n", "\n11QS,AD,11\n"] if part not in text)
    yield from Ran("take", "console", "--send", addressed, "-o", addressed).faults(2, "", "addressed is a file that this is made of, and would be lost")
    image = folder.file("image", "\x00\x01\x02\x00\x00")
    yield from Ran("take", "console", "--send", image).faults(1, "", "an image, and --send takes a program file; bin/program show makes one of it")


def scripts(folder):
    """The drive that a script leaves, and scripts that leave none to read."""
    script = lambda name, calls: "script:" + folder.file(name, "".join(f"{call}\n" for call in calls))
    yield from Ran("take", script("full", ["# a comment", *full_script()])).faults(0, full_text())
    yield from Ran("take", script("busy", ["F 3", said("PS,100", 3)])).faults(1, "", "busy at cell 100 (waiting); let the script go on")
    yield from Ran("take", script("unsound", ["F 3", "K in 4"])).faults(1, "", "the drive that it leaves is unsound")
    yield from Ran("take", script("wrong", ["# a comment", "F 3", "M", "Y"])).faults(1, "", "line 4: not a call")
    yield from Ran("take", script("early", ["M"])).faults(1, "", "line 1: the first call is not an ")
    yield from Ran("take", script("empty", ["# nothing"])).faults(1, "", "no call is in it")
    yield from Ran("take", "script:" + folder.file("none")).faults(1, "", "No such file or directory")
    yield from Ran("take", script("full", full_script()), "--address", "8").faults(2, "", "the drive has address 07, and not 08; leave out --address")


NO_LINES = ["", "tty:", "serial:x", "tcp:localhost", "tcp:localhost:99999", "tcp::80"]


def places(folder):
    """Lines that are not there, and words that say nothing."""
    yield from Ran("take", "unix:" + folder.file("none")).faults(1, "", "No such file or directory")
    yield from Ran("take", "tty:" + folder.file("none")).faults(1, "", "No such file or directory")
    yield from Ran("take", "tty:" + folder.file("file", "")).faults(1, "", "no tty")
    yield from Ran("take", "tty:/dev/null").faults(1, "", "so no tty of 9600 baud and parity none")
    yield from Ran("take", "tcp:127.0.0.1:9").faults(1, "", "refused")
    yield from Ran("take", "console", "-o", folder.file("none/reading")).faults(1, "", "none/reading: no folder ")
    yield from (fault for source in NO_LINES for fault in Ran("take", source).faults(2, "", "give t"))
    yield from Ran("take", "tty:/dev/null", "--baud", "9601").faults(2, "", "no tty has 9601 baud")
    yield from Ran("take", "unix:x", "--send", "y").faults(2, "", "--send goes with console alone")


# The user.


def interrupted(folder):
    """A take that is told to stop ends by 130, and leaves the tty and the older reading as they were."""
    old = folder.file("old", "an older reading\n")
    with servers.Pty(full_script(), servers.Silence(50)) as server:
        words = [TOOL, "take", server.name, "--address", "7", "--timeout", "60", "-o", old]
        process = subprocess.Popen(words, stdin=subprocess.DEVNULL, stderr=subprocess.PIPE)
        server.reached(50)
        process.terminate()
        said_last = process.communicate()[1]
    if process.returncode != 130 or said_last != b"bin/reading: interrupted\n":
        yield f"status {process.returncode}, {said_last!r}"
    if not server.kept_settings or os.listdir(folder.path) != ["old"] or Path(old).read_text() != "an older reading\n":
        yield "something is not as before"


def progress(folder):
    """At a terminal each request is shown, and the line is free in the end."""
    script = folder.file("script", "F 0\n")
    with servers.Screen() as screen:
        ran = subprocess.run([TOOL, "take", f"script:{script}"], stdin=subprocess.DEVNULL, stdout=subprocess.DEVNULL, stderr=screen.slave)
    if ran.returncode or b"\r\x1b[K00QR, request 165 of 165" not in screen.shown or not screen.shown.endswith(b"\r\x1b[K"):
        yield f"status {ran.returncode}, {screen.shown[-200:]!r}"


CASES = [console, scripts, places, interrupted, progress]
