"""Lines with a drive of the engine at their other end: a pty, a unix socket and a tcp socket, each with the faults that a real line has."""

import os
import pty
import socket
import threading
import time
import tty

from workbench.engine import Engine

# A line that is served for longer than this is given up.
PATIENCE = 10


class Fault:
    """What becomes of the answers of a drive. `at` is the number of the request, counted from 1, from which the fault is there."""

    def __init__(self, at=1):
        self.at = at

    def greeting(self):
        """What comes before anything is asked."""
        return b""

    def parts(self, count, request, answer, engine):
        """The parts in which an answer is sent; None hangs up."""
        return [answer] if count < self.at else self.wrong(request, answer, engine)

    def wrong(self, request, answer, engine):
        return [answer]


class Echo(Fault):
    def wrong(self, request, answer, engine):
        return [request, answer]


class EchoAlone(Fault):
    def wrong(self, request, answer, engine):
        return [request]


class EchoWithAnswer(Fault):
    def wrong(self, request, answer, engine):
        return [request + answer]


class Pieces(Fault):
    def wrong(self, request, answer, engine):
        return [answer[:1], answer[1:5], answer[5:-1], answer[-1:]]


class Stale(Fault):
    def greeting(self):
        return b"\xff\x00QM,100,65,1\r00"


class Silence(Fault):
    def wrong(self, request, answer, engine):
        return []


class HangUp(Fault):
    def wrong(self, request, answer, engine):
        return None


class Instead(Fault):
    """Other bytes in place of one answer."""

    def __init__(self, at, data):
        super().__init__(at)
        self.data = data

    def wrong(self, request, answer, engine):
        return [self.data]


class Unended(Fault):
    def wrong(self, request, answer, engine):
        return [answer[:-1]]


class Twice(Fault):
    def wrong(self, request, answer, engine):
        return [answer + answer]


class Restless(Fault):
    """From a request on, a call is made on the drive before each."""

    def __init__(self, at, call):
        super().__init__(at)
        self.call = call

    def wrong(self, request, answer, engine):
        engine.call(self.call)
        return [answer]


class Server(threading.Thread):
    """One line: a drive after a script of calls, and a fault."""

    def __init__(self, script, fault):
        super().__init__(daemon=True)
        self.script, self.fault = script, fault
        self.count = 0

    def reached(self, count):
        """Waits until so many strings came."""
        end = time.monotonic() + PATIENCE
        while self.count < count and time.monotonic() < end:
            time.sleep(0.01)

    def __enter__(self):
        self.start()
        return self

    def __exit__(self, *_):
        self.join(PATIENCE)
        self.finish()

    def run(self):
        with Engine() as engine:
            engine.calls(self.script)
            try:
                self.serve(engine, self.line())
            except OSError:
                # The tool is gone.
                pass
            self.hang_up()

    def serve(self, engine, line):
        os.write(line, self.fault.greeting())
        for request in strings(line):
            self.count += 1
            said = engine.string(request[:-1]).said()
            answer = b"" if said is None else said.encode() + b"\r"
            parts = self.fault.parts(self.count, request, answer, engine)
            if parts is None:
                return
            write(line, parts)


def write(line, parts):
    for part in parts:
        os.write(line, part)
        if len(parts) > 2:
            time.sleep(0.0002)


def strings(line):
    """The strings that come, each with its byte 13, until the tool is gone."""
    came = b""
    while True:
        part = os.read(line, 4096)
        if not part:
            return
        *whole, came = (came + part).split(b"\r")
        yield from (string + b"\r" for string in whole)


class Pty(Server):
    def __init__(self, script, fault):
        super().__init__(script, fault)
        self.master, self.slave = pty.openpty()
        # What the tool finds: a line that echoes, and makes line feeds of 13. It must set it right.
        self.before = tty.tcgetattr(self.slave)
        self.name = f"tty:{os.ttyname(self.slave)}"

    def line(self):
        return self.master

    def kept(self):
        """Whether the line's settings are as before."""
        return tty.tcgetattr(self.slave) == self.before

    def __exit__(self, *_):
        # The master hears of no end while this end is held open.
        self.kept_settings = self.kept()
        os.close(self.slave)
        super().__exit__()

    def hang_up(self):
        pass

    def finish(self):
        os.close(self.master)


class Sockets(Server):
    def __init__(self, script, fault, family, address):
        super().__init__(script, fault)
        self.listener = socket.socket(family, socket.SOCK_STREAM)
        self.listener.bind(address)
        self.listener.listen(1)
        self.listener.settimeout(PATIENCE)
        self.connection = None

    def line(self):
        self.connection, _ = self.listener.accept()
        self.connection.setblocking(True)
        return self.connection.fileno()

    def hang_up(self):
        if self.connection:
            self.connection.close()

    def finish(self):
        self.listener.close()


class Unix(Sockets):
    def __init__(self, script, fault, folder):
        path = os.path.join(folder, f"{id(self):x}")
        super().__init__(script, fault, socket.AF_UNIX, path)
        self.name = f"unix:{path}"


class Tcp(Sockets):
    def __init__(self, script, fault):
        super().__init__(script, fault, socket.AF_INET, ("127.0.0.1", 0))
        self.name = f"tcp:127.0.0.1:{self.listener.getsockname()[1]}"


class Screen(threading.Thread):
    """A terminal that keeps what is shown on it."""

    def __init__(self):
        super().__init__(daemon=True)
        self.master, self.slave = pty.openpty()
        tty.setraw(self.slave)
        self.shown = b""

    def __enter__(self):
        self.start()
        return self

    def __exit__(self, *_):
        os.close(self.slave)
        self.join(PATIENCE)
        os.close(self.master)

    def run(self):
        # A pty whose other end is closed gives an error, and not an end.
        try:
            while part := os.read(self.master, 4096):
                self.shown += part
        except OSError:
            pass
