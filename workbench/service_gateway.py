"""A gateway as a process, with a folder of its own: started, talked to over its line, disturbed, and ended."""

import contextlib
import os
import re
import select
import signal
import socket
import subprocess
import time
from pathlib import Path

from workbench.trouble import Trouble

# A machine may be loaded: what does not come within so many seconds does not come.
PATIENCE = 20
# A drive that has something to say has said it within so many seconds; longer only where an answer is known to come.
SILENCE = 0.4
END = b"\r"
# A request by which answers that came late are told from those that are awaited.
LAST = "QS,ES"
LOGGED = re.compile(r"\d{4}-\d\d-\d\dT\d\d:\d\d:\d\d\.\d{3}Z (info|warning|error) .+")


class Client:
    """Bytes to a line and from it, over a descriptor."""

    def __init__(self, descriptor, close):
        self.descriptor, self.close, self.came = descriptor, close, b""
        os.set_blocking(descriptor, False)

    def __enter__(self):
        return self

    def __exit__(self, *_):
        self.close()

    def send(self, data, timeout=PATIENCE):
        end = time.monotonic() + timeout
        while data:
            if not select.select([], [self.descriptor], [], max(0, end - time.monotonic()))[1]:
                raise Trouble(f"the line has taken no bytes for {timeout} s")
            with contextlib.suppress(BlockingIOError):
                data = data[os.write(self.descriptor, data) :]

    def receive(self, timeout):
        """Some bytes; none after so many seconds or at the end of the line."""
        if not select.select([self.descriptor], [], [], max(0, timeout))[0]:
            return b""
        try:
            return os.read(self.descriptor, 65536)
        except (BlockingIOError, ConnectionResetError):
            return b""

    def answer(self, timeout=PATIENCE):
        """The next string that comes, without its byte 13; None where none comes."""
        end = time.monotonic() + timeout
        while END not in self.came:
            part = self.receive(end - time.monotonic())
            if not part:
                return None
            self.came += part
        string, _, self.came = self.came.partition(END)
        return string.decode("ascii", "backslashreplace")

    def ask(self, text, timeout=PATIENCE):
        self.send(text.encode() + END)
        return self.answer(timeout)

    def silent(self, text):
        """What comes to a string that nothing may answer."""
        return self.ask(text, SILENCE)

    def until(self, text, expected, timeout=PATIENCE):
        """Asks again and again, since a busy drive is silent, until it is answered so; the last answer."""
        end, answer = time.monotonic() + timeout, None
        while answer != expected and time.monotonic() < end:
            answer = self.ask(text, SILENCE) or answer
            time.sleep(0.01)
        self.pass_over(text[:2])
        return answer

    def idle(self, own, timeout=PATIENCE):
        """Whether a drive becomes idle, and so answers, within a time."""
        end = time.monotonic() + timeout
        while self.ask(f"{own}QE", SILENCE) is None:
            if time.monotonic() > end:
                return False
        return self.pass_over(own)

    def pass_over(self, own):
        """Passes over answers that came too late for their requests, up to that of a request which nothing else asks here."""
        last = f"{own}{LAST}"
        self.send(last.encode() + END)
        while (answer := self.answer()) is not None:
            if answer.startswith(last):
                return True
        return False

    def rest(self, seconds):
        """All that comes within a time."""
        end = time.monotonic() + seconds
        while time.monotonic() < end:
            part = self.receive(end - time.monotonic())
            if not part and select.select([self.descriptor], [], [], 0)[0]:
                break
            self.came += part
        came, self.came = self.came, b""
        return came


def over_socket(path):
    line = socket.socket(socket.AF_UNIX, socket.SOCK_STREAM)
    line.settimeout(PATIENCE)
    try:
        line.connect(path)
    except OSError as error:
        line.close()
        raise Trouble(f"{path}: {error.strerror or error}") from None
    client = Client(line.fileno(), lambda: hang_up(line))
    client.socket = line
    return client


def hang_up(line):
    """Ends a connection at once: a process that is just being started beside may hold a copy of its descriptor."""
    with contextlib.suppress(OSError):
        line.shutdown(socket.SHUT_RDWR)
    line.close()


def over_tty(path):
    descriptor = os.open(path, os.O_RDWR | os.O_NOCTTY | os.O_NONBLOCK)
    return Client(descriptor, lambda: os.close(descriptor))


class Gateway:
    """The program and its words; line, state, metrics and log are in the folder. It can be started again over the same folder."""

    def __init__(self, program, folder, *words, addresses="0", engine=None, kind="unix", state=None):
        self.folder, self.kind = Path(folder), kind
        self.place, self.log_path = self.folder / "line", self.folder / "log"
        self.state = Path(state) if state else self.folder / "state"
        self.state.mkdir(exist_ok=True)
        served = ["--engine", engine] if engine else []
        self.words = [program, "--line", f"{kind}:{self.place}", "--addresses", addresses, "--state", str(self.state), *served, *words]
        self.process, self.logged = None, 0

    def __enter__(self):
        return self.start()

    def __exit__(self, *_):
        self.kill()

    def launch(self):
        """Starts the process and waits for nothing."""
        self.logged = len(self.log())
        with open(self.log_path, "ab") as log:
            # Apart from the tool's group of processes: a Ctrl-C is for the tool.
            self.process = subprocess.Popen(self.words, stdin=subprocess.DEVNULL, stdout=subprocess.DEVNULL, stderr=log, start_new_session=True)
        return self

    def start(self):
        self.launch()
        self.wait_for(lambda: " info ready " in self.log()[self.logged :], "it says that it is ready")
        return self

    def refused(self):
        """Starts it where it must end by itself: the status, None where it went on and had to be killed."""
        status = self.launch().status()
        self.kill()
        return status

    def wait_for(self, holds, what, timeout=PATIENCE):
        """Waits until something holds of a gateway that lives."""
        end = time.monotonic() + timeout
        while not holds():
            if self.process.poll() is not None:
                raise Trouble(f"the gateway ended with status {self.process.returncode} before {what}: {self.log()[-600:]}")
            if time.monotonic() > end:
                raise Trouble(f"after {timeout} s it is not so that {what}: {self.log()[-600:]}")
            time.sleep(0.01)

    def client(self):
        return over_tty(str(self.place)) if self.kind == "pty" else over_socket(str(self.place))

    def log(self):
        return self.log_path.read_text(errors="backslashreplace") if self.log_path.exists() else ""

    def send_signal(self, number):
        self.process.send_signal(number)

    def pause(self, seconds):
        """Stops the process for a time, as a host does that is held up."""
        self.process.send_signal(signal.SIGSTOP)
        time.sleep(seconds)
        self.process.send_signal(signal.SIGCONT)

    def kill(self):
        """kill -9; nothing where it has ended."""
        if self.process and self.process.poll() is None:
            self.process.kill()
        if self.process:
            self.process.wait()

    def status(self, timeout=PATIENCE):
        """The status with which it ends by itself; None where it does not."""
        try:
            return self.process.wait(timeout)
        except subprocess.TimeoutExpired:
            return None

    def end(self, number=signal.SIGTERM):
        """Ends it by a signal: the status, and the seconds that it took."""
        began = time.monotonic()
        self.process.send_signal(number)
        status = self.status()
        return status, time.monotonic() - began

    def image(self, address=0):
        path = self.state / f"{address:02}.image"
        return path.read_bytes() if path.exists() else None

    def metrics(self):
        """What is counted, as SIGUSR1 writes it to the log."""
        before = len(self.log())
        self.process.send_signal(signal.SIGUSR1)
        self.wait_for(lambda: "uptime_ms" in self.log()[before:] and self.log().endswith("\n"), "SIGUSR1 has written the metrics")
        return metrics_of(self.log()[before:])

    def resident(self):
        """Kilobytes of memory."""
        status = Path(f"/proc/{self.process.pid}/status").read_text()
        return int(re.search(r"VmRSS:\s+(\d+)", status)[1])


def metrics_of(text):
    """Counted values by their names, the last of each, from lines of a file or of the log."""
    return {name: int(value) for name, value in re.findall(r"\b([a-z_]+)[ =](\d+)\b", text)}
