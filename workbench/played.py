"""A drive of the engine that a script of calls (docs/SCRIPTS.md) leaves, as a line."""

import tempfile
import threading

from workbench import build
from workbench.engine import Engine
from workbench.process import Process
from workbench.trouble import Trouble

COMMENT = b"#"


class Played(Engine):
    """The script makes its own drives, so none is made before it; what the engine says against a line is kept for the message."""

    def __init__(self):
        self.complaints = tempfile.TemporaryFile()
        Process.__init__(self, "the engine", [build.program("replay")], self.complaints)
        self.answer = b""

    def close(self):
        super().close()
        self.complaints.close()

    def complaint(self):
        """What the engine, which has ended, says against a line of the script."""
        self.process.wait()
        self.complaints.seek(0)
        return self.complaints.readline().decode(errors="replace").strip() or "the engine ended early"

    def send(self, data, timeout):
        said = self.string(data.rstrip(b"\r")).said()
        self.answer = b"" if said is None else said.encode() + b"\r"
        return True

    def receive(self, timeout):
        """The answer, which is there at once or not at all."""
        answer, self.answer = self.answer, b""
        return answer


def played(path):
    """The drive that a script leaves, sound and idle."""
    script, count = script_of(path)
    engine = Played()
    try:
        through(engine, path, script, count)
        judge(engine, path)
    except BaseException:
        engine.close()
        raise
    return engine


def script_of(path):
    """A script, and how many calls are in it."""
    try:
        with open(path, "rb") as file:
            rows = file.read().split(b"\n")
    except OSError as error:
        raise Trouble(f"{path}: {error.strerror}; name a script of calls (docs/SCRIPTS.md)") from None
    rows = rows[:-1] if rows[-1] == b"" else rows
    count = sum(not row.startswith(COMMENT) for row in rows)
    if count == 0:
        raise Trouble(f"{path}: no call is in it; a script begins with a fresh drive, as F 0 (docs/SCRIPTS.md)")
    return b"".join(row + b"\n" for row in rows), count


def through(engine, path, script, count):
    """Gives the script from a thread of its own, so that neither side waits for the other with its pipe full."""
    thread = threading.Thread(target=fed, args=(engine.process.stdin, script), daemon=True)
    thread.start()
    seen = sum(1 for _ in zip(range(count), engine.process.stdout))
    if seen < count:
        raise Trouble(f"{path}: {engine.complaint()}; docs/SCRIPTS.md says how calls are written")
    thread.join()


def fed(sink, script):
    try:
        sink.write(script)
        sink.flush()
    except OSError:
        # The engine ended at a line; what it says of it is told.
        pass


def judge(engine, path):
    if engine.call("B").refusal is not None:
        raise Trouble(f"{path}: the drive that it leaves is unsound, by its K lines, and answers nothing; leave them out")
    record = engine.record()
    if not record.idle:
        raise Trouble(f"{path}: the drive that it leaves is busy at cell {record.cell} ({record.phase_name()}); let the script go on until it is idle")
