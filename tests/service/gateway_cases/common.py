"""What the tests of the gateway share. A test gets a bench and gives what it looks at, what must be seen and what is seen."""

import tempfile
import time
from typing import NamedTuple, Optional

from workbench.service_gateway import PATIENCE, Gateway

# What is kept is kept within a second; a loaded machine gets another.
KEPT = 2


class Bench(NamedTuple):
    """The gateway's program, the program that serves its drives, None where the engine is linked in, and a folder for all that is made."""

    program: str
    engine: Optional[str]
    above: str

    def folder(self):
        return tempfile.mkdtemp(dir=self.above)

    def gateway(self, *words, **more):
        """A gateway in a folder of its own, with the engine of this bench unless another is named."""
        more.setdefault("engine", self.engine)
        return Gateway(self.program, more.pop("folder", None) or self.folder(), *words, **more)


class Skipped(Exception):
    """A test cannot be made here, and why."""


def waited(holds, timeout=PATIENCE):
    """Whether something holds within a time."""
    end = time.monotonic() + timeout
    while not holds():
        if time.monotonic() > end:
            return False
        time.sleep(0.01)
    return True


def within(what, least, value, most):
    """A number that must lie between two others."""
    return what, f"from {least} to {most}", f"from {least} to {most}" if least <= value <= most else str(value)


def holds(what, condition, seen):
    """A condition, with what is shown where it does not hold."""
    return what, True, True if condition else seen


def told(what, gateway, *words):
    """What the log must tell, soon: it is written beside the loop."""
    return what, True, waited(lambda: all(word in gateway.log() for word in words)) or gateway.log()[-300:]


def number(answer):
    """The number at the end of an answer, as 00QA,+7 has it."""
    return int(answer.rsplit(",", 1)[1]) if answer and "," in answer else None


def steps_left(answer):
    """The rest that an answer to QR tells, 0 where nothing was interrupted."""
    fields = (answer or "").split(",")
    return int(fields[2]) if len(fields) == 4 else 0
