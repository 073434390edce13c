"""What the tests of bin/reading share: the tool, files, and a drive with something of everything in it."""

import os
import subprocess
import tempfile
from functools import lru_cache
from pathlib import Path

from workbench import reading
from workbench.engine import Engine, string_call

TOOL = str(Path(__file__).resolve().parent.parent.parent / "bin/reading")
# A drive with something of everything in it; its last calls leave it idle.
STRINGS = [
    "WS,IN,2", "WS,RS,B3", "WS,ES,1", "WS,CM,0", "WN,100,61,7,117", "WN,117,65,400,118", "WN,101,70,1,000", "WN,103,62,100,000",
    "WN,120,01,10,20,+300,x1,000", "PS,101", "SA,-77", "SC,1,+1234567", "SO,O1,1", "SO,FC,1", "SO,F7,1",
]  # fmt: skip


def said(text, address=7):
    return string_call(f"{address:02}{text}")


def full_script():
    """With an interrupted delay of loop count 7, an error 52, and the inputs I1, PX and S2."""
    strings = [call for text in STRINGS for call in (said(text), "W 9")]
    return ["F 7", *strings, said("PS,100"), "M", "M", "W 50", said("EE"), said("PS,103"), "M", f"I {0b00001001010}"]


class Ran:
    """The tool after its end."""

    def __init__(self, *words, **more):
        ran = subprocess.run([TOOL, *map(str, words)], capture_output=True, stdin=subprocess.DEVNULL, timeout=120, **more)
        self.status, self.out, self.err = ran.returncode, ran.stdout.decode(), ran.stderr.decode()

    def faults(self, status, out=None, err=None):
        """What is other than expected. Of standard error a part is given, which must be its only line."""
        found = [] if self.status == status else [f"status {self.status} for {status}, {self.err!r}"]
        found += [] if out is None or self.out == out else [f"wrote {self.out[-300:]!r} for {out[-300:]!r}"]
        if err is None:
            return found + ([f"said {self.err!r}"] if self.err else [])
        right = err in self.err and self.err.count("\n") == 1 and self.err.startswith("bin/reading: ")
        return found + ([] if right else [f"said {self.err!r} for {err!r}"])


class Folder:
    """Files of one case, in a folder of their own."""

    def __init__(self, above):
        self.path = tempfile.mkdtemp(dir=above)

    def file(self, name, text=None):
        path = os.path.join(self.path, name)
        if text is not None:
            Path(path).write_text(text)
        return path


@lru_cache(maxsize=None)
def full_text():
    """The full drive's reading, by the engine itself."""
    with Engine() as engine:
        engine.calls(full_script())
        answers = reading.read_back(engine, 7)
    return "# full reading of drive 07, 165 answers\n" + "".join(f"{answer}\n" for answer in answers)


def edited(text, *edits):
    for old, new in edits:
        assert old in text, old
        text = text.replace(old, new)
    return text
