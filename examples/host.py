#!/usr/bin/env python3
"""A host in a page: the proved engine as a process, one call a line, one line of what is seen for each (docs/SCRIPTS.md).

  examples/host.py [PROGRAM]    the engine, crates/replay/out/replay unless given

The serial line, the clock and the pulse board of a real host stand where this one prints and counts.
"""

import subprocess
import sys
from pathlib import Path

ROOT = Path(__file__).resolve().parent.parent
words = sys.argv[1:] or [str(ROOT / "crates/replay/out/replay")]
engine = subprocess.Popen(words, stdin=subprocess.PIPE, stdout=subprocess.PIPE, text=True)


def call(line):
    """Gives a call to the drive: its answer, the order to the board, and the outputs after it."""
    engine.stdin.write(line + "\n")
    engine.stdin.flush()
    refusal, answer, _, _, _, order, outputs = engine.stdout.readline().split()
    if refusal != "-":
        raise RuntimeError(f"{line} is refused by {refusal}")
    return answer, order, outputs


def string(text):
    """A string from the line: byte 13 is added, and a buffer of 64 bytes lent for the answer."""
    answer, _, _ = call(f"S {text.encode().hex()}0d 64 0")
    print(f"{text:28} {answer}")


call("F 0")
string("00WN,100,58,O0,1,101")
string("00WN,101,11,05,+1200,x1,000")
string("00PS,100")
milliseconds = steps = 0
while steps < 1200:
    _, order, outputs = call("M")
    milliseconds += 1
    # 500 Hz is a step every second millisecond. A step outside a run is refused.
    if order.startswith("run") and milliseconds % 2 == 0:
        _, order, outputs = call("P")
        steps += 1
print(f"{steps} steps in {milliseconds} ms, order {order}, outputs {outputs}")
string("00QA")
engine.stdin.close()
