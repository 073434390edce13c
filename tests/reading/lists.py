"""Lists of calls for the tests: random ones of the second implementation, and readings written raw as a check of those that calls make."""

import subprocess

from workbench import build
from workbench.engine import RESOLUTIONS, string_call

# Every drive hears it, and a slowing run halts.
END = [string_call("99EE"), "H"]
ADDRESS_SETTING = "57532c4144"


def generated(seed, calls):
    """A random list without raw writes, whose drives may be made anew or loaded, and idle at its end."""
    words = [build.reference(), "generate", str(seed), str(calls)]
    text = subprocess.run(words, check=True, capture_output=True, text=True).stdout
    return [line for line in text.splitlines() if line[0] not in "#K"]


def further(seed, calls, address):
    """A random list for a drive of an address: no other drive comes in, the address stays, and strings to a drive of the list are to this one."""
    lines = (line for line in generated(seed, calls) if line[0] not in "FL")
    return [addressed(line, address) for line in lines if ADDRESS_SETTING not in line]


def addressed(line, address):
    """A string of another address is given this one's, but for 99 and what is no address."""
    text = line[2:6]
    is_address = line.startswith("S ") and text[:1] == text[2:3] == "3" and text != "3939"
    return f"S {f'{address:02}'.encode().hex()}{line[6:]}" if is_address else line


def raw(reading):
    """The raw writes that put a reading's numbers into a fresh drive, cells aside: those are strings."""
    presets = reading.presets
    code, cell = reading.error
    record = reading.interrupted or (0, 0, 0)
    numbers = {
        "in": presets["IN"], "rs": RESOLUTIONS.index(presets["RS"]), "es": presets["ES"], "cm": presets["CM"], "pos": int(reading.position),
        "camset": int(reading.cam is not None), "campos": int(reading.cam or 0), "inp": reading.inputs, "errcode": code, "errcell": cell,
        "reccell": record[0], "recrest": record[1], "recloop": record[2],
    }  # fmt: skip
    yield f"F {reading.address}"
    yield from (string_call(f"{reading.address:02}WN,{cell},{text}") for cell, text in reading.cells.items())
    yield from (f"K out {name} 1" for name in reading.outputs)
    yield from (f"K {name} {value}" for name, value in numbers.items())
