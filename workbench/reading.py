"""The full reading of a drive (docs/READINGS.md): the 165 requests of document 01, their answers, and the text that keeps them."""

import re
from typing import NamedTuple, Optional

from workbench.engine import CELLS, HIGHEST_ADDRESS, INPUTS, string_call
from workbench.files import PRESETS, front, shown
from workbench.trouble import Trouble

# 01's order, which is not that of the outputs in a line of observations.
OUTPUTS = ["O0", "O1", "O2", "O3", "FC", "F0", "F1", "F2", "F3", "F4", "F5", "F6", "F7", "CU"]
STORED = [*(f"QM,{cell}" for cell in CELLS), *(f"QS,{name}" for name in PRESETS)]
# What a program or a switch can change: all that follows cells and presets.
PASSING = ["QA", *(f"QO,{name}" for name in OUTPUTS), *(f"QI,{name}" for name in INPUTS), "QC", "QE", "QR"]
REQUESTS = STORED + PASSING
# 01: "over 64 bytes with the 13".
LONGEST = 63
# A reading has 6 KB at most; what is longer is another file.
LIMIT = 100_000
BIT = "[01]"
NUMBER = "[+-][0-9]{1,10}"
# The forms of values by the request, or by its code. Whether a drive can have the value, the engine judges.
FORMS = {
    "QM": "[0-9]{2}(,[0-9A-Zx+-]+)*",
    "QS,AD": "[0-9]{1,2}",
    "QS,IN": "[0-9]",
    "QS,RS": "[DB][0-3]",
    "QS": BIT,
    "QA": NUMBER,
    "QO": BIT,
    "QI": BIT,
    "QC": f"0|1,{NUMBER}",
    "QE": "[0-9]{2},[0-9]{3}",
    "QR": f"000|[0-9]{{3}},{NUMBER},[0-9]{{1,10}}",
}


class Interrupted(NamedTuple):
    """The interrupted record: its cell, what is left of it, and the loop count."""

    cell: int
    rest: int
    loops: int


class Reading(NamedTuple):
    """The drive's address, and the value that follows each request in its answer."""

    address: int
    values: dict

    def answers(self):
        return [f"{self.address:02}{request},{value}" for request, value in self.values.items()]

    @property
    def cells(self):
        return {cell: self.values[f"QM,{cell}"] for cell in CELLS}

    @property
    def presets(self):
        return {name: self.values[f"QS,{name}"] for name in PRESETS}

    @property
    def position(self):
        return self.values["QA"]

    @property
    def outputs(self):
        """The names of the outputs that are on."""
        return [name for name in OUTPUTS if self.values[f"QO,{name}"] == "1"]

    @property
    def inputs(self):
        """The inputs word."""
        return sum(1 << place for place, name in enumerate(INPUTS) if self.values[f"QI,{name}"] == "1")

    @property
    def cam(self) -> Optional[str]:
        """The position of the cam, or None where it is not set."""
        return None if self.values["QC"] == "0" else self.values["QC"][2:]

    @property
    def error(self):
        """Code and cell."""
        code, cell = self.values["QE"].split(",")
        return int(code), int(cell)

    @property
    def interrupted(self) -> Optional[Interrupted]:
        value = self.values["QR"]
        return None if value == "000" else Interrupted(*map(int, value.split(",")))


def is_value(request, value):
    form = FORMS.get(request) or FORMS[request[:2]]
    return re.fullmatch(form, value) is not None


def read_back(engine, address):
    """The answers of a drive of the engine to the 165 requests, None for each that it is silent at."""
    asked = [string_call(f"{address:02}{request}") for request in REQUESTS]
    return [seen.said() for seen in engine.calls(asked)]


# The file.


class Kept(NamedTuple):
    """A reading from a file, and the line of each answer."""

    path: str
    reading: Reading
    lines: list

    def place(self, index):
        return f"{self.path}:{self.lines[index]}"


def text_of(reading, notes=()):
    """A reading as text. Without notes, equal readings are equal texts."""
    heads = [f"full reading of drive {reading.address:02}, {len(REQUESTS)} answers", *notes]
    return "".join([*(f"# {head}\n" for head in heads), *(f"{answer}\n" for answer in reading.answers())])


def kept(path):
    """The reading in a file. Comments and empty lines are passed over; the first line that is not what it should be is named."""
    rows = [(number, row.strip(" \t\r")) for number, row in enumerate(content(path).split("\n"), 1)]
    rows = [(number, row) for number, row in rows if row and not row.startswith("#")]
    address = address_in(path, rows)
    values = {request: value_in(path, number, row, f"{address:02}{request}") for request, (number, row) in zip(REQUESTS, rows)}
    if len(rows) < len(REQUESTS):
        missing = f"{address:02}{REQUESTS[len(rows)]}"
        raise Trouble(f"{path}: ends after {len(rows)} of {len(REQUESTS)} answers, and that to {missing} is missing; take the reading again")
    if len(rows) > len(REQUESTS):
        raise Trouble(f"{path}:{rows[len(REQUESTS)][0]}: more than the {len(REQUESTS)} answers of a full reading; take the reading again")
    return Kept(path, Reading(address, values), [number for number, _ in rows])


def content(path):
    data = front(path, LIMIT + 1, "a full reading")
    if len(data) > LIMIT or b"\0" in data:
        raise Trouble(f"{path}: no full reading, which is text of some 4 KB; take one with bin/reading take")
    return data.decode("utf-8-sig", "surrogateescape")


def address_in(path, rows):
    """The address of the drive: that of the first answer."""
    if not rows:
        raise Trouble(f"{path}: no answer in it, and a full reading has {len(REQUESTS)}; take one with bin/reading take")
    number, row = rows[0]
    if not re.match(f"[0-9]{{2}}{REQUESTS[0]},", row) or int(row[:2]) > HIGHEST_ADDRESS:
        raise Trouble(f"{path}:{number}: {quoted(row)} is not the first answer of a full reading, 00{REQUESTS[0]},.. of the addresses 00 to 47")
    return int(row[:2])


def value_in(path, number, row, asked):
    value = row[len(asked) + 1 :]
    if not row.startswith(f"{asked},") or not is_value(asked[2:], value):
        raise Trouble(f"{path}:{number}: {quoted(row)} is no answer to {asked}, which is due here; take the reading again")
    return value


def quoted(text):
    return f"'{shown(text)}'"
