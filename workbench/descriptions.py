"""A full reading in words, and two readings against each other."""

import re

from workbench.engine import CELLS, INPUTS
from workbench.files import PRESETS
from workbench.instructions import END, ERRORS, NAMES, code_of, next_of
from workbench.reading import OUTPUTS

# What a frequency field counts in, in Hz.
SCALES = {"01": 1000, "02": 1000, "03": 1000, "05": 1000, "31": 100, "32": 100, "11": 100, "12": 100, "21": 1, "22": 1}
SWITCH = {"0": "off", "1": "on"}
# Of a preset's value, what it means.
MEANINGS = {"CM": {"0": "relative", "1": "absolute"}}


# Cells.


def hertz(code, field):
    return f"at {int(field) * SCALES[code]} Hz"


def run_parts(code, fields):
    """Speed, ramp where the code has one, steps or direction, multiplier."""
    ramp = [f"ramp {fields[1]}"] if code in ("01", "31", "02", "32") else []
    way, times = fields[-2:]
    return [hertz(code, fields[0]), *ramp, f"direction {way}" if way in "+-" else f"{way} steps", times]


def parts(cell):
    """The parameters of a cell in words, each by itself."""
    code, *fields = cell.split(",")
    fields = fields[:-1]
    if code == "03":
        return [hertz(code, fields[0]), f"ramp {fields[1]}", f"direction {fields[2]}", f"back at {int(fields[3]) * 100} Hz"]
    if code == "05":
        return [hertz(code, fields[0]), f"ramp {fields[1]}", f"direction {fields[2]}", f"{fields[3]} steps after its stop", fields[4]]
    if code in SCALES:
        return run_parts(code, fields)
    return other_parts(code, fields)


def other_parts(code, fields):
    forms = {
        "57": ["of the cam at {1}"] if fields[:1] == ["1"] else ["of no cam"],
        "58": ["{0}", "to {1}"],
        "61": ["of {0}"],
        "62": ["back to {0}"],
        "63": ["to {2}", "if {0} is {1}"],
        "65": ["of {0} ms"],
        "70": ["to {0}"],
    }
    return [form.format(*fields) for form in forms.get(code, [])]


def goal(cell):
    """Where a cell leads; a 69 leads to the interrupted program."""
    if code_of(cell) == "69":
        return []
    return ["then the end" if next_of(cell) == END else f"then {next_of(cell):03}"]


def cell_in_words(cell):
    """65 time delay of 400 ms, then 118."""
    said = ", ".join(parts(cell) + goal(cell))
    joint = "" if not said else " " if parts(cell) else ", "
    return f"{code_of(cell)} {NAMES[code_of(cell)]}{joint}{said}"


def cells_apart(a, b):
    """Both in words, the second by what is other in it where both are of one code."""
    whole = cell_in_words(b)
    if code_of(a) == code_of(b):
        pairs = zip(parts(a) + goal(a), parts(b) + goal(b))
        whole = ", ".join(new for old, new in pairs if old != new)
        whole = re.sub("^(of|at|to) ", "", whole)
    return f"{cell_in_words(a)}, against {whole}"


# The rest of a reading.


def preset_in_words(name, value):
    meaning = MEANINGS.get(name, {}).get(value)
    return f"{value} ({meaning})" if meaning else value


def cam_in_words(reading):
    return "not set" if reading.cam is None else f"set at {reading.cam}"


def error_in_words(reading):
    code, cell = reading.error
    return f"{code} at cell {cell} ({ERRORS[code]})" if code else "none"


def interrupted_in_words(reading):
    record = reading.interrupted
    if record is None:
        return "none"
    unit = "ms" if code_of(reading.cells[record.cell]) == "65" else "steps"
    return f"cell {record.cell}, rest {record.rest:+} {unit}, loop count {record.loops}"


def lines_of(reading):
    """Every part of a reading but the cells: what it is, and how it stands."""
    yield "address", f"{reading.address:02}"
    yield from ((f"preset {name}, {PRESETS[name]}", preset_in_words(name, value)) for name, value in reading.presets.items() if name != "AD")
    yield "position", reading.position
    yield from ((f"output {name}", SWITCH[reading.values[f"QO,{name}"]]) for name in OUTPUTS)
    yield from ((f"input {name}", SWITCH[reading.values[f"QI,{name}"]]) for name in INPUTS)
    yield "cam", cam_in_words(reading)
    yield "error", error_in_words(reading)
    yield "interrupted program", interrupted_in_words(reading)


def differences(a, b):
    """What differs between two readings, in words, in the order of the requests, the address first."""
    pairs = [(what, old, new) for (what, old), (_, new) in zip(lines_of(a), lines_of(b)) if old != new]
    address = [f"{what}: {old} against {new}" for what, old, new in pairs if what == "address"]
    cells = [f"cell {cell}: {cells_apart(a.cells[cell], b.cells[cell])}" for cell in CELLS if a.cells[cell] != b.cells[cell]]
    return address + cells + [f"{what}: {old} against {new}" for what, old, new in pairs if what != "address"]
