"""What a cell's text says: code, parameters and next, as QM shows them after the cell's address. The engine has judged it before it shows it."""

# The titles of the manual's chapter 4.1, in its order.
NAMES = {
    "01": "indexed run with ramp",
    "31": "high resolution indexed run with ramp",
    "02": "free run with ramp",
    "32": "high resolution free run with ramp",
    "11": "indexed run without ramp",
    "21": "high resolution indexed run without ramp",
    "12": "free run without ramp",
    "22": "high resolution free run without ramp",
    "03": "zero search procedure",
    "57": "electronic cam setting",
    "58": "hardware output setting",
    "65": "time delay",
    "00": "null",
    "63": "conditional jump",
    "69": "interrupted program recovery",
    "05": "delayed stop",
    "70": "current on / current off",
    "61": "opening loop",
    "62": "closing loop",
    "60": "absolute position counter reset",
}
# The errors that end a program, in few words.
ERRORS = {50: "too far away", 51: "x4 is not available", 52: "the loop is not open"}
# What every cell of a fresh drive holds.
EMPTY = "00,000"
END = 0
# The codes with a second way, EEE, and its place among the fields.
JUMPS = {"62": 1, "63": 3}


def code_of(cell):
    return cell[:2]


def name_of(cell):
    return NAMES[code_of(cell)]


def next_of(cell):
    """DDD as a number; a 69 has none, and ends or goes to the interrupted cell."""
    return END if code_of(cell) == "69" else int(cell[-3:])


def ways_of(cell):
    """The cells that one leads to by DDD and EEE."""
    jump = JUMPS.get(code_of(cell))
    ways = {next_of(cell), int(cell.split(",")[jump]) if jump else END}
    return ways - {END}
