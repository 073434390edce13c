"""What `?` shows at the console: every command, request and instruction of document 01, with its fields in words and an example that the drive of
address 00 answers."""

from typing import NamedTuple


class Topic(NamedTuple):
    """One code: how its strings are made (without the address; of an instruction, what a WN has between its code and DDD), a name that fits a list, what
    it does, its fields, and a string."""

    code: str
    form: str
    name: str
    does: str
    fields: list
    example: str


# Fields that several codes have.
CELL = ("BBB", "memory cell, 100 to 230")
NEXT = ("DDD", "next cell of the program, 100 to 230, or 000 where it ends")
THOUSANDS = ("FF", "greatest frequency in thousands of Hz, 03 to 24")
HUNDREDS = ("FF", "frequency in hundreds of Hz, 02 to 30")
FINE_HUNDREDS = ("FFF", "greatest frequency in hundreds of Hz, 030 to 240")
HERTZ = ("FFFF", "frequency in Hz, 0001 to 4800; stored as the greatest frequency of the board that is not above it, which QM shows")
RAMP = ("RR", "ramp code, 10 to 42")
STEPS = ("n", "number of steps with its sign, -8388607 to +8388607; with CM 1 the position to go to")
DIRECTION = ("s", "direction, + or -")
X4 = "it needs RS D2, D3, B2 or B3 when it is run"
TIMES_INDEXED = ("XX", f"x1, or x4 for four times the frequency and, with CM 0, the steps; {X4}")
TIMES_FREE = ("XX", f"x1, or x4 for four times the frequency; {X4}")
TIMES_STOP = ("XX", f"x1, or x4 for four times the frequency and the steps; {X4}")
OUTPUT = ("OO", "output, O0 to O3, FC (full current also at rest) or F0 to F7 (flags)")
VALUE = ("V", "value, 0 or 1")
CAM = [("V", "1 sets the cam, 0 takes it off"), ("n", "position with its sign, -2147483648 to +2147483647")]

COMMANDS = [
    Topic(
        "WN",
        "WN,BBB,CC,..,DDD",
        "store an instruction",
        "Stores an instruction in a memory cell. It is carried out when a program comes to the cell.",
        [CELL, ("CC", "code of the instruction; the fields after it depend on it: ? 01 has those of code 01"), NEXT],
        "00WN,228,65,0400,000",
    ),
    Topic(
        "WS",
        "WS,VV,value",
        "set a preset",
        "Sets one of the five presets. Address 99 is allowed: the drive then sets it and does not answer.",
        [
            ("AD", "address of the drive, 0 to 47"),
            ("IN", "motor current, 0 to 3: 55, 70, 85 or 100 per cent of the nominal current"),
            ("RS", "steps of a turn: D0 500, D1 1000, D2 2000, D3 4000, B0 400, B1 800, B2 1600, B3 3200"),
            ("ES", "0: input ST starts a program also while input ES is on, 1: only while it is off"),
            ("CM", "coordinates of indexed runs, 0 relative or 1 absolute"),
        ],
        "00WS,IN,3",
    ),
    Topic("PS", "PS,BBB", "start a program", "Starts the program that begins at a memory cell. Refused while input EE is on.", [CELL], "00PS,100"),
    Topic(
        "EE",
        "EE",
        "emergency stop",
        "Ends the program at once, whatever it does; a run with ramp slows down first. A busy drive hears it, and address 99 is allowed.",
        [],
        "00EE",
    ),
    Topic(
        "ES",
        "ES",
        "free run stop",
        "Stops a free run; the program goes on with its next cell. A busy drive hears it, and address 99 is allowed.",
        [],
        "00ES",
    ),
    Topic(
        "SA",
        "SA,nnn",
        "set the position",
        "Loads a value into the counter of the absolute position.",
        [("nnn", "position, -2147483648 to 2147483647; + may be left out")],
        "00SA,3200",
    ),
    Topic("SO", "SO,OO,V", "set an output", "Sets an output at once.", [OUTPUT, VALUE], "00SO,O1,1"),
    Topic(
        "SC",
        "SC,V,n",
        "set the electronic cam",
        "When a step reaches the position of the cam, output O3 is complemented and the cam taken off. SC,0 may end there.",
        CAM,
        "00SC,1,+117500",
    ),
]

REQUESTS = [
    Topic("QA", "QA", "position", "Asks the absolute position: steps forward less steps back.", [], "00QA"),
    Topic("QS", "QS,VV", "a preset", "Asks a preset.", [("VV", "AD, IN, RS, ES or CM; ? WS says what they are")], "00QS,RS"),
    Topic(
        "QI",
        "QI,name",
        "an input",
        "Asks whether an input is on, 1, or off, 0.",
        [("name", "I0 to I2, PX (proximity), S0 to S3 (selection), ST (start), ES (free run stop) or EE (emergency stop)")],
        "00QI,I0",
    ),
    Topic(
        "QO",
        "QO,name",
        "an output",
        "Asks whether an output is on, 1, or off, 0.",
        [("name", "O0 to O3, FC (full current), F0 to F7 (flags), CU (motor current), BS (busy: 0, for a busy drive is silent) or FA (no fault: 1)")],
        "00QO,O1",
    ),
    Topic(
        "QM",
        "QM,BBB",
        "a memory cell",
        "Asks the instruction of a memory cell; the answer has the form of the WN that stored it.",
        [CELL],
        "00QM,228",
    ),
    Topic("QC", "QC", "electronic cam", "Asks the electronic cam: 1 and its position where it is set, else 0.", [], "00QC"),
    Topic(
        "QE",
        "QE",
        "last error",
        "Asks the error of the last program and its cell: 00,000 none, 50 a run that goes too far, 51 x4 where RS does "
        "not allow it, 52 a closing loop without an opening one.",
        [],
        "00QE",
    ),
    Topic(
        "QR",
        "QR",
        "interrupted program",
        "Asks what an emergency stop interrupted, which a 69 takes up again: cell, rest with its sign and loop count, or 000 for nothing.",
        [],
        "00QR",
    ),
]

INSTRUCTIONS = [
    Topic(
        "01",
        "FF,RR,n,XX",
        "indexed run with ramp",
        "Runs a number of steps, with ramps.",
        [THOUSANDS, RAMP, STEPS, TIMES_INDEXED, NEXT],
        "00WN,156,01,09,15,+31754,x1,121",
    ),
    Topic(
        "31",
        "FFF,RR,n,XX",
        "as 01, in hundreds of Hz",
        "High resolution indexed run with ramp.",
        [FINE_HUNDREDS, RAMP, STEPS, TIMES_INDEXED, NEXT],
        "00WN,156,31,091,15,+31754,x1,121",
    ),
    Topic(
        "02",
        "FF,RR,s,XX",
        "free run with ramp",
        "Runs until a free run stop or an emergency stop, with ramps. Passed over while input ES is on.",
        [THOUSANDS, RAMP, DIRECTION, TIMES_FREE, NEXT],
        "00WN,140,02,10,18,+,x1,210",
    ),
    Topic(
        "32",
        "FFF,RR,s,XX",
        "as 02, in hundreds of Hz",
        "High resolution free run with ramp, until a free run stop or an emergency stop.",
        [FINE_HUNDREDS, RAMP, DIRECTION, TIMES_FREE, NEXT],
        "00WN,140,32,113,18,+,x1,210",
    ),
    Topic(
        "11",
        "FF,n,XX",
        "indexed run without ramp",
        "Runs a number of steps, at frequencies that need no ramp.",
        [HUNDREDS, STEPS, TIMES_INDEXED, NEXT],
        "00WN,122,11,02,+1246,x4,188",
    ),
    Topic(
        "21",
        "FFFF,n,XX",
        "as 11, in Hz",
        "High resolution indexed run without ramp.",
        [HERTZ, STEPS, TIMES_INDEXED, NEXT],
        "00WN,122,21,0224,+1246,x4,188",
    ),
    Topic(
        "12",
        "FF,s,XX",
        "free run without ramp",
        "Runs until a free run stop or an emergency stop, at frequencies that need no ramp. Passed over while input ES is on.",
        [HUNDREDS, DIRECTION, TIMES_FREE, NEXT],
        "00WN,176,12,22,+,x4,133",
    ),
    Topic(
        "22",
        "FFFF,s,XX",
        "as 12, in Hz",
        "High resolution free run without ramp, until a free run stop or an emergency stop.",
        [HERTZ, DIRECTION, TIMES_FREE, NEXT],
        "00WN,176,22,2200,+,x4,133",
    ),
    Topic(
        "03",
        "FF,RR,s,LL",
        "zero search",
        "Runs until the proximity input PX is on, slows down, and goes back slowly until PX is off.",
        [THOUSANDS, RAMP, DIRECTION, ("LL", "frequency of the way back in hundreds of Hz, 02 to 30"), NEXT],
        "00WN,146,03,20,10,+,05,182",
    ),
    Topic(
        "05",
        "FF,RR,s,nnn,XX",
        "delayed stop",
        "Free run with ramp that goes a set number of steps after the free run stop, which counts once the run is at speed.",
        [THOUSANDS, RAMP, DIRECTION, ("nnn", "steps after the stop, 0 to 8388607; 0 is one step"), TIMES_STOP, NEXT],
        "00WN,165,05,10,20,+,3000,x1,205",
    ),
    Topic(
        "57",
        "V,n",
        "electronic cam",
        "When a step reaches the position of the cam, output O3 is complemented and the cam taken off.",
        [*CAM, NEXT],
        "00WN,177,57,1,+13000,191",
    ),
    Topic("58", "OO,V", "set an output", "Sets an output.", [OUTPUT, VALUE, NEXT], "00WN,170,58,O1,1,194"),
    Topic("60", "", "position reset", "Sets the absolute position to 0.", [NEXT], "00WN,180,60,190"),
    Topic(
        "61",
        "nnn",
        "opening loop",
        "Opens a loop: sets the counter of repetitions. A loop in another loop is not possible.",
        [("nnn", "repetitions, 1 to 65535"), NEXT],
        "00WN,180,61,12,181",
    ),
    Topic(
        "62",
        "EEE",
        "closing loop",
        "Takes one off the counter of repetitions; goes on at EEE as long as some are left, then at DDD.",
        [("EEE", "first cell of what is repeated, 100 to 230"), NEXT],
        "00WN,183,62,181,201",
    ),
    Topic(
        "63",
        "II,V,EEE",
        "conditional jump",
        "Goes on at EEE where an input or a flag has a value, else at DDD.",
        [("II", "I0 to I2, PX, S0 to S3 (inputs) or F0 to F7 (flags)"), VALUE, ("EEE", "cell to go on at, 100 to 230"), NEXT],
        "00WN,181,63,I1,0,130,155",
    ),
    Topic("65", "nnn", "time delay", "Delays the program.", [("nnn", "milliseconds, 0 to 8388607"), NEXT], "00WN,120,65,4000,192"),
    Topic(
        "69",
        "",
        "recovery",
        "Takes up the interrupted program where an emergency stop ended it. It has no next cell: the string ends after the 69.",
        [],
        "00WN,220,69",
    ),
    Topic("70", "S", "motor current on or off", "Switches the motor current.", [("S", "1 on, 0 off"), NEXT], "00WN,182,70,1,190"),
    Topic(
        "00",
        "",
        "null",
        "Does nothing, and goes on at the next cell. Every cell of a fresh drive holds it, with next 000.",
        [NEXT],
        "00WN,135,00,196",
    ),
]

INTRODUCTION = (
    "One drive of address {own}. A string is the address, a code and its fields, parted by commas; Enter ends it with byte 13. "
    "The drive answers {own}Y (done), {own}N (refused, nothing has changed), or a request itself with the value after it. "
    "While a program runs it hears only EE and ES. Address 99 reaches every drive and is never answered. "
    "After each string the drive runs for up to 1,000 milliseconds."
)

LETTERS = (
    "BBB and EEE are cells, 100 to 230; DDD, at the end, is the next cell, or 000 where the program ends. nnn has 1 to 10 digits, "
    "n stands with its sign, s is + or -, XX is x1 or x4, V and S are 0 or 1; other letters stand for that many digits. ? WN or ? 01 says more of one code."
)
