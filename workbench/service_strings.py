"""Random strings of clients on a line: programs that run, settings, requests, strings that are nearly right, and noise. The generator given decides everything."""

from workbench.engine import FIRST, INPUTS, LAST, OUTPUTS, RESOLUTIONS

END = b"\r"
SWITCHES = ["I0", "I1", "I2", "PX", "S0", "S1", "S2", "S3", "F0", "F3", "F7"]
WRITTEN = [name for name in OUTPUTS if name != "CU"]
# Steps and delays: mostly short, so that programs end, and at times as long as may be.
STEPS = [0, 1, 3, 20, 77, 250, 900, 4_000, 30_000]
DELAYS = [0, 1, 2, 9, 50, 300, 2_500]
FARTHEST, LONGEST_DELAY, LONGEST_LOOP = 8_388_607, 8_388_607, 65_535
REQUESTS = ["QA", "QC", "QE", "QR"]
OTHERS = ["", "Q", "CY", "RA", "WS,EQ,0", "WN,100", "PS,99", "SA,", "SC,1", "QM,231", "QS,XX", "qa", "EE,", "WS,CM,2,100"]


def signed(random, numbers=STEPS, most=FARTHEST):
    value = random.choice(numbers) if random.random() < 0.97 else random.randint(0, most)
    return f"{random.choice('+-')}{value}"


def ramp(random):
    return f"{random.randint(10, 42)}"


def speed(random, code):
    """The frequency of a run as its code has it; high ones more often, since slow runs last."""
    low, high, width = {"01": (3, 24, 2), "02": (3, 24, 2), "03": (3, 24, 2), "05": (3, 24, 2), "31": (30, 240, 3), "32": (30, 240, 3), "11": (2, 30, 2), "12": (2, 30, 2)}.get(code, (1, 4800, 4))
    return f"{max(random.randint(low, high), random.randint(low, high)):0{width}}"


def times(random):
    return random.choice(["x1", "x1", "x4", "X4"])


def body(random, code, cells):
    """The parameters of an instruction; jumps go to one of the cells of the program."""
    if code in ("01", "31"):
        return f"{speed(random, code)},{ramp(random)},{signed(random)},{times(random)},"
    if code in ("11", "21"):
        return f"{speed(random, code)},{signed(random)},{times(random)},"
    if code in ("02", "32"):
        return f"{speed(random, code)},{ramp(random)},{random.choice('+-')},{times(random)},"
    if code in ("12", "22"):
        return f"{speed(random, code)},{random.choice('+-')},{times(random)},"
    if code == "03":
        return f"{speed(random, code)},{ramp(random)},{random.choice('+-')},{random.randint(2, 30):02},"
    if code == "05":
        return f"{speed(random, code)},{ramp(random)},{random.choice('+-')},{random.choice(STEPS)},{times(random)},"
    return logic(random, code, cells)


def logic(random, code, cells):
    """The parameters of an instruction that makes no run."""
    if code == "57":
        return f"{random.randint(0, 1)},{signed(random)},"
    if code == "58":
        return f"{random.choice(WRITTEN)},{random.randint(0, 1)},"
    if code == "61":
        return f"{random.choice([1, 2, 3, 5, LONGEST_LOOP if random.random() < 0.05 else 4])},"
    if code == "62":
        return f"{random.choice(cells)},"
    if code == "63":
        return f"{random.choice(SWITCHES)},{random.randint(0, 1)},{random.choice(cells)},"
    if code == "65":
        return f"{random.choice(DELAYS) if random.random() < 0.97 else random.randint(0, LONGEST_DELAY)},"
    return f"{random.randint(0, 1)}," if code == "70" else ""


CODES = "01 01 31 31 11 21 21 02 32 12 22 03 05 57 58 58 60 61 62 63 65 65 70 00".split()


def program(random, own):
    """The strings of a program, and the cell where it starts: a chain of cells with a jump here and there, a recovery in one of twenty."""
    first = random.choice([FIRST + random.randrange(16), random.randint(FIRST, LAST - 12)])
    cells = list(range(first, first + random.randint(1, 9)))
    strings = []
    for cell in cells:
        following = cell + 1 if cell != cells[-1] else random.choice(["000", "000", "000", first])
        code = "69" if random.random() < 0.05 else random.choice(CODES)
        text = "69" if code == "69" else f"{code},{body(random, code, cells)}{following}"
        strings.append(f"{own}WN,{cell},{text}".encode() + END)
    return strings, first


# Codes with which a program goes on to its next cell by itself, and steps and delays by which it ends soon.
ENDING = "01 31 11 21 57 58 60 65 70 00".split()
SOON = [0, 1, 3, 20, 77, 250]


def ending_program(random, own):
    """The strings of a program that ends by itself within seconds, and the cell where it starts."""
    first = FIRST + random.randrange(100)
    cells = list(range(first, first + random.randint(1, 5)))
    strings = []
    for cell in cells:
        code = random.choice(ENDING)
        quick = {"01": "12,20", "31": "120,15", "11": "20", "21": f"{random.randint(600, 4800):04}"}.get(code)
        number = f"{random.choice('+-')}{random.choice(SOON)}"
        parameters = f"{quick},{number},{times(random)}," if quick else f"{random.choice(SOON)}," if code == "65" else logic(random, code, cells)
        strings.append(f"{own}WN,{cell},{code},{parameters}{cell + 1 if cell != cells[-1] else '000'}".encode() + END)
    return strings, first


def setting(random, own):
    """A string that changes something else than a cell. The address stays, so that a client keeps its drives."""
    kind = random.randrange(7)
    texts = [
        f"WS,IN,{random.randint(0, 3)}",
        f"WS,RS,{random.choice(RESOLUTIONS)}",
        f"WS,ES,{random.randint(0, 1)}",
        f"WS,CM,{random.choice([0, 0, 1])}",
        f"SA,{signed(random, most=2**31 - 1)}",
        f"SO,{random.choice(WRITTEN)},{random.randint(0, 1)}",
        random.choice(["SC,0", f"SC,1,{signed(random)}"]),
    ]
    return f"{own}{texts[kind]}".encode() + END


def request(random, own):
    names = [f"QM,{random.randint(FIRST, LAST)}", f"QS,{random.choice(['AD', 'IN', 'RS', 'ES', 'CM'])}", f"QI,{random.choice(INPUTS)}", f"QO,{random.choice(OUTPUTS)}"]
    return f"{own}{random.choice([*REQUESTS, *names])}".encode() + END


def start(random, own, cell):
    return f"{own}PS,{cell}".encode() + END


def recovery(random, own):
    """A program that goes on where one was interrupted, and its start."""
    return [f"{own}WN,230,69".encode() + END, f"{own}PS,230".encode() + END]


def stop(random, own):
    return f"{random.choice([own, own, '99'])}{random.choice(['EE', 'ES'])}".encode() + END


def near_miss(random, own):
    """A string with one byte changed, lost or doubled, which may still be one."""
    whole = bytearray(random.choice([setting, request])(random, own) if random.random() < 0.5 else random.choice(program(random, own)[0]))
    at = random.randrange(len(whole) - 1)
    kind = random.randrange(3)
    if kind == 0:
        whole[at] = random.randrange(32, 127)
    elif kind == 1:
        del whole[at]
    else:
        whole.insert(at, whole[at])
    return bytes(whole)


def other(random, own):
    """What no drive takes, or no drive of this address."""
    address = random.choice([own, own, "99", "48", f"{random.randrange(100):02}", "0"])
    return f"{address}{random.choice(OTHERS)}".encode() + END


def noise(random):
    """Bytes of a disturbed line, with a string's end here and there."""
    return bytes(random.choice([13, 44, 48, 69, random.randrange(256), random.randrange(256)]) for _ in range(random.randint(1, 90)))


def strings_in(data):
    """The strings of a line's bytes as drives get them, at most 64 bytes and the 13 of each; and what is left without its end."""
    *whole, rest = data.split(END)
    return [string[:64] + END for string in whole], rest
