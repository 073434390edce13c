"""Program files and memory images (docs/PROGRAMS.md): read, put into a drive of the engine, and written as text."""

import re
from typing import NamedTuple, Optional

from workbench.engine import HIGHEST_ADDRESS, OUTPUTS, Engine, Record, string_call
from workbench.instructions import EMPTY, name_of
from workbench.ranges import counted
from workbench.reasons import Reasons
from workbench.trouble import Trouble, say

TOOL = "bin/program"
STANDARD_INPUT = "-"
# No program needs a hundredth of it: 131 cells and 5 presets are 8 KB of strings.
LIMIT = 256_000
# In 01's order, with the manual's titles.
PRESETS = {"AD": "address", "IN": "drive current", "RS": "operation mode", "ES": "ES priority", "CM": "coordinates operation mode"}
INSTEAD = "give a program file, text with a string a line ended by a line feed, or a whole image"
# What text has none of: control bytes but the tab. Line ends are taken off before.
CONTROL = re.compile(r"[\x00-\x08\x0a-\x1f\x7f]")
ADDRESS = re.compile(r"[0-9]{2}")
# Of a string so much is shown.
SHOWN = 64


class Line(NamedTuple):
    """A line that has a string: its number, and the string as written, without spaces around and comment."""

    number: int
    text: str

    def address(self):
        """The address that is written, or None."""
        return int(self.text[:2]) if ADDRESS.match(self.text) else None

    def string(self, own):
        """The string as sent to a drive of address `own`."""
        return f"{own:02}{self.text}" if self.address() is None else self.text


class Sent(NamedTuple):
    """A line that was given to a drive: the string as sent, the answer without its byte 13, None where there was none, and the record then."""

    line: Line
    string: str
    answer: Optional[str]
    record: Record

    @property
    def taken(self):
        return self.answer is not None and self.answer[2:] != "N"


class Memory(NamedTuple):
    """The presets by their names, and the cells by their addresses, as a drive answers QS and QM."""

    presets: dict
    cells: dict


# Reading.


def named(path):
    """A file in messages."""
    return "standard input" if path == STANDARD_INPUT else path


def front(path, size, wanted):
    """The first bytes of a file, or of standard input; what is wanted is named where it cannot be read."""
    try:
        with open(0 if path == STANDARD_INPUT else path, "rb", closefd=path != STANDARD_INPUT) as file:
            return file.read(size)
    except OSError as error:
        raise Trouble(f"{named(path)}: {error.strerror}; name {wanted} that can be read") from None


def content(path):
    """The bytes of a program file or an image."""
    data = front(path, LIMIT + 1, "a program file or an image")
    if len(data) > LIMIT:
        raise Trouble(f"{named(path)}: longer than {LIMIT:,} bytes, which no program file or image needs to be; name another file")
    return data


def is_image(data):
    """Whether bytes are meant as an image: its second byte, IN, is 0 to 3, which text has nowhere. Whether they are one, the engine judges."""
    return len(data) > 1 and data[1] <= 3


def lines_of(path):
    return lines_in(named(path), content(path))


def lines_in(name, data):
    """The lines of a program file that have a string; the name is for messages."""
    try:
        text = data.decode("utf-8-sig")
    except UnicodeDecodeError as error:
        place = f"{name}:{data[: error.start].count(10) + 1}"
        raise Trouble(f"{place}: byte {data[error.start]} is no text in UTF-8; {INSTEAD}") from None
    lines = [Line(number, text_of(row, f"{name}:{number}")) for number, row in enumerate(text.split("\n"), 1)]
    return [line for line in lines if line.text]


def text_of(row, place):
    row = row[:-1] if row.endswith("\r") else row
    found = CONTROL.search(row)
    if found:
        raise Trouble(f"{place}: byte {ord(found[0])} is in it; {INSTEAD}")
    return row.partition("#")[0].strip(" \t")


def first_address(lines):
    """The address of a file's drive: the first that a line names and a drive can have, else 0."""
    written = (line.address() for line in lines)
    return next((address for address in written if address is not None and address <= HIGHEST_ADDRESS), 0)


# Into a drive.


def given(engine, lines):
    """Gives lines to a drive, one after the other, each with the drive's own address at that point where it names none."""
    own = engine.record().ad
    for line in lines:
        string = line.string(own)
        seen, state = engine.calls([string_call(string), "V"])
        record = Record(*map(int, state.answer.split(",")))
        own = record.ad
        yield Sent(line, string, seen.said(), record)


def reasons_of(address, sent):
    """Why each string got N or no answer, or an empty sentence. The second implementation takes the same strings, and its answers must be the engine's."""
    with Reasons(address) as reasons:
        said = [reasons.string(each.string) for each in sent]
    return [reason(each.answer, told) for each, told in zip(sent, said)]


def reason(answer, told):
    if told.answer == answer:
        return told.why
    both = f"{in_words(answer)} against {in_words(told.answer)}"
    return f"the engine and the second implementation differ, {both}, and one of them is wrong: report this string"


def in_words(answer):
    return "no answer" if answer is None else shown(answer)


def shown(text):
    """Text for a table or a message: on one line, of limited length, and bytes that do not print as \\xNN."""
    plain = "".join(chr(byte) if 32 <= byte <= 126 else f"\\x{byte:02x}" for byte in text.encode("utf-8", "surrogateescape"))
    return plain if len(plain) <= SHOWN else f"{plain[: SHOWN - 2]}.."


def loaded(path):
    """A drive with the content of a program file or an image in it, idle."""
    data = content(path)
    return (loaded_image if is_image(data) else loaded_program)(named(path), data)


def loaded_image(name, data):
    engine = Engine()
    if not engine.load(data):
        engine.close()
        raise Trouble(f"{name}: damaged, since an image of no drive has these {len(data)} bytes (refusal 10); make it again with {TOOL} image")
    return engine


def loaded_program(name, data):
    lines = lines_in(name, data)
    if not lines:
        say(TOOL, f"{name}: no string in it, which is the program of a fresh drive")
    engine = Engine(first_address(lines))
    try:
        take(engine, name, lines)
    except BaseException:
        engine.close()
        raise
    return engine


def take(engine, name, lines):
    """Gives all lines to a drive that must take each and be idle in the end."""
    sent = []
    for each in given(engine, lines):
        sent.append(each)
        if not each.taken:
            why = reasons_of(first_address(lines), sent)[-1]
            raise Trouble(f"{name}:{each.line.number}: {shown(each.string)} got {in_words(each.answer)}: {why}")
    if sent and not sent[-1].record.idle:
        raise Trouble(f"{name}: the drive is busy after its last line; leave out the PS, since {TOOL} run starts programs")


# What a drive holds.


def memory_of(engine):
    """The presets and cells of an idle drive."""
    return Memory({name: engine.request(f"QS,{name}") for name in PRESETS}, engine.cells())


def passing(engine):
    """What an idle drive holds beside presets and cells, in words: what a file set with SA, SO or SC, or left by starting and stopping a program."""
    record, outputs = engine.record(), engine.call("B").outputs
    found = [f"position {record.pos:+}"] if record.pos else []
    found += [f"output {name}" for name, bit in zip(OUTPUTS, outputs) if bit == "1"]
    found += ["the cam"] if record.camset else []
    return found + (["the interrupted program"] if record.reccell else [])


def program_text(presets, cells):
    """Presets and cells as a program file, in 01's order, empty cells left out. Its lines name no address, so that each goes to the AD of the first."""
    held = {address: cells[address] for address in sorted(cells) if cells[address] != EMPTY}
    rows = [(f"WS,{name},{presets[name]}", words) for name, words in PRESETS.items()]
    rows += [(f"WN,{address},{cell}", name_of(cell)) for address, cell in held.items()]
    head = f"# The presets and {counted(len(held), 'cell')}; every other cell is {EMPTY}, null and the end.\n"
    return head + "".join(f"{string:<40}# {words}\n" for string, words in rows)
