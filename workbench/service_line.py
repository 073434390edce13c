"""A simulated line: several drives that hear every string, with clients, noise and faults by chance, in simulated time."""

import random
from collections import Counter

from workbench import service_strings as strings
from workbench.engine import HIGHEST_ADDRESS
from workbench.reading import REQUESTS
from workbench.service_drive import START, Drive
from workbench.service_frames import CUT_WORD, LIST, LONGEST_FRAME, NO_FRAME, NO_ROOM, NO_WORD, TOO_LONG, List, framed

# Pauses between what clients do, in milliseconds: often none, seldom long.
SPANS = [0, 0, 0, 1, 1, 2, 5, 20, 60, 150, 400, 1_000]
# A program that has not ended after so many milliseconds is stopped by its client.
PATIENCE = 5_000
# One of so many actions is a fault of a program, a file or a frame.
FAULT_EVERY = 40
EE, ES, PX = 1 << 10, 1 << 9, 1 << 3
# The inputs S0 to S3, which choose the cell where ST starts.
SELECTION = 0xF0


class Line:
    """Drives on a line that hear every string, and what happens to them by chance."""

    def __init__(self, seed):
        self.random, self.counts, self.faults = random.Random(seed), Counter(), Counter()
        self.clock, self.rest, self.drives = 0, b"", []

    def begin(self, commands, drives):
        """So many drives of addresses by chance, fresh."""
        for address in self.random.sample(range(HIGHEST_ADDRESS + 1), drives):
            self.drives.append(Drive(commands, address, self.random, self.counts))

    def end(self):
        for drive in self.drives:
            drive.pair.end()

    def turn(self):
        """One action, then a pause; now and then a fault before it."""
        if self.random.randrange(FAULT_EVERY) == 0:
            fault = self.random.choice(FAULTS)
            self.faults[fault.__name__.replace("_", " ")] += 1
            fault(self, self.random.choice(self.drives))
        [action] = self.random.choices(ACTIONS, WEIGHTS)
        action(self, self.random.choice(self.drives))
        self.pass_time(self.random.choice(SPANS))

    def pass_time(self, span):
        for drive in self.drives:
            drive.advance(span)
        self.clock += span
        for drive in self.drives:
            drive.file.pass_time(self.clock, self.counts)

    def say(self, data):
        """Bytes on the line: the strings that end in them go to all drives; what is without its end waits for more."""
        texts, self.rest = strings.strings_in(self.rest + data)
        self.counts["strings"] += len(texts)
        for text in texts:
            answers = [answer for drive in self.drives for answer in drive.hear([text], self.clock) if answer]
            self.counts["answers"] += len(answers)
            self.counts["collisions"] += len(answers) > 1

    def lose(self):
        """A gap on the line: what came of a string is dropped."""
        self.rest = b""

    # What clients do.

    def program(self, drive):
        texts, cell = strings.program(self.random, drive.own)
        for text in texts:
            self.say(text)
        if self.random.random() < 0.7:
            self.say(strings.start(self.random, drive.own, cell))
        elif cell < 116:
            self.start_by_input(drive, cell)

    def start_by_input(self, drive, cell):
        word = drive.inputs & ~(START | EE | ES | SELECTION)
        drive.switch(word)
        drive.switch(word | START | (cell - 100) << 4)

    def setting(self, drive):
        self.say(strings.setting(self.random, drive.own))

    def request(self, drive):
        for _ in range(self.random.randint(1, 6)):
            self.say(strings.request(self.random, drive.own))

    def stop(self, drive):
        self.say(strings.stop(self.random, drive.own))

    def recover(self, drive):
        for text in strings.recovery(self.random, drive.own):
            self.say(text)

    def pulse(self, drive):
        """An input goes on for a while: a stop, a proximity switch, or another."""
        bit = self.random.choice([EE, ES, ES, PX, PX, 1 << self.random.randrange(11)])
        drive.switch(drive.inputs | bit)
        self.pass_time(self.random.choice(SPANS))
        drive.switch(drive.inputs & ~bit)

    def inputs(self, drive):
        word = drive.inputs
        for _ in range(self.random.randint(1, 3)):
            word ^= 1 << self.random.randrange(11)
        drive.switch(self.random.randrange(65_536) if self.random.random() < 0.02 else word)

    def near_miss(self, drive):
        self.say(strings.near_miss(self.random, drive.own))

    def other(self, drive):
        self.say(strings.other(self.random, drive.own))

    def noise(self, drive):
        self.say(strings.noise(self.random))
        if self.random.random() < 0.7:
            self.lose()

    def halves(self, drive):
        """A string in two pieces with time between them; at times the second never comes."""
        text = strings.setting(self.random, drive.own)
        cut = self.random.randrange(1, len(text))
        self.say(text[:cut])
        self.pass_time(self.random.choice(SPANS))
        if self.random.random() < 0.5:
            self.say(text[cut:])
        else:
            self.lose()

    def long_string(self, drive):
        self.say(drive.own.encode() + b"QA" + b"0" * self.random.choice([58, 59, 60, 61, 62, 200, 5_000]) + strings.END)

    def readdress(self, drive):
        """Another address, which at times is that of another drive or none."""
        wanted = self.random.choice([int(self.random.choice(self.drives).own), self.random.randint(0, HIGHEST_ADDRESS), HIGHEST_ADDRESS + 1, 99])
        self.say(f"{drive.own}WS,AD,{wanted}".encode() + strings.END)

    def reading(self, drive):
        """The full reading of a drive, in lists."""
        for at in range(0, len(REQUESTS), 40):
            texts = [f"{drive.own}{request}".encode() + strings.END for request in REQUESTS[at : at + 40]]
            self.counts["strings"] += len(texts)
            self.counts["answers"] += sum(map(bool, drive.hear(texts, self.clock)))

    def settle(self, drive):
        """Waits until the drives have ended their programs, and stops those that do not end; their board halts them first."""
        self.pass_time(self.random.randrange(PATIENCE))
        while not all(drive.idle for drive in self.drives):
            self.say(b"99EE" + strings.END)
            self.pass_time(2_000)

    # Faults.

    def kill(self, drive):
        drive.kill()

    def torn_file(self, drive):
        """A file that lost its end is refused; the one before it, or the whole one, is then brought back by hand."""
        image = drive.file.image
        if image:
            drive.pair.again()
            drive.stand()
            drive.load(image[: self.random.randrange(len(image))])
            drive.file.waiting = None
            drive.file.image = drive.file.before if drive.file.before and self.random.random() < 0.5 else image
            drive.restore()

    def damaged_file(self, drive):
        """A file with a byte changed is an image of another drive, or none."""
        image = bytearray(drive.file.image or drive.image())
        image[self.random.randrange(len(image))] ^= 1 << self.random.randrange(8)
        drive.load(bytes(image))

    def full_disk(self, drive):
        drive.file.full_until = self.clock + self.random.randint(1_000, 30_000)

    def lost_time(self, drive):
        """The host was away: what it owes is dropped, and a run is stopped, as the gateway does."""
        self.clock += self.random.randint(101, 5_000)
        for each in self.drives:
            if each.moving:
                each.hear([f"{each.own}EE".encode() + strings.END], self.clock)

    def stray_reports(self, drive):
        """What no board in order reports: steps without a run, at-speed and halted out of place."""
        calls = List()
        for _ in range(self.random.randint(1, 4)):
            calls.add(self.random.choice("PAH"))
        drive.perform(calls)

    def short_buffer(self, drive):
        """A string with too little room for an answer is refused, whatever it asks for."""
        drive.perform(List().string(strings.setting(self.random, drive.own), self.random.randrange(64)))

    def cut_frame(self, drive):
        whole = framed(LIST + List().string(f"{drive.own}QA\r".encode()).order().data())
        drive.pair.cut(whole[: self.random.randrange(1, len(whole))])
        drive.file.waiting = None
        drive.restore()

    def damaged_frame(self, drive):
        kind = bytes([self.random.choice([0, 0x4D, 0x66, 0xFF, self.random.randrange(128, 256)])])
        frame = self.random.choice([b"", kind, kind + self.random.randbytes(20), b"F", b"F\0\0", b"V\0", b"X\0"])
        self.refused(drive, framed(frame), [NO_FRAME])

    def damaged_list(self, drive):
        whole = List().string(f"{drive.own}WN,100,00,000\r".encode()).inputs(3).wait(7).data()
        wrong = [whole[:-1], whole[: self.random.randrange(1, 20)], whole + b"Z", b"m" + whole, bytes([self.random.randrange(128, 256)])]
        self.refused(drive, framed(LIST + self.random.choice(wrong)), [NO_WORD, CUT_WORD])

    def too_much_seen(self, drive):
        self.refused(drive, framed(LIST + b"B" * self.random.randint(3_856, 16_384)), [NO_ROOM])

    def too_long_frame(self, drive):
        size = LONGEST_FRAME + self.random.choice([1, 2, 1_000, 100_000])
        self.refused(drive, framed(LIST + b"M" * (size - 1)), [TOO_LONG])

    def refused(self, drive, data, statuses):
        """A frame that both refuse, and that leaves the drive as it was."""
        before = drive.image()
        answer = drive.pair.give(data)
        if len(answer) != 1 or answer[0] not in statuses or drive.image() != before:
            raise drive.pair.difference(f"a wrong frame is answered by {answer[:8]!r}, and not by one of {statuses}, or changed the drive")


# What clients do, and how often.
ACTIONS, WEIGHTS = zip(
    *[
        (Line.program, 30), (Line.setting, 12), (Line.request, 10), (Line.stop, 20), (Line.recover, 6), (Line.pulse, 24), (Line.inputs, 4), (Line.near_miss, 8),
        (Line.other, 5), (Line.noise, 4), (Line.halves, 3), (Line.long_string, 2), (Line.readdress, 1), (Line.reading, 1), (Line.settle, 4),
    ]
)  # fmt: skip
FAULTS = [
    Line.kill, Line.torn_file, Line.damaged_file, Line.full_disk, Line.lost_time, Line.stray_reports, Line.short_buffer, Line.cut_frame, Line.damaged_frame, Line.damaged_list,
    Line.too_much_seen, Line.too_long_frame,
]  # fmt: skip
