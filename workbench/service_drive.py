"""A simulated drive on a simulated line: the engine beside the second implementation, with a clock, a pulse board and a memory file of its own."""

from workbench.board import AT_SPEED, HALTED, Board
from workbench.engine import Order
from workbench.service_frames import FRESH, IMAGE, LOAD, NO_IMAGE, List
from workbench.service_pair import Pair

STANDING = Order("stand", True, 0, 0, 0, 1, False, False)
# The most milliseconds of a run, and steps, that are planned ahead in one list, and milliseconds of M words.
PLANNED, STEPS, BLOCK = 400, 20_000, 200
# The most milliseconds that a wait takes (01).
BUDGET = 1_000_000
# Images are kept within so many milliseconds of a Y, and tried again after so many.
SOON, AGAIN = 1_000, 1_000
START = 1 << 8


class File:
    """A memory file as a gateway keeps it: the present image, the one before, and one that waits to be written."""

    def __init__(self):
        self.image, self.before, self.waiting, self.due = None, None, None, 0
        self.full_until = 0

    def ask(self, image, due):
        if image != (self.image if self.waiting is None else self.waiting):
            self.due = due if self.waiting is None else self.due
            self.waiting = image

    def pass_time(self, clock, counts):
        """Writes what is due, where the disk has room."""
        while self.waiting is not None and self.due <= clock:
            if self.due < self.full_until:
                counts["saves refused"] += 1
                self.due += AGAIN
            else:
                counts["saves"] += 1
                self.before, self.image, self.waiting = self.image, self.waiting, None


class Drive:
    """The address is the one that the drive was made with; `own` is what it has now, as strings name it."""

    def __init__(self, commands, address, random, counts):
        self.random, self.counts, self.address = random, counts, address
        self.pair = Pair(commands)
        self.file = File()
        self.restore()

    @property
    def own(self):
        return f"{self.memory[0]:02}"

    def restore(self):
        """The drive after a start: from its file, or fresh where there is none."""
        image = self.file.image
        status, _ = self.pair.ask(FRESH, bytes([self.address])) if image is None else self.pair.ask(LOAD, image)
        if status:
            raise self.pair.difference(f"a drive is refused by {status}")
        self.stand()
        if image is not None and self.memory != image:
            raise self.pair.difference(f"an image of {len(image)} bytes comes back otherwise")

    def stand(self):
        """What is known of a drive that was just made: idle, all inputs off."""
        self.board, self.order, self.idle, self.owed, self.inputs = Board(), STANDING, True, 0, 0
        self.memory = self.image()

    def image(self):
        status, image = self.pair.ask(IMAGE)
        if status:
            raise self.pair.difference(f"an image is refused by {status}")
        return image

    @property
    def moving(self):
        return self.order.kind != "stand"

    # Calls.

    def perform(self, calls):
        """A list, with the order after it."""
        stopped = self.random.random() < 0.0005
        self.counts["stops"] += stopped
        seen = self.pair.perform(calls.order(), stopped)
        self.counts["words"] += len(seen)
        self.follow(seen[-1].what)
        return seen

    def follow(self, order):
        """The board begins where a run does, or where its order is of another one."""
        if order.kind == "run" and (order.hertz, order.ramp, order.forward) != (self.order.hertz, self.order.ramp, self.order.forward):
            self.board.begin(order.ramp, 1)
            self.owed = 0
        self.order = order

    def hear(self, texts, clock):
        """Strings, in one list; their answers."""
        calls = List()
        for text in texts:
            calls.string(text)
        answers = [seen.what for seen in self.perform(calls)[:-1]]
        if any(answer.endswith(b"Y\r") for answer in answers) or any(text[:2] == b"99" for text in texts):
            self.taken(clock)
        return answers

    def taken(self, clock):
        """Something was changed or started, so the drive may be busy, and its memory is asked for."""
        self.idle = False
        self.memory = self.image()
        self.file.ask(self.memory, clock + self.random.randint(0, SOON))

    def switch(self, word):
        self.inputs = word & 2047 if word <= 2047 else self.inputs
        self.perform(List().inputs(word))
        self.idle = self.idle and not word & START

    # Time.

    def advance(self, span):
        """Milliseconds, and what the board does in them. An idle drive gets none."""
        left = span
        while left > 0 and not self.idle:
            left -= self.move(left) if self.moving else self.wait(left)
        self.counts["milliseconds given"] += span - max(0, left)

    def wait(self, left):
        """Milliseconds outside a run: by a wait, or one by one as a gateway gives them, with a wait to tell whether the program has ended."""
        block = min(left - 1, self.random.randint(1, BLOCK)) if self.random.random() < 0.4 else 0
        calls = List().millisecond(block).wait(1 if block else min(left, BUDGET))
        waited = self.perform(calls)[-2]
        self.idle = waited.what == "idle"
        return block + waited.count

    def move(self, left):
        """Milliseconds of a run, planned ahead with the steps of each, up to where something happens."""
        calls = List()
        made, told = self.plan(calls, min(left, PLANNED))
        seen = self.perform(calls)
        given = sum(each.count for each in seen if each.letter == "G")
        self.counts["steps"] += given
        # A cam or a new cell ends a travel: its other steps are still to be made, if the run goes on.
        self.owed = told - given if self.moving else 0
        return made

    def plan(self, calls, most):
        """Adds the words of a run to a list; the milliseconds and steps in it."""
        rest, made, told = abs(self.order.rest), 0, self.owed
        if self.owed:
            calls.travel(self.owed)
            rest = max(0, rest - self.owed)
        while made < most and told < STEPS and not (self.order.rest and not rest):
            move = self.board.move(self.order, rest)
            if move.steps:
                calls.travel(move.steps)
            told, rest = told + move.steps, rest and rest - move.steps
            if move.report:
                calls.add({AT_SPEED: "A", HALTED: "H"}[move.report])
            if move.report or (self.order.rest and not rest):
                break
            calls.millisecond()
            made += 1
        return made, told

    # Faults.

    def load(self, image):
        """An image given to a drive in use: taken where it is one, else refused by 10 and nothing changed."""
        before = self.image()
        status, _ = self.pair.ask(LOAD, image)
        if status == 0:
            return self.stand()
        if status != NO_IMAGE or self.image() != before:
            raise self.pair.difference(f"{len(image)} bytes that are no image are refused by {status}, or changed the drive")

    def kill(self):
        """Both programs end at once, and the drive comes back from its file; what was not yet written is lost."""
        self.pair.again()
        self.file.waiting = None
        self.restore()
