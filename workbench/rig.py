"""A test rig: a drive of the proved engine with a simulated clock, pulse board and inputs. All that is told of the drive, the engine has said.

What happens between one millisecond and the next, the steps and what the board reports, is told with the time of the next."""

from itertools import islice

from workbench.board import AT_SPEED, HALTED, Board
from workbench.engine import ALL_DRIVES, INPUTS, PHASES, Record, seen_of
from workbench.instructions import EMPTY, ERRORS
from workbench.ranges import in_words
from workbench.reasons import Reasons
from workbench.table import row_of
from workbench.trouble import Trouble

# So many milliseconds outside a run are asked for at once, and about so many calls of a run.
AT_ONCE, CALLS = 16, 4000
# The most milliseconds that a wait takes (01).
BUDGET = 1_000_000
WAITING, DELAY, RUN, BRAKING, SLOWING, EMERGENCY, BACK = range(len(PHASES))
DELAYED, RECOVERY = "65", "69"
# The bit of ST, which would start a program.
START = 1 << INPUTS.index("ST")


class Rig:
    """The drive is idle at first. The table and the trace are told what happens."""

    def __init__(self, engine, schedule, limit, table, trace):
        self.engine, self.schedule, self.limit, self.table, self.trace = engine, schedule, limit, table, trace
        self.board, self.forward = Board(), True
        self.time, self.steps = 0, 0
        self.cells = engine.cells()
        # What a user should know of the schedule, sentences.
        self.notes = []
        self.record = engine.record()
        self.look()

    # What is seen, and told.

    def look(self):
        """Record, order and outputs as they are now; gives the record before."""
        return self.see(self.engine.call("V"))

    def see(self, seen):
        before, self.record = self.record, Record(*map(int, seen.answer.split(",")))
        self.order, self.outputs = seen.order, seen.outputs
        self.position = self.record.pos
        turned = self.record.phase == BACK and before.phase != BACK
        if self.record.moving and (turned or not before.moving):
            self.begin()
        return before

    def begin(self):
        """A run begins. The order does not name the multiplier, which goes for the ramp as well, so it is looked up in the cell."""
        self.forward = self.order.forward
        self.board.begin(self.order.ramp, 4 if ",x4," in self.cells[self.record.cell] else 1)

    def tell(self, at, what, before):
        """A line for what happened at a time, with what came of it, and further lines for what ends a program."""
        came = consequences(before, self.record)
        if what:
            self.row(at, f"{what}: {', '.join(came)}" if came else what, before.cell or self.record.cell)
        for text, cell in self.endings(before):
            self.row(at, text, cell)
        self.trace.see(at, self.record, self.outputs)

    def row(self, at, what, cell):
        self.table.row(row_of(at, what, cell, self.record, self.order, self.outputs))

    def endings(self, before):
        """What goes with the end of a program: the interruption that is kept, and the error that is noted."""
        after = self.record
        if after.reccell and (after.reccell, after.recrest, after.recloop) != (before.reccell, before.recrest, before.recloop):
            yield f"interrupted{self.rest_text(after)}", after.reccell
        if after.errcode and not before.errcode:
            yield f"error {after.errcode}: {ERRORS[after.errcode]}", after.errcell
        if after.idle and not before.idle:
            yield "program ended", before.cell

    def rest_text(self, record):
        unit = " ms" if self.cells[record.reccell].startswith(DELAYED) else ""
        return f", rest {record.recrest:+}{unit}" if record.recrest else ""

    # What comes from outside.

    def start(self, cell):
        """Starts a program. Lines of time 0 come first, so that inputs and presets are then as wanted."""
        self.come_due()
        if self.cells[cell] == EMPTY:
            self.notes.append(f"cell {cell} is empty, so the program ends there; cells that hold something: {written(self.cells)}")
        answer = self.send(0, f"PS,{cell}")
        if answer is None:
            raise Trouble(f"a line of 0 ms has started a program already, so {cell} is not started; give ST=1 or PS in {self.schedule.path} a time above 0")
        if not answer.endswith("Y"):
            raise Trouble("the program is not started, since input EE is on at 0 ms; give EE=1 a later time")

    def come_due(self):
        """The lines of the schedule whose time has come."""
        while self.schedule.next_time() is not None and self.schedule.next_time() <= self.time:
            self.happen(self.time)

    def happen(self, at):
        line = self.schedule.take(at)
        if line.kind == "clock" and line.when < at:
            self.notes.append(f"{self.schedule.path}:{line.number}: due at {line.when} ms, it came at {at} ms, since it waits for the line above it")
        if line.string is None:
            self.change(at, line.changes)
        else:
            self.trace.string(at, line.string)
            self.judge(line, self.record, self.send(at, line.string))

    def judge(self, line, before, answer):
        """Notes a string that got N or no answer, with why: an idle drive of the same address and inputs is asked, and what that one answers otherwise, a busy one does not hear."""
        string = self.addressed(line.string, before)
        if string.startswith(ALL_DRIVES) or (answer and answer[2:] != "N"):
            return
        with Reasons(before.ad) as reasons:
            reasons.give(f"I {before.inp & ~START}")
            said = reasons.string(string)
        why = said.why if said.answer == answer else "the drive was busy, and hears only EE and ES then"
        self.notes.append(f"{self.schedule.path}:{line.number}: {string} got {answer or 'no answer'}: {why}")

    def change(self, at, changes):
        word = self.record.inp
        for name, value in changes.items():
            bit = 1 << INPUTS.index(name)
            word = word | bit if value else word & ~bit
        self.engine.inputs(word)
        before = self.look()
        self.tell(at, ", ".join(f"{name} {'on' if value else 'off'}" for name, value in changes.items()), before)

    def send(self, at, text):
        """A string, with the drive's address in front where it has none; gives the answer."""
        string = self.addressed(text, self.record)
        answer = self.engine.string(string).said()
        before = self.look()
        if answer and string[2:4] == "WN":
            self.cells = self.engine.cells()
        self.tell(at, f"{string} gets {answer or 'no answer'}", before)
        return answer

    def addressed(self, text, record):
        return text if text[:2].isdigit() else f"{record.ad:02}{text}"

    # Time.

    def turn(self):
        """Goes on to the next thing that happens, or part of the way; at least a millisecond, or to the end of a run within one."""
        if self.record.moving:
            self.move()
        elif self.record.phase == DELAY:
            self.delay()
        else:
            self.wait()

    def horizon(self):
        """The milliseconds up to the next line of the schedule, or to the limit."""
        upcoming = self.schedule.next_time()
        return (self.limit if upcoming is None else min(self.limit, upcoming)) - self.time

    def wait(self):
        """Milliseconds that take cells. Several are asked for at once, since a wait gives none once a run is under way or the drive is idle."""
        lines = self.engine.calls(["W 1", "V"] * min(AT_ONCE, self.horizon()))
        for waited, seen in zip(lines[::2], lines[1::2]):
            if waited.count == 0:
                return
            self.time += 1
            before = self.see(seen)
            if before.phase == WAITING:
                self.taken(before)
            elif self.record.idle:
                self.tell(self.time, "", before)

    def taken(self, before):
        """A cell was taken; by a 69, the interrupted one in the same millisecond."""
        text = self.cells[before.cell]
        self.trace.taken(self.time, before.cell)
        if text.startswith(RECOVERY) and before.reccell:
            self.row(self.time, f"takes {text}, recovers {before.reccell}{self.rest_text(before)}", before.cell)
            before = before._replace(cell=before.reccell)
            self.trace.taken(self.time, before.cell)
        self.tell(self.time, f"takes {self.cells[before.cell]}", before)

    def delay(self):
        waited = self.engine.call(f"W {min(self.record.rest, self.horizon(), BUDGET)}")
        self.time += waited.count
        self.tell(self.time, "", self.look())

    # Motion.

    def move(self):
        quiet, eventful = self.planned()
        self.make(quiet)
        if eventful:
            self.make_eventful(eventful)

    def planned(self):
        """The next milliseconds in which nothing but steps happens, and the one after them in which something does, if it is near."""
        rest, room, moves, calls = abs(self.record.rest), self.room(), [], 0
        for _ in range(self.horizon()):
            move = self.board.move(self.order, rest)
            if move.report or (rest and move.steps == rest) or (room and move.steps >= room):
                return moves, move
            moves.append(move)
            rest, room = rest and rest - move.steps, room and room - move.steps
            calls += move.steps + 1
            if calls > CALLS:
                break
        return moves, None

    def room(self):
        """The steps to the position that the schedule waits for, 0 where it waits for none. Positions go round at the ends of 32 bits."""
        place = self.schedule.place()
        if place is None:
            return 0
        away = place - self.record.pos if self.forward else self.record.pos - place
        return away % 2**32 or 2**32

    def make(self, moves):
        """Milliseconds of steps, each ended by the clock."""
        calls = [call for move in moves for call in [*"P" * move.steps, "M"]]
        lines = self.engine.lines([*calls, "V"])
        for move in moves:
            self.step(lines, move.steps, self.time + 1)
            next(lines)
            self.time += 1
            self.trace.moved(self.time, self.position, 1 if self.forward else -1, move)
        self.see(seen_of(next(lines)))

    def step(self, lines, count, at):
        """Steps, as they are seen."""
        for line in islice(lines, count):
            self.position += 1 if self.forward else -1
            self.steps += 1
            if line[0] != "-":
                raise Trouble(f"the engine refused a step at {at} ms, which is a fault of this tool: please report the program and the schedule")
            if not line.endswith(self.outputs):
                self.cam(at, seen_of(line))
        self.position = (self.position + 2**31) % 2**32 - 2**31

    def cam(self, at, seen):
        """A step that changes an output: O3, by the cam."""
        self.order, self.outputs = seen.order, seen.outputs
        self.record = self.record._replace(pos=self.position, camset=0)
        self.row(at, f"cam: O3 {'on' if seen.outputs[3] == '1' else 'off'}", self.record.cell)
        self.trace.changed(at, self.record, self.outputs)

    def make_eventful(self, move):
        """A millisecond in which a run ends, the board reports or a line of the schedule happens."""
        at, left = self.time + 1, move.steps
        self.trace.moved(at, self.position + (left if self.forward else -left), 1 if self.forward else -1, move)
        while left and self.record.moving:
            left -= self.some_steps(at, left)
        self.report(at, move.report)
        if self.record.moving:
            self.engine.call("M")
        # Where the drive waits at a cell, the millisecond that takes it is this one.
        if self.record.moving or self.record.idle:
            self.time += 1

    def some_steps(self, at, left):
        """Steps up to where something happens, which then happens; gives their number."""
        room = self.room()
        count = min(number for number in (left, abs(self.record.rest), room) if number)
        lines = self.engine.lines([*"P" * count, "V"])
        self.step(lines, count, at)
        before = self.see(seen_of(next(lines)))
        if not self.record.moving:
            self.tell(at, "last step", before)
        if count == room:
            self.happen(at)
        return count

    def report(self, at, report):
        """What the board reports, unless a line of the schedule has come before it."""
        if report == AT_SPEED and self.record.phase in (RUN, BRAKING) and self.order.ramp:
            self.engine.call(AT_SPEED)
            self.tell(at, "at speed", self.look())
        elif report == HALTED and self.order.kind == "slow":
            self.engine.call(HALTED)
            self.tell(at, "halted", self.look())


def written(cells):
    held = [cell for cell, text in cells.items() if text != EMPTY]
    return in_words(held) if held else "none"


def consequences(before, after):
    """What a call brought about, beside the end of a program."""
    if before.idle and not after.idle:
        return ["started"]
    if before.moving and not after.moving:
        return ["run ended"]
    return [PHASES[after.phase]] if after.phase != before.phase and after.phase > RUN else []
