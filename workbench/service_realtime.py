"""bin/soak --gateway MINUTES: a gateway in real time, with clients and faults by chance. Its answers are compared with a model where they do not hang on the time."""

import contextlib
import random
import sys
import tempfile
import time
from collections import Counter

from workbench import build
from workbench import service_strings as strings
from workbench.engine import HIGHEST_ADDRESS
from workbench.reading import PASSING, REQUESTS
from workbench.service_build import built
from workbench.service_disk import small_disk
from workbench.service_gateway import Gateway
from workbench.service_model import Model
from workbench.service_realtime_faults import FAULTS, restart, unblock_saves
from workbench.trouble import FAILED, Trouble

# The gateway drops half a string after so many milliseconds, and makes up so many where a loaded machine holds it up; pauses are longer.
GAP, CATCH_UP = 100, 500
# A string that nothing answers is followed by the next after so many seconds.
QUIET = 0.05
# Seconds that a program, and a stop, may take.
SOON = 60
# So many steps of 3,000 Hz are no sooner over than a stop comes.
FAR = 60_000
REPORTED = 10
OFTEN = 30


def run(options):
    program, model = options.program or built(options.engine), [build.reference(), "serve"]
    print(f"seed {options.seed}, {options.gateway:g} minutes of a gateway with {options.drives} drives", flush=True)
    with tempfile.TemporaryDirectory() as folder, contextlib.ExitStack() as stack:
        disk = disk_of(folder, stack)
        addresses = random.Random(options.seed).sample(range(HIGHEST_ADDRESS + 1), options.drives)
        words = ["--gap", str(GAP), "--catch-up", str(CATCH_UP)]
        gateway = Gateway(program, folder, *words, addresses=",".join(map(str, addresses)), engine=options.engine, state=disk)
        models = {address: Model(model, address) for address in addresses}
        for each in models.values():
            stack.callback(each.close)
        realtime = Realtime(stack.enter_context(gateway), models, options.seed, bool(disk))
        realtime.go(options.gateway * 60)
        return realtime.report()


def disk_of(folder, stack):
    """A disk of its own that can be filled, or nothing where none can be had; saves are then blocked otherwise."""
    try:
        return stack.enter_context(small_disk(folder))
    except Trouble as trouble:
        print(f"{trouble}; saves are blocked by a folder in their way instead", flush=True)
        return None


class Realtime:
    """The gateway, a model for each drive, and of each the images that it had, with the time since when."""

    def __init__(self, gateway, models, seed, disk):
        self.gateway, self.models, self.disk, self.random = gateway, models, disk, random.Random(seed)
        self.counts, self.faults, self.differences = Counter(), Counter(), 0
        # A drive that was never changed has no file, and is a fresh one.
        self.fresh = {address: model.image() for address, model in models.items()}
        self.images = {address: [(time.monotonic(), image)] for address, image in self.fresh.items()}
        # Whether saves are held up, and when the gateway was last let go on.
        self.blocked, self.resumed = False, 0.0
        self.client = gateway.client()
        self.told = time.monotonic()

    def go(self, seconds):
        end = time.monotonic() + seconds
        while time.monotonic() < end and self.differences < REPORTED:
            own = self.random.choice(list(self.models))
            acts = {**CLIENTS, **FAULTS}
            [act] = self.random.choices(list(acts), list(acts.values()))
            act(self, own)
            if act in FAULTS:
                self.faults[act.__name__.replace("_", " ")] += 1
            self.progress(end)
        unblock_saves(self)
        self.compare_all("at the end")

    def progress(self, end):
        if time.monotonic() - self.told > OFTEN:
            self.told = time.monotonic()
            print(f"bin/soak: {max(0, end - self.told):.0f} s to go, {self.counts['strings']} strings, {sum(self.faults.values())} faults", file=sys.stderr, flush=True)

    def differ(self, what, expected, came):
        """A difference, with what the gateway has logged last."""
        self.differences += 1
        print(f"{what}: expected {expected!r}, came {came!r}", flush=True)
        print("".join(f"  {line}\n" for line in self.gateway.log().splitlines()[-3:]), end="", flush=True)

    def expect(self, what, expected, came):
        if expected != came:
            self.differ(what, expected, came)

    # Strings.

    def say(self, text):
        """A string to the gateway and to every model: one answer is that of the line, of several none."""
        answers = [answer for answer in (model.hear(text) for model in self.models.values()) if answer]
        expected = answers[0].decode()[:-1] if len(answers) == 1 else None
        self.client.send(text)
        came = self.client.answer(SOON if expected is not None else QUIET)
        self.counts["strings"] += 1
        self.counts["answers"] += came is not None
        self.expect(f"{text!r}", expected, came)
        if answers or text.startswith(b"99"):
            self.note_images()
        return came

    def note_images(self):
        for address, model in self.models.items():
            image = model.image()
            if image != self.images[address][-1][1]:
                self.images[address].append((time.monotonic(), image))

    def settings(self, own):
        address = f"{own:02}"
        for _ in range(self.random.randint(1, 12)):
            kind = self.random.randrange(6)
            text = [strings.setting, strings.request, strings.near_miss, strings.other, strings.stop, strings.setting][kind](self.random, address)
            self.say(text)

    def cells(self, own):
        for text in strings.program(self.random, f"{own:02}")[0]:
            self.say(text)

    # Programs.

    def program(self, own):
        """A program that ends by itself leaves gateway and model alike."""
        texts, cell = strings.ending_program(self.random, f"{own:02}")
        # Where it stands is near by, so that absolute runs end soon too.
        for text in [f"{own:02}SA,+{self.random.randrange(200)}\r".encode(), *texts]:
            self.say(text)
        lost = self.lost()
        self.say(strings.start(self.random, f"{own:02}", cell))
        if not self.models[own].run_to_the_end():
            raise Trouble(f"a program from {cell} does not end in the second implementation: {texts}")
        self.counts["programs"] += 1
        self.idle(own)
        if self.lost() == lost:
            return self.compare(own, PASSING)
        # The machine has held the gateway up for so long that it had to stop the run.
        self.counts["programs held up"] += 1
        restart(self, own)

    def lost(self):
        return self.gateway.metrics()["lost"]

    def idle(self, own):
        """Waits until a drive has ended its program."""
        if not self.client.idle(f"{own:02}", SOON):
            self.differ(f"drive {own:02} after {SOON} s", "idle", "silent")

    def long_run(self, own):
        """Starts a run of FAR steps from position 0; the model is started too, and makes no step yet."""
        address = f"{own:02}"
        for text in ("WS,CM,0", "SC,0", "SA,+0", f"WN,100,01,03,20,+{FAR},x1,000"):
            self.say(f"{address}{text}\r".encode())
        self.say(f"{address}PS,100\r".encode())

    def stopped(self, own, what):
        """After a stop: the steps made and those left are the run; the model is brought to the same place."""
        self.idle(own)
        made = self.value(own, "QA")
        self.models[own].run_and_stop(made)
        self.counts["runs stopped"] += 1
        if not 0 <= made < FAR:
            self.differ(what, f"a position from 0 to {FAR}", made)
        self.compare(own, PASSING)

    def value(self, own, request):
        answer = self.client.ask(f"{own:02}{request}", SOON)
        return int(answer.rsplit(",", 1)[1]) if answer else 0

    def stop(self, own):
        self.long_run(own)
        time.sleep(self.random.random())
        self.client.send(f"{own:02}EE\r".encode())
        self.expect("an emergency stop", f"{own:02}Y", self.client.answer(SOON))
        self.stopped(own, "after an emergency stop")

    # Comparisons.

    def compare(self, own, requests):
        for request in requests:
            self.say(f"{own:02}{request}\r".encode())

    def compare_all(self, what):
        before = self.differences
        for own in self.models:
            self.compare(own, REQUESTS)
        self.counts["full readings"] += len(self.models)
        if self.differences > before:
            print(f"{what}: {self.differences - before} answers of full readings differ", flush=True)

    def report(self):
        metrics = self.gateway.metrics()
        told = {**self.counts, "faults": sum(self.faults.values())}
        print(", ".join(f"{count:,} {name}" for name, count in told.items()))
        print(f"faults: {', '.join(f'{count} {name}' for name, count in sorted(self.faults.items())) or 'none'}")
        print("since the last start: " + ", ".join(f"{name} {metrics[name]}" for name in ("ms", "lost", "late_max", "strings", "steps", "overrun", "saves", "save_errors")))
        print(f"{self.differences} differences")
        return FAILED if self.differences else 0


# What is done, and how often.
CLIENTS = {Realtime.settings: 20, Realtime.cells: 10, Realtime.program: 20, Realtime.stop: 6}
