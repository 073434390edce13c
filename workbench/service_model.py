"""A drive of the second implementation as a model of one on a line: what it answers, and how a run that was watched from outside left it."""

from workbench.service_frames import FRESH, IMAGE, LIST, LOAD, List, Server, framed, seen_of
from workbench.trouble import Trouble

# Milliseconds of one wait, steps of one travel, and calls after which a program is taken for endless.
WAIT, TRAVEL, ENDLESS = 10_000, 100_000, 2_000


class Model:
    def __init__(self, command, address):
        self.server = Server("the second implementation", command)
        self.ask(FRESH + bytes([address]))

    def close(self):
        self.server.kill()

    def ask(self, body):
        self.server.send(framed(body))
        answer = self.server.receive()
        if answer is None or answer[0]:
            raise Trouble(f"the second implementation refuses {body[:1]!r} by {answer and answer[0]}")
        return answer[1:]

    def perform(self, calls):
        return seen_of(calls.letters, self.ask(LIST + calls.data()))

    def hear(self, text):
        """The answer to a string."""
        return self.perform(List().string(text))[0].what

    def image(self):
        return self.ask(IMAGE)

    def restore(self, image):
        """The drive after a start of its host."""
        self.ask(LOAD + image)

    def run_to_the_end(self):
        """A program that ends by itself, with whatever runs it has; false where it does not end."""
        for _ in range(ENDLESS):
            waited, _ = self.perform(List().wait(WAIT).travel(TRAVEL))
            if waited.what == "idle":
                return True
        return False

    def run_and_stop(self, steps):
        """The run of the present cell is begun, makes so many steps and is stopped by an emergency stop."""
        self.perform(List().millisecond().travel(steps))
        self.hear(b"99EE\r")
        # Where the run ended with its last step, there is nothing to halt.
        self.perform(List().halted())
