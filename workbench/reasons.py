"""Why a string gets N or no answer, in words. The second implementation takes the same calls beside the engine, and its parser gives the reason."""

from typing import NamedTuple, Optional

from workbench import build
from workbench.engine import string_call, unescaped
from workbench.process import Process


class Said(NamedTuple):
    """The answer without its byte 13, None where there is none; and why, a sentence where it is N or none, else empty."""

    answer: Optional[str]
    why: str


class Reasons(Process):
    """A drive of the second implementation, made fresh."""

    def __init__(self, address=0):
        super().__init__("the second implementation", [build.reference(), "explain"])
        self.give(f"F {address}")

    def told(self, call):
        """The first word that is said of a call, and the sentence after it."""
        self.give(call)
        word, _, sentence = self.line().partition(" ")
        return word, sentence

    def string(self, text):
        word, why = self.told(string_call(text))
        return Said(None if word == "-" else unescaped(word).rstrip("\r"), why)

    def address(self):
        """The address that the drive has now."""
        record, _ = self.told("V")
        return int(record.partition(",")[0])

    def wait(self, budget):
        """How a wait ends, idle, moving or spent, and where the drive then is."""
        return self.told(f"W {budget}")
