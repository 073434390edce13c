"""The table of a run: a line for whatever happens, written as it happens."""

from typing import NamedTuple

from workbench.engine import OUTPUTS

HEAD = ("time ms", "what happens", "cell", "phase", "order", "position", "outputs on")
# Emergency slowing in one word, so that the lines stay short.
SHORT = {"emergency slowing": "emergency"}


class Row(NamedTuple):
    """A line: when, what and at which cell; then phase, order, position and outputs as they are after it."""

    time: int
    what: str
    cell: str
    phase: str
    order: str
    position: str
    outputs: str

    def text(self):
        what, cell, phase, order, position, outputs = self[1:]
        return f"{self.time:>7}  {what:<36} {cell:>4}  {phase:<9}  {order:<28}  {position:>8}  {outputs}".rstrip()


class Table:
    """Writes rows. Where one comes again and again, the last time is told with the number of times."""

    def __init__(self, out):
        self.out = out
        self.last, self.again = None, 0
        self.line(Row(*HEAD).text())

    def line(self, text):
        self.out.write(text + "\n")

    def row(self, row):
        if self.last and row[1:] == self.last[1:]:
            self.last, self.again = row, self.again + 1
            return
        self.repeats()
        self.line(row.text())
        self.last = row

    def repeats(self):
        """What has come again since the last line."""
        if self.again == 1:
            self.line(self.last.text())
        elif self.again:
            self.line(self.last._replace(what=f"the same again, {self.again} times").text())
        self.again = 0

    def end(self, text):
        """The last line."""
        self.repeats()
        self.last = None
        self.line(text)


def row_of(time, what, cell, record, order, outputs):
    phase = record.phase_name()
    return Row(time, what, str(cell or "-"), SHORT.get(phase, phase), order_text(order), f"{record.pos:+}", " ".join(on(outputs)) or "-")


def on(outputs):
    """The names of the outputs that are on."""
    return [name for name, bit in zip(OUTPUTS, outputs) if bit == "1"]


def order_text(order):
    """An order in words. IN, CU and FC are left out: the preset does not change in a run, the others are outputs."""
    if order.kind != "run":
        return order.kind
    ramp = f" ramp {order.ramp}" if order.ramp else ""
    rest = f" rest {abs(order.rest)}" if order.rest else ""
    return f"{'+' if order.forward else '-'}{order.hertz} Hz{ramp}{rest}"
