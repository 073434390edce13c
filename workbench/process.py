"""A program that takes a call a line and answers by lines."""

import contextlib
import subprocess

from workbench.trouble import Trouble


class Process:
    """The program as long as it is used; the name is for messages. What it says on standard error goes to `complaints`, where that is given."""

    def __init__(self, name, words, complaints=None):
        self.name = name
        # Apart from the tool's group of processes: a Ctrl-C is for the tool.
        self.process = subprocess.Popen(words, stdin=subprocess.PIPE, stdout=subprocess.PIPE, stderr=complaints, start_new_session=True)

    def __enter__(self):
        return self

    def __exit__(self, *_):
        self.close()

    def close(self):
        """Ends the program, which has nothing to lose, at whatever call it is."""
        self.process.kill()
        self.process.wait()
        with contextlib.suppress(OSError):
            self.process.stdin.close()
        self.process.stdout.close()

    def give(self, *calls):
        try:
            self.process.stdin.write("".join(call + "\n" for call in calls).encode())
            self.process.stdin.flush()
        except BrokenPipeError:
            raise Trouble(f"{self.name} has ended") from None

    def line(self):
        """The next line that it writes."""
        line = self.process.stdout.readline().decode(errors="backslashreplace")
        if not line:
            raise Trouble(f"{self.name} has ended")
        return line.rstrip("\n")
