"""Words about long work, in one line of a terminal that is written over."""

import sys


def progress(text):
    """Shows a text in place of the last one; an empty one leaves the line free. Where standard error is no terminal, nothing is written."""
    if sys.stderr.isatty():
        print(f"\r\x1b[K{text}", end="", file=sys.stderr, flush=True)
