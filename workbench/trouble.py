"""What goes wrong, told in one sentence, and how a tool ends."""

import os
import signal
import sys

# Statuses: something asked for did not go well; the words of the command line are wrong; interrupted.
FAILED, WRONG_WORDS, INTERRUPTED = 1, 2, 130


class Trouble(Exception):
    """One sentence for the user, which says what to do instead."""

    status = FAILED


class WrongWords(Trouble):
    """The words of the command line cannot be followed."""

    status = WRONG_WORDS


def say(tool, text):
    print(f"{tool}: {text}", file=sys.stderr, flush=True)


def run(tool, work):
    """Runs a tool's work, a function that gives its exit status or None for 0, and exits. Trouble is one line on standard error."""
    signal.signal(signal.SIGTERM, signal.default_int_handler)
    # Python has None for a stream that was closed before the start, and prints what goes there to standard output.
    sys.stderr = sys.stderr or open(os.devnull, "w")
    try:
        if sys.stdout is None:
            raise Trouble("standard output is closed")
        status = work() or 0
        sys.stdout.flush()
    except Trouble as trouble:
        status = trouble.status
        say(tool, trouble)
    except KeyboardInterrupt:
        status = INTERRUPTED
        say(tool, "interrupted")
    except BrokenPipeError:
        status = FAILED
        say(tool, "standard output was closed before all was written")
    except OSError as error:
        status = FAILED
        say(tool, f"{error.filename or 'standard output'}: {error.strerror or error}")
    leave(status)


def compare(work):
    """Runs a comparison, which gives 0 or 1. As diff(1) has it, 2 and not 1 says that nothing was compared."""
    try:
        status = work()
        sys.stdout.flush()
        return status
    except Trouble as trouble:
        raise WrongWords(str(trouble)) from None
    except OSError as error:
        raise WrongWords(f"{error.filename or 'standard output'}: {error.strerror}") from None


def leave(status):
    """Exits without a second complaint about an output that takes no more."""
    try:
        if sys.stdout:
            sys.stdout.flush()
    except OSError:
        os.dup2(os.open(os.devnull, os.O_WRONLY), sys.stdout.fileno())
    sys.exit(status)
