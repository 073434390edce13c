"""bin/reading compare: whether any list of calls tells two drives apart, and a shortest one that does."""

from workbench.descriptions import differences
from workbench.reading import REQUESTS, kept
from workbench.restoring import built
from workbench.trouble import Trouble, compare

EPILOG = 'The exit status is 0 where the drives are alike, 1 where something differs, and 2 for trouble. What "alike" rests on: docs/READINGS.md.'


def add_words(parser):
    parser.epilog = EPILOG
    parser.add_argument("a", metavar="A", help="a full reading")
    parser.add_argument("b", metavar="B", help="another one")


def run(options):
    return compare(lambda: told(kept(options.a), kept(options.b)))


def told(a, b):
    status, lines = compared(a, b)
    print("\n".join(lines))
    return status


def compared(a, b):
    """The exit status, and what is said. A drive is built again on the engine also where the readings are equal: demand 3 speaks only of drives that calls
    make."""
    with built(a) as one:
        if a.reading == b.reading:
            return 0, ["alike: no list of calls tells them apart"]
        with built(b) as other:
            string = telling(a.reading, b.reading)
            said = [drive.string(string).said() for drive in (one, other)]
    if said[0] == said[1]:
        raise Trouble(f"both drives answer {string} with {said[0]}, though their readings differ: report these two files")
    return 1, report(a, b, string, said)


def telling(a, b):
    """A string that two different drives answer differently. One call is the shortest list there is."""
    if a.address != b.address:
        return f"{a.address:02}QA"
    return f"{a.address:02}{next(request for request in REQUESTS if a.values[request] != b.values[request])}"


def report(a, b, string, said):
    answers = ["no answer" if answer is None else answer for answer in said]
    return [
        f"different: {a.path} against {b.path}",
        *(f"  {line}" for line in differences(a.reading, b.reading)),
        f"shown by one call, the string {string}, run on both:",
        *(f"  {side.path}: {answer}" for side, answer in zip((a, b), answers)),
    ]
