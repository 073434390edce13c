"""Files that a tool makes, each whole or not at all."""

import os
import stat
import sys

from workbench.trouble import Trouble, WrongWords

STANDARD_OUTPUT = "-"


def judge(out, *sources):
    """Refuses, before any work, an output that would take the place of a file that it is made of, or that has no folder to be written in."""
    if out is None or out == STANDARD_OUTPUT:
        return
    for source in sources:
        if source and os.path.exists(source) and os.path.exists(out) and os.path.samefile(source, out):
            raise WrongWords(f"{out} is a file that this is made of, and would be lost; name another to write")
    folder = os.path.dirname(os.path.realpath(out))
    if not os.path.isdir(folder):
        raise Trouble(f"{out}: no folder {folder} is there; name a file in one that is")


def save(path, data):
    """Writes bytes to a file, or to standard output. The old file stays as it was until the new one is whole on the disk."""
    if path == STANDARD_OUTPUT:
        return put_out(data)
    try:
        # A device or a pipe is written into: a rename would take its place.
        if os.path.exists(path) and not os.path.isfile(path):
            return put_into(path, data)
        replace(os.path.realpath(path), data)
    except OSError as error:
        kept = "; the file is as it was" if os.path.isfile(path) else ""
        raise Trouble(f"{path}: {error.strerror}{kept}; name another that can be written") from None


def put_out(data):
    sys.stdout.buffer.write(data)
    sys.stdout.buffer.flush()


def put_into(path, data):
    with open(path, "wb") as file:
        file.write(data)


def replace(path, data):
    """Writes a file beside the old one, and gives it the old one's name and mode."""
    aside = f"{path}.{os.getpid()}.new"
    try:
        with open(aside, "xb") as file:
            file.write(data)
            file.flush()
            os.fsync(file.fileno())
            if os.path.exists(path):
                os.fchmod(file.fileno(), stat.S_IMODE(os.stat(path).st_mode))
        os.replace(aside, path)
    except BaseException:
        if os.path.exists(aside):
            os.unlink(aside)
        raise
