"""Disks that fail: one of 64 KB that can be filled, and files that cannot be written."""

import contextlib
import subprocess
from pathlib import Path

from workbench.trouble import Trouble

SIZE = "64k"
PATIENCE = 20
FILLER = "filler"


@contextlib.contextmanager
def small_disk(folder):
    """A file system of 64 KB in a folder, as long as it is used; trouble where this user may not mount one."""
    place = Path(folder) / "disk"
    place.mkdir()
    done = subprocess.run(["mount", "-t", "tmpfs", "-o", f"size={SIZE}", "none", str(place)], capture_output=True, text=True, timeout=PATIENCE)
    if done.returncode:
        raise Trouble(f"a small disk cannot be had: {done.stderr.strip()}")
    try:
        yield place
    finally:
        # What still has a file open there is ended by its owner; the place is free at once.
        subprocess.run(["umount", "-l", str(place)], timeout=PATIENCE, capture_output=True)


def fill(place):
    """Writes until the disk takes no more."""
    with contextlib.suppress(OSError), open(Path(place) / FILLER, "wb", buffering=0) as filler:
        while filler.write(b"\0" * 1024):
            pass


def free(place):
    (Path(place) / FILLER).unlink(missing_ok=True)


def block(place, address):
    """A folder where a gateway writes the new image aside, so that it cannot."""
    (Path(place) / f"{address:02}.image.new" / "in").mkdir(parents=True, exist_ok=True)


def unblock(place, address):
    blocked = Path(place) / f"{address:02}.image.new"
    if blocked.is_dir():
        (blocked / "in").rmdir()
        blocked.rmdir()
