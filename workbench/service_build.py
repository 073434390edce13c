"""The gateway and the library of the engine, built where they are missing or older than their sources."""

import os
import shutil
import subprocess
import time
from pathlib import Path

from workbench import build
from workbench.build import ROOT
from workbench.trouble import Trouble, say

MANIFEST = ROOT / "gateway/Cargo.toml"
ARCHIVE = "archive"
# Where the embedder finds the library, and the one function that it has.
LIBRARY = build.TARGET / "staticlib/libarchive.a"
EXPORTED = "cuminhamper_serve"


def library():
    """The proved engine as a library, made where it is missing or older than its crates; one that CUMINHAMPER_LIB names is taken as it is."""
    if "CUMINHAMPER_LIB" in os.environ:
        return
    build.build_where(stale_library, make_library)


def stale_library():
    if not LIBRARY.exists():
        return "is not built yet"
    return "is older than its crates" if build.is_behind(LIBRARY, ARCHIVE) else ""


def make_library(lock, reason):
    """Proves and builds the library, and puts it where the embedder finds it."""
    began, reason = time.time(), f"the library {reason}"
    *below, _ = build.with_uses([ARCHIVE])
    if all(map(stands, below)):
        build.needed("rt", "the Rattle toolchain, which proves and builds the engine", reason)
        say("build", f"{reason}: it is proved and built over the crates below it, which are")
        build_over(below)
    else:
        build.prove([ARCHIVE], lock, reason)
    LIBRARY.parent.mkdir(exist_ok=True)
    join(build.out(ARCHIVE) / LIBRARY.name)
    build.date(LIBRARY, began)


def stands(name):
    """Whether a crate is proved and built for those above it, as `rt ci` leaves it."""
    made = rlib(name) / "format"
    return made.exists() and not build.is_behind(made, name)


def rlib(name):
    return build.out(name) / "rlib" / f"{name}.rlib"


def kit():
    """The folder of the toolchain."""
    return Path(shutil.which("rt")).resolve().parent.parent


def build_over(below):
    """What `rt lib` does where all below is built, which it would build anew where `rt ci` has done it."""
    words = [kit() / "bin/rattle", "build", "--crate-name", ARCHIVE, "--crate-type", "staticlib", "src/lib.rt", "--extern", f"std={kit()}/rlibs/std.rlib"]
    for name in below:
        words += ["--extern", f"{name}={rlib(name)}", "-L", f"dependency={rlib(name).parent}"]
    words += ["-L", f"dependency={kit()}/rlibs", "--antt-project", kit() / "rattle/logic/antt-project.json", "--logic-built", kit() / "logic_built"]
    words += ["--toolchain", kit() / "toolchain", "--backend", "llvm", "-o", f"out/{LIBRARY.name}"]
    build.out(ARCHIVE).mkdir(exist_ok=True)
    said_well(words, "the library is not built", ROOT / "crates" / ARCHIVE)


def join(made):
    """The library with what it calls of the toolchain's C code, as one object that shows one function."""
    one = LIBRARY.with_name("archive.o")
    parts = [kit() / "c/libos_c.a", kit() / "c/liblibc_c.a"]
    said_well(["ld", "-r", "-o", one, "--whole-archive", made, "--no-whole-archive", *parts], "the library is not joined")
    said_well(["objcopy", f"--keep-global-symbol={EXPORTED}", one], "the library is not joined")
    LIBRARY.unlink(missing_ok=True)
    said_well(["ar", "rcsD", LIBRARY, one], "the library is not joined")
    one.unlink()


def said_well(words, trouble, folder=ROOT):
    done = subprocess.run(list(map(str, words)), cwd=folder, stdin=subprocess.DEVNULL, stdout=subprocess.PIPE, stderr=subprocess.STDOUT, text=True)
    if done.returncode:
        raise Trouble(f"{trouble}: {done.stdout.strip()[-2000:]}")


def built(engine):
    """The gateway with the proved engine linked in, or where a program serves its drives, without."""
    if not engine:
        library()
    features = [] if engine else ["--features", "linked"]
    folder = ROOT / "gateway/target" / ("plain" if engine else "")
    words = ["cargo", "build", "--release", "--offline", "--quiet", "--manifest-path", str(MANIFEST), "--target-dir", str(folder), *features]
    done = subprocess.run(words, stdin=subprocess.DEVNULL, stdout=subprocess.PIPE, stderr=subprocess.STDOUT, text=True)
    if done.returncode:
        raise Trouble(f"the gateway is not built: {done.stdout.strip()[-2000:]}")
    return str(folder / "release/gateway")
