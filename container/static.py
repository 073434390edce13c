"""The static binaries of the image: the gateway, and the engine as a program of its own."""

import os
import shutil
from pathlib import Path
from typing import NamedTuple

from container.commands import PATH, run
from workbench import build, service_build
from workbench.trouble import Trouble, say

# Sources are mounted here for a build, seen by nobody else, so that no path of a checkout is in a binary. Remapping alone does not do that: cargo takes the
# place of the client crate into the names of its symbols.
MOUNT = "/mnt"
SHOWN = "/cuminhamper"
IN_MOUNT = f'mount --bind "$1" {MOUNT} && shift && cd {MOUNT} && exec "$@"'
FLAGS = ["-C target-feature=+crt-static", f"--remap-path-prefix={MOUNT}={SHOWN}", "-C strip=symbols"]
# Variables that would turn a build into another one begin so.
FOREIGN = ("RUSTFLAGS", "RUSTC", "CARGO_BUILD_", "CARGO_ENCODED_", "CARGO_PROFILE_", "CARGO_TARGET_", "CUMINHAMPER_")
BUILDS = Path("target/static")
ARCHIVE = Path("target/staticlib/libarchive.a")
ENGINE_OBJECT = Path("crates/engine/out/engine.o")
# All that a build reads.
SOURCES = ["gateway", "client", "reference", ARCHIVE, ENGINE_OBJECT]


class Binaries(NamedTuple):
    """Each binary by its place in the image, and the environment that the image needs with them."""

    files: dict
    environment: dict


def proved(root):
    """The gateway with the proved engine linked in, and the engine as a program beside it."""
    judge_sources(root)
    gateway = cargo(root, "gateway", ["--features", "linked"])
    return Binaries({"gateway": gateway, "engine": linked_engine(root)}, {})


def second(root):
    """For trials: the gateway with the second implementation as its engine, a process for each drive."""
    judge_sources(root)
    say("image", "a trial image: its engine is the second implementation, which is not proved")
    gateway, reference = cargo(root, "gateway", []), cargo(root, "reference", [])
    return Binaries({"gateway": gateway, "engine": reference}, {"GATEWAY_ENGINE": "/engine serve"})


PROVED, REFERENCE = "proved", "reference"
ENGINES = {PROVED: proved, REFERENCE: second}


def judge_sources(root):
    for name in ("gateway", "client"):
        if not (root / name / "Cargo.toml").exists():
            raise Trouble(f"{root / name}: no Cargo.toml, and the gateway is built from there; run this in a whole checkout")


def cargo(root, crate, features):
    """Builds a crate, static. Nothing is fetched: the crates use no other than their own."""
    environment = {name: value for name, value in os.environ.items() if not name.startswith(FOREIGN)}
    environment.update(PATH=PATH, RUSTFLAGS=" ".join(FLAGS), CARGO_INCREMENTAL="0")
    words = ["cargo", "build", "--release", "--locked", "--offline", "--quiet", "--jobs", "2"]
    words += ["--manifest-path", f"{MOUNT}/{crate}/Cargo.toml", "--target-dir", f"{MOUNT}/{BUILDS}", *features]
    (root / BUILDS).mkdir(parents=True, exist_ok=True)
    mounted = ["unshare", "--mount", "--propagation", "private", "sh", "-c", IN_MOUNT, "sh", root]
    run([*mounted, *words], f"building {crate} static", name="cargo", env=environment)
    return judged(root / BUILDS / "release" / crate)


def judged(binary):
    """A binary that names a loader would not start in an image that has none."""
    said = run(["readelf", "--program-headers", "--wide", binary], f"looking at {binary}")
    if "INTERP" in said:
        raise Trouble(f"{binary} is linked dynamically, and the image has no loader; see whether the C library's static part is installed")
    return binary


def linked_engine(root):
    """The proved object of the program engine, linked static with what it calls of the toolchain's C code."""
    binary = root / BUILDS / "engine"
    binary.parent.mkdir(parents=True, exist_ok=True)
    words = ["gcc", "-static", "-s", "-Wl,--build-id=none", "-o", binary, root / ENGINE_OBJECT]
    words += [service_build.kit() / "c/libos_c.a", service_build.kit() / "c/liblibc_c.a"]
    run(words, "linking engine static")
    return judged(binary)


def copied(root, copy):
    """Copies all that a build reads, and nothing that one has left."""
    for name in SOURCES:
        source, target = root / name, copy / name
        target.parent.mkdir(parents=True, exist_ok=True)
        if source.is_dir():
            shutil.copytree(source, target, ignore=shutil.ignore_patterns("target"))
        elif source.exists():
            shutil.copy(source, target)


# What is proved first.


def prove(root):
    """Proves the engine and writes its library and its program, where they are missing or older than their crates."""
    build.program("engine")
    if not (root / ENGINE_OBJECT).exists():
        # `rt ci` has taken the program from an earlier run.
        with build.locked() as lock:
            build.prove(["engine"], lock, f"{ENGINE_OBJECT} is not there")
    build.build_where(service_build.stale_library, service_build.make_library)
