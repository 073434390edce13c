"""A runc bundle of the image: read-only, no network, no capability, a list of system calls, and two bound directories or a directory and a tty."""

import json
import os
import re
import stat
from pathlib import Path
from typing import NamedTuple

from container import layout
from container.commands import run
from workbench.trouble import Trouble

HERE = Path(__file__).resolve().parent
TEMPLATE, SYSCALLS = HERE / "config.json", HERE / "syscalls.txt"
CONTROLLERS, MOUNTED = Path("/sys/fs/cgroup"), Path("/proc/self/mountinfo")
TTY = "/dev/line"
BOUND = ["bind", "rw", "nosuid", "noexec", "rprivate"]
# What a call outside the list gets: "function not implemented", as on a kernel without it. The C library then takes an older call where it knows one, and the
# gateway logs what failed. To be killed for it would end a run without EE.
REFUSED = {"defaultAction": "SCMP_ACT_ERRNO", "defaultErrnoRet": 38}
# The flags by which clone makes namespaces.
NEW_NAMESPACES = 0x7E020000


class Place(NamedTuple):
    """What differs between containers: the directory of the socket or the tty, that of the memory files, and further words for the gateway."""

    line: Path
    state: Path
    words: list
    tty: bool = False


def make(path, image, place, limits):
    """Unpacks the image into a new bundle, with its configuration."""
    if path.exists():
        raise Trouble(f"{path} is there already; remove it or name another directory for the bundle")
    own(place)
    run(["umoci", "unpack", "--image", f"{image.path}:{layout.TAG}", path], "unpacking the image")
    config = configuration(layout.config(image), place, limits)
    (path / "config.json").write_text(json.dumps(config, indent=4) + "\n")


def own(place):
    """Makes the directories that are bound, for the gateway's user alone to write. One that is there is left as it is, and must be that user's."""
    for folder, mode in [(place.state, 0o700)] if place.tty else [(place.state, 0o700), (place.line, 0o755)]:
        if not folder.exists():
            folder.mkdir(parents=True)
            os.chown(folder, layout.USER, layout.USER)
            os.chmod(folder, mode)
        elif not folder.is_dir():
            raise Trouble(f"{folder} is no directory; name one, or one that is not there yet")
        elif folder.stat().st_uid != layout.USER:
            raise Trouble(f"{folder} is not a directory of user {layout.USER}, so the gateway could not write there; chown it, or name one that is not there yet")


def configuration(image, place, limits):
    """The template, filled for an image and a place."""
    config = json.loads(TEMPLATE.read_text())
    config["process"]["args"] = [*image["Entrypoint"], *place.words]
    config["process"]["env"] = environment(image, place)
    config["mounts"].append(mount(layout.STATE, place.state, [*BOUND, "nodev"]))
    config["mounts"].append(mount(TTY, place.line, BOUND) if place.tty else mount(layout.LINE, place.line, [*BOUND, "nodev"]))
    resources = config["linux"]["resources"]
    if place.tty:
        resources["devices"].append(device(place.line))
    for name in ("memory", "pids"):
        if name not in limits:
            del resources[name]
    config["linux"]["seccomp"] = system_calls(SYSCALLS.read_text())
    return config


def environment(image, place):
    """The image's own; where the line is a tty, with that in place of the socket."""
    found = dict(variable.split("=", 1) for variable in image["Env"])
    if place.tty:
        found["GATEWAY_LINE"] = f"tty:{TTY}"
    return [f"{name}={value}" for name, value in found.items()]


def mount(destination, source, options):
    return {"destination": destination, "type": "bind", "source": str(source.resolve()), "options": options}


def device(tty):
    """The one device that the container may open beside those of every container."""
    found = os.stat(tty)
    if not stat.S_ISCHR(found.st_mode):
        raise Trouble(f"{tty} is no tty; name the device of a serial line, or a directory for a socket")
    number = found.st_rdev
    return {"allow": True, "type": "c", "major": os.major(number), "minor": os.minor(number), "access": "rw"}


def system_calls(text):
    """The list as the runtime takes it. Sockets are of this machine alone, and clone makes threads and processes but no namespaces; clone3, whose flags no
    filter sees, is refused so that the C library takes clone."""
    names = [name for line in text.splitlines() for name in line.partition("#")[0].split()]
    for name in names:
        if not re.fullmatch("[a-z0-9_]+", name):
            raise Trouble(f"{SYSCALLS}: {name} is no name of a system call; correct it")
        if names.count(name) > 1:
            raise Trouble(f"{SYSCALLS}: {name} stands there twice; take one off")
    limited = {
        "socket": [{"index": 0, "value": 1, "op": "SCMP_CMP_EQ"}],
        "socketpair": [{"index": 0, "value": 1, "op": "SCMP_CMP_EQ"}],
        "clone": [{"index": 0, "value": NEW_NAMESPACES, "valueTwo": 0, "op": "SCMP_CMP_MASKED_EQ"}],
    }
    rules = [{"names": [name for name in names if name not in limited], "action": "SCMP_ACT_ALLOW"}]
    rules += [{"names": [name], "action": "SCMP_ACT_ALLOW", "args": limited[name]} for name in names if name in limited]
    return {**REFUSED, "architectures": ["SCMP_ARCH_X86_64"], "syscalls": rules}


# Limits of memory and processes.


def limits():
    """Which limits the cgroups of this machine can hold, by name. With none mounted at all runc starts nothing as root."""
    if " - cgroup" not in MOUNTED.read_text():
        raise Trouble(f"no cgroups are mounted, and runc needs them; mount -t cgroup2 none {CONTROLLERS} does it")
    unified = CONTROLLERS / "cgroup.controllers"
    if unified.exists():
        found = unified.read_text().split()
        return [name for name in ("memory", "pids") if name in found and os.access(CONTROLLERS / "cgroup.subtree_control", os.W_OK)]
    return [name for name in ("memory", "pids") if os.access(CONTROLLERS / name / "cgroup.procs", os.W_OK)]


def missing_limits(found):
    """A sentence about the limits that cannot be held here, or none."""
    missing = [name for name in ("memory", "pids") if name not in found]
    return f"the cgroups here have no {' and no '.join(missing)} controller to write, so containers go without that limit" if missing else ""
