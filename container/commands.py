"""Commands of other packages, run to their end; what goes wrong is told in one sentence."""

import importlib.util
import os
import shutil
import subprocess
import sys
from pathlib import Path

from workbench.trouble import Trouble, say

# A package of Debian, and how to see that it is there: a program on the PATH, or a module of the system's Python.
PYTHON = "/usr/bin/python3"
PACKAGES = {"umoci": "umoci", "runc": "runc", "socat": "socat", "python3-serial": "serial"}
MODULES = ["python3-serial"]
# The folders of an administrator's programs are not on everybody's PATH.
PATH = os.pathsep.join([os.environ.get("PATH", os.defpath), "/usr/local/sbin", "/usr/sbin", "/sbin"])


def run(words, does, name=None, **options):
    """Runs a command; gives what it writes, or says that what it does did not go well. The name is that of a command which another one starts."""
    words = [str(word) for word in words]
    options = {"env": {**os.environ, "PATH": PATH}, "stdin": subprocess.DEVNULL, **options}
    try:
        done = subprocess.run(words, stdout=subprocess.PIPE, stderr=subprocess.PIPE, text=True, errors="replace", **options)
    except FileNotFoundError:
        raise Trouble(f"{does}: {words[0]} is not on the PATH; install it") from None
    if done.returncode != 0:
        said = (done.stderr or done.stdout).strip()
        raise Trouble(f"{does}: {name or words[0]} ended with status {done.returncode}: {last_lines(said)}")
    return done.stdout


def last_lines(text, most=12):
    """The end of what a command said, which has the reason."""
    lines = text.splitlines()
    return "\n".join(lines[-most:]) or "it said nothing"


def judge_root(tool):
    """Refuses to begin without the rights that all of it needs: files of user 0 in the image, mounts, namespaces."""
    if os.geteuid() != 0:
        raise Trouble(f"only root may do this, since it mounts and makes files of other users; run it by sudo {tool}")
    if sys.platform != "linux" or os.uname().machine != "x86_64":
        raise Trouble("the proved library is for Linux on x86-64 alone; run it on such a machine")


def need(*names):
    """Installs the packages that are missing, by name."""
    missing = [name for name in names if not is_there(name)]
    if not missing:
        return
    say("packages", f"{' and '.join(missing)} not there yet: apt-get installs")
    does = f"installing {' '.join(missing)}"
    environment = {**os.environ, "PATH": PATH, "DEBIAN_FRONTEND": "noninteractive"}
    run(["apt-get", "update", "-q"], does, env=environment)
    run(["apt-get", "install", "-q", "-y", "--no-install-recommends", *missing], does, env=environment)
    for name in missing:
        if not is_there(name):
            raise Trouble(f"{does}: apt-get is content, and {PACKAGES[name]} is not there; install it by hand")


def go_on_with_serial():
    """Starts the tool again in the system's Python where this one does not have the package."""
    if importlib.util.find_spec(PACKAGES["python3-serial"]) is None:
        os.execv(PYTHON, [PYTHON, *sys.argv])


def is_there(package):
    if package not in MODULES:
        return shutil.which(PACKAGES[package], path=PATH) is not None
    if not Path(PYTHON).exists():
        return False
    return subprocess.run([PYTHON, "-c", f"import {PACKAGES[package]}"], stderr=subprocess.DEVNULL).returncode == 0
