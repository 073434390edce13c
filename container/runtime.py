"""Containers of a bundle by runc, each ended and removed at the latest when its work is left."""

import contextlib
import json
import os
import subprocess
import time
from pathlib import Path

from container.commands import PATH, last_lines
from workbench.trouble import Trouble

# Within so many seconds a killed container is gone.
GONE = 5
# What the kernel says of a process that is confined as the bundle wants it.
CONFINED = {"Uid": "65534 65534 65534 65534", "Gid": "65534 65534 65534 65534", "CapEff": "0" * 16, "CapBnd": "0" * 16, "NoNewPrivs": "1", "Seccomp": "2"}


class Container:
    """A container under a name. Its log has what the gateway writes on standard error."""

    def __init__(self, name, bundle, log):
        self.name, self.bundle, self.log = name, bundle, log
        self.process = None

    def start(self):
        """Starts it and does not wait: runc stays beside it, and ends with its status."""
        words = ["runc", "run", "--bundle", str(self.bundle), self.name]
        with open(self.log, "ab") as log:
            self.process = subprocess.Popen(words, env=environment(), stdin=subprocess.DEVNULL, stdout=log, stderr=log, start_new_session=True)

    def is_running(self):
        return self.process is not None and self.process.poll() is None

    def judge(self):
        """Refuses to go on with a container that has ended."""
        if not self.is_running():
            raise Trouble(f"the container {self.name} has ended with status {self.process.returncode}")

    def said(self):
        return last_lines(self.log.read_text(errors="replace"), 6)

    def signal(self, name):
        runc("kill", self.name, name)

    def ended(self, seconds):
        """The status with which it ends within some seconds."""
        try:
            return self.process.wait(seconds)
        except subprocess.TimeoutExpired:
            raise Trouble(f"the container {self.name} has not ended after {seconds} s") from None

    def pid(self):
        """The gateway's process as the host sees it."""
        return json.loads(runc("state", self.name))["pid"]

    def pids(self):
        """All processes of the container, engines as processes among them, as the host sees them."""
        return json.loads(runc("ps", "--format", "json", self.name))

    def remove(self):
        """Whatever it is at, nothing of it stays."""
        subprocess.run(["runc", "delete", "--force", self.name], env=environment(), stdout=subprocess.DEVNULL, stderr=subprocess.DEVNULL)
        if self.is_running():
            with contextlib.suppress(subprocess.TimeoutExpired):
                self.process.wait(GONE)
        if self.is_running():
            self.process.kill()
            self.process.wait()


def environment():
    return {**os.environ, "PATH": PATH}


def runc(*words):
    done = subprocess.run(["runc", *words], env=environment(), stdin=subprocess.DEVNULL, capture_output=True, text=True)
    if done.returncode != 0:
        raise Trouble(f"runc {' '.join(words)} ended with status {done.returncode}: {done.stderr.strip()}")
    return done.stdout


@contextlib.contextmanager
def container(name, bundle, log):
    made = Container(name, bundle, log)
    try:
        yield made
    finally:
        made.remove()


# What the host sees of a container.


def status(pid):
    """The fields of /proc/PID/status, each with its words parted by one space."""
    rows = (row.partition(":") for row in Path(f"/proc/{pid}/status").read_text().splitlines())
    return {name: " ".join(value.split()) for name, _, value in rows}


def resident(pids):
    """Kilobytes of memory that processes have resident."""
    return sum(int(status(pid)["VmRSS"].split()[0]) for pid in pids)


def faults(pid):
    """What is not confined as the bundle wants it, in words."""
    found = status(pid)
    wrong = [f"{name} is {found.get(name)} and not {wanted}" for name, wanted in CONFINED.items() if found.get(name) != wanted]
    interfaces = [row.partition(":")[0].strip() for row in Path(f"/proc/{pid}/net/dev").read_text().splitlines()[2:]]
    if interfaces not in ([], ["lo"]):
        wrong.append(f"it has network interfaces: {' '.join(interfaces)}")
    root = [row.split() for row in Path(f"/proc/{pid}/mountinfo").read_text().splitlines() if row.split()[4] == "/"]
    if not root or "ro" not in root[-1][5].split(","):
        wrong.append("its root can be written")
    return wrong


def until(true, seconds, otherwise, rest=0.002):
    """Waits until something is so; gives what that function gave."""
    end = time.monotonic() + seconds
    while time.monotonic() < end:
        found = true()
        if found:
            return found
        time.sleep(rest)
    raise Trouble(otherwise())
