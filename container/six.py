"""Six gateways of one image at work at once, each in its container with its own line and memory."""

import concurrent.futures
import contextlib
import statistics
import time

from container import bundle, clients, programs, runtime
from workbench.trouble import Trouble

ADDRESSES = [0, 7, 15, 23, 31, 47]
# Starts of one container alone.
STARTS = 5
# What was answered Y is on the disk within a second.
KEPT = 1.5
# A gateway ends within 2 s of a SIGTERM; runc has its own work after it.
ENDED, KILLED = 10, 128 + 9


class Gateway:
    """One of the six: its container, its line and the port of its master. Every second one has a tty bound in, the others a socket."""

    def __init__(self, number, folder, name):
        self.number, self.address = number, ADDRESSES[number]
        self.folder = folder / str(number)
        self.folder.mkdir()
        self.has_tty = number % 2 == 1
        self.line, self.port_path = self.folder / "line", self.folder / "port"
        self.socket = self.line / "socket"
        self.state = self.folder / "state"
        self.container = runtime.Container(f"{name}-{number}", self.folder / "bundle", self.folder / "log")
        self.port = None
        self.open = contextlib.ExitStack()
        self.fresh = self.before = None

    def make(self, image, limits):
        """The bundle. A tty must be there before it is bound."""
        if self.has_tty:
            self.open.enter_context(clients.bridge(self.port_path, clients.to_tty(self.line)))
            runtime.until(self.line.exists, clients.ANSWER, lambda: f"socat has made no tty {self.line}")
            self.port = self.open.enter_context(clients.opened(self.port_path))
        # Lost time stops a run; that a machine is loaded is no fault of the container.
        words = ["--addresses", str(self.address), "--catch-up", "5000"]
        bundle.make(self.container.bundle, image, bundle.Place(self.line, self.state, words, self.has_tty), limits)

    def start(self):
        """Starts the container; the milliseconds until its first answer."""
        if self.has_tty:
            clients.free(self.line)
        began = time.monotonic()
        self.container.start()
        if self.has_tty:
            clients.first_on_port(self.port, self.address, self.container.judge)
        else:
            clients.first_on_socket(self.socket, self.address, self.container.judge)
        return 1000 * (time.monotonic() - began)

    @contextlib.contextmanager
    def master(self):
        """The port of its master, as long as it is used."""
        if self.has_tty:
            yield self.port
            return
        with clients.bridge(self.port_path, clients.to_socket(self.socket)), clients.opened(self.port_path) as port:
            yield port

    def work(self):
        with self.master() as port:
            self.fresh, self.before = programs.work(port, self.address, self.number)

    def compare(self):
        with self.master() as port:
            programs.compare(port, self.address, self.fresh, self.before)

    def run_without_end(self):
        with self.master() as port:
            programs.run_without_end(port, self.address)

    def end(self, signal, wanted):
        """Ends it by a signal; the milliseconds until it is gone."""
        began = time.monotonic()
        self.container.signal(signal)
        status = self.container.ended(ENDED)
        if status != wanted:
            raise Trouble(f"the container {self.container.name} ended by {signal} with status {status} and not {wanted}")
        return 1000 * (time.monotonic() - began)

    def remove(self):
        self.container.remove()
        self.open.close()


@contextlib.contextmanager
def gateways(folder, name, image, limits):
    """The six, with nothing of them left afterwards."""
    made = [Gateway(number, folder, name) for number in range(len(ADDRESSES))]
    try:
        for gateway in made:
            gateway.make(image, limits)
        yield made
    finally:
        for gateway in made:
            gateway.remove()


def at_once(work, made):
    """The same work on all six at once; what each gave. The first trouble is told after all have ended, with what the gateway said last."""

    def told(gateway):
        try:
            return work(gateway)
        except Trouble as trouble:
            raise Trouble(f"drive {gateway.address:02}: {trouble}\nits gateway said last: {gateway.container.said()}") from None

    with concurrent.futures.ThreadPoolExecutor(len(made)) as threads:
        futures = [threads.submit(told, gateway) for gateway in made]
    return [future.result() for future in futures]


# What is tried, in its order.


def trial(made):
    tell_one(made[0])
    tell_starts("six at once", made)
    tell_confined(made)
    at_once(Gateway.work, made)
    print(f"six masters at once: programs of {len(programs.program(0).strings)} strings loaded and run, every answer as expected", flush=True)
    tell_memory(made)
    time.sleep(KEPT)
    judge_files(made)
    at_once(Gateway.run_without_end, made)
    at_once(lambda gateway: gateway.end("KILL", KILLED), made)
    tell_starts("six again at once, killed within a run", made)
    at_once(Gateway.compare, made)
    print("full readings after the kill: cells 100 to 227 and presets as before, all else as of a fresh drive", flush=True)
    at_once(Gateway.run_without_end, made)
    times = at_once(lambda gateway: gateway.end("TERM", 0), made)
    print(f"ended by TERM within a run: status 0 after {between(times)}", flush=True)


def tell_one(gateway):
    times = [at_once(started_once, [gateway])[0] for _ in range(STARTS)]
    print(f"one: first answer after {between(times)}, median {statistics.median(times):.0f} ms of {STARTS} starts", flush=True)


def started_once(gateway):
    took = gateway.start()
    gateway.end("TERM", 0)
    return took


def tell_starts(what, made):
    began = time.monotonic()
    times = at_once(Gateway.start, made)
    print(f"{what}: first answers after {between(times)}, all after {1000 * (time.monotonic() - began):.0f} ms", flush=True)


def tell_confined(made):
    for gateway in made:
        wrong = runtime.faults(gateway.container.pid())
        if wrong:
            raise Trouble(f"the container {gateway.container.name} is not confined: {'; '.join(wrong)}")
    print("confined: user 65534, no capability, no new privileges, a list of system calls, no network, read-only root", flush=True)


def tell_memory(made):
    sizes = [runtime.resident(gateway.container.pids()) for gateway in made]
    print(f"resident: {min(sizes):,} to {max(sizes):,} KB a container", flush=True)


def judge_files(made):
    for gateway in made:
        file = gateway.state / f"{gateway.address:02}.image"
        if not file.exists():
            raise Trouble(f"{file.name} is not there {KEPT} s after the last Y; the gateway said last: {gateway.container.said()}")


def between(times):
    return f"{min(times):.0f} to {max(times):.0f} ms"
