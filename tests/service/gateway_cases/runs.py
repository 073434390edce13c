"""Programs in real time: how long they take, stops, pauses of the host, signals, and what is written beside."""

import signal
import subprocess
import time
from xml.etree import ElementTree

from common import holds, number, steps_left, told, waited, within

from workbench.build import ROOT
from workbench.service_gateway import LOGGED, metrics_of

COUNTED = (
    "ms lost late_max strings answers silent refused steps overrun dropped collisions saves save_errors reconnects work_mean_us work_max_us uptime_ms"
).split()
# A loaded machine may hold a gateway up for longer than it makes up by default, and a run would be stopped.
PATIENT = ("--catch-up", "10000")
LONG = "00WN,100,01,03,20,+60000,x1,000"
RECOVERY = "00WN,110,69"


def run_and_its_time(bench):
    with bench.gateway(*PATIENT) as gateway, gateway.client() as client:
        yield "a run of a second", "00Y", client.ask("00WN,100,21,0500,+500,x1,000")
        began = time.monotonic()
        yield "started", "00Y", client.ask("00PS,100")
        yield "at its end", "00QA,+500", client.until("00QA", "00QA,+500")
        yield within("seconds", 0.95, time.monotonic() - began, 4)
        counted = gateway.metrics()
        yield "steps", (500, 0), (counted["steps"], counted["overrun"])


def program_of_cells(bench):
    """Outputs, delays, loops and runs with ramps, also backward and x4, end where they must."""
    cells = ["100,61,3,101", "101,01,06,15,+400,x1,102", "102,21,2000,-100,x4,103", "103,58,O1,1,104", "104,65,50,105", "105,62,101,106", "106,58,F2,1,000"]
    with bench.gateway(*PATIENT) as gateway, gateway.client() as client:
        yield "written", ["00Y"] * len(cells), [client.ask(f"00WN,{cell}") for cell in cells]
        yield "started", "00Y", client.ask("00PS,100")
        yield "the last output", "00QO,F2,1", client.until("00QO,F2", "00QO,F2,1")
        yield "position", "00QA,+0", client.ask("00QA")
        yield "steps", 3 * 800, gateway.metrics()["steps"]
        yield "no error", "00QE,00,000", client.ask("00QE")


def stop_in_a_run(bench):
    with bench.gateway(*PATIENT) as gateway, gateway.client() as client:
        yield "written", ["00Y", "00Y", "00Y"], [client.ask(text) for text in (LONG, RECOVERY, "00PS,100")]
        time.sleep(0.3)
        yield "a busy drive is silent", None, client.silent("00QA")
        yield "emergency stop", "00Y", client.ask("00EE")
        yield from interrupted(client, 60_000)
        shorter = "00WN,100,01,24,10,+60000,x1,000"
        yield "a changed cell empties the record", ["00Y", "00QR,000"], [client.ask(shorter), client.ask("00QR")]


def interrupted(client, whole):
    """After a stop the steps made and those left are the whole run, and the drive stands."""
    yield "idle again", True, client.idle("00")
    made, left = number(client.ask("00QA")), steps_left(client.ask("00QR"))
    yield holds("some steps are made, some left", 0 < made < whole, (made, left))
    yield "steps made and left", whole, made + left
    time.sleep(0.2)
    yield "it stands", made, number(client.ask("00QA"))


def recovered(bench):
    with bench.gateway(*PATIENT) as gateway, gateway.client() as client:
        texts = ["00WN,100,01,10,20,+5000,x1,000", RECOVERY, "00PS,100"]
        yield "written", ["00Y"] * 3, [client.ask(text) for text in texts]
        time.sleep(0.1)
        yield "emergency stop", "00Y", client.ask("00EE")
        yield from interrupted(client, 5000)
        yield "recovered", "00Y", client.ask("00PS,110")
        yield "to its end", "00QA,+5000", client.until("00QA", "00QA,+5000")


def free_run_stop(bench):
    with bench.gateway(*PATIENT) as gateway, gateway.client() as client:
        texts = ["00WN,100,32,100,30,-,x1,101", "00WN,101,58,O2,1,000", "00PS,100"]
        yield "written", ["00Y"] * 3, [client.ask(text) for text in texts]
        time.sleep(0.3)
        yield "free run stop", "00Y", client.ask("00ES")
        yield "goes on to the next cell", "00QO,O2,1", client.until("00QO,O2", "00QO,O2,1")
        yield holds("it went backward", number(client.ask("00QA")) < -100, client.ask("00QA"))


def paused_idle(bench):
    with bench.gateway() as gateway, gateway.client() as client:
        yield "before", "00Y", client.ask("00SA,+9")
        gateway.pause(2)
        yield "after", "00QA,+9", client.ask("00QA")
        counted = gateway.metrics()
        yield within("milliseconds lost", 1_500, counted["lost"], 20_000)
        # Every millisecond since the start was given or is counted as lost, but for those of the moment.
        yield within("milliseconds given and lost", counted["uptime_ms"] - 1_000, counted["ms"] + counted["lost"], counted["uptime_ms"] + 5)
        yield told("a line of the log tells it", gateway, " warning ")


def paused_running(bench):
    with bench.gateway() as gateway, gateway.client() as client:
        yield "written", ["00Y", "00Y"], [client.ask(text) for text in (LONG, "00PS,100")]
        time.sleep(0.4)
        gateway.pause(2)
        yield from interrupted(client, 60_000)
        yield within("milliseconds lost", 1_500, gateway.metrics()["lost"], 20_000)
        yield told("the log names the drive", gateway, "warning drive 00")


def short_pause(bench):
    """What is owed within the time of --catch-up is made up: a run goes on and ends where it must."""
    with bench.gateway(*PATIENT) as gateway, gateway.client() as client:
        texts = ["00WN,100,21,1000,+1000,x1,000", "00PS,100"]
        yield "written", ["00Y", "00Y"], [client.ask(text) for text in texts]
        gateway.pause(0.5)
        yield "at its end", "00QA,+1000", client.until("00QA", "00QA,+1000")
        yield "milliseconds lost", 0, gateway.metrics()["lost"]


def ended_by(number):
    def end_in_a_run(bench):
        with bench.gateway(*PATIENT) as gateway:
            with gateway.client() as client:
                texts = ["00WN,100,32,100,42,+,x1,000", "00PS,100"]
                yield "written", ["00Y", "00Y"], [client.ask(text) for text in texts]
                time.sleep(0.4)
            status, seconds = gateway.end(number)
            yield "status", 0, status
            yield within("seconds", 0, seconds, 2.5)
            yield holds("its memory is kept", gateway.image() is not None, "no image")
            yield holds("the metrics are in the log", "uptime_ms" in gateway.log(), gateway.log()[-300:])
            yield "steps that were refused", 0, metrics_of(gateway.log())["overrun"]
            yield "lines of trouble: the drive has halted in time", [], [line for line in gateway.log().splitlines() if " info " not in line]
            with gateway, gateway.client() as client:
                yield "after a start", ["00QM,100,32,100,42,+,x1,000", "00QA,+0"], [client.ask("00QM,100"), client.ask("00QA")]

    end_in_a_run.__name__ = f"{number.name}_in_a_run"
    return end_in_a_run


def metrics(bench):
    folder = bench.folder()
    path = f"{folder}/metrics"
    with bench.gateway("--metrics", path, folder=folder) as gateway, gateway.client() as client:
        yield "answers", ["00QA,+0", "00N", None], [client.ask("00QA"), client.ask("00XX"), client.silent("05QA")]
        gateway.send_signal(signal.SIGHUP)
        counted = gateway.metrics()
        yield "all are in the log", COUNTED, [name for name in COUNTED if name in counted]
        yield "counts", (3, 2, 1), tuple(counted[name] for name in ("strings", "answers", "silent"))
        yield "the file has them too", True, waited(lambda: file_metrics(path).get("strings") == 3)
        lines = open(path).read().splitlines()
        yield "a line each, in order", COUNTED, [line.split(" ")[0] for line in lines]
        uptime = file_metrics(path)["uptime_ms"]
        yield "the file is written again", True, waited(lambda: file_metrics(path).get("uptime_ms", 0) > uptime)
        yield "ends", 0, gateway.end()[0]
        odd = [line for line in gateway.log().splitlines() if not LOGGED.fullmatch(line)]
        yield "lines of the log that have not its form", [], odd


def file_metrics(path):
    try:
        with open(path) as file:
            return metrics_of(file.read())
    except FileNotFoundError:
        return {}


def traced(bench):
    """The trace of a run, and the picture that bin/program makes of it."""
    folder = bench.folder()
    path = f"{folder}/trace"
    with bench.gateway("--trace", path, *PATIENT, folder=folder, addresses="0,7") as gateway, gateway.client() as client:
        texts = ["07WN,100,58,O1,1,101", "07WN,101,01,06,30,-900,x1,102", "07WN,102,58,O1,0,000", "07PS,100"]
        yield "written", ["07Y"] * 4, [client.ask(text) for text in texts]
        yield "at its end", "07QA,-900", client.until("07QA", "07QA,-900")
        yield "ends", 0, gateway.end()[0]
    rows = [line.split(",") for line in open(path).read().splitlines()]
    own = [row for row in rows if row[0] == "7"]
    yield "five values each", {5}, {len(row) for row in rows}
    yield "where it came to stand", ["-900", "0", "0" * 14], own[-1][2:]
    yield holds("its speed in direction -", min(int(row[3]) for row in own) in range(-6000, -5000), own[:20])
    yield holds("O1 was on", any(row[4] == "01" + "0" * 12 for row in own), own[-3:])
    picture = f"{folder}/out.svg"
    done = subprocess.run([str(ROOT / "bin/program"), "trace", path, "--address", "7", "-o", picture], capture_output=True, text=True, timeout=60)
    yield "a picture", (0, ""), (done.returncode, done.stderr)
    texts = [element.text for element in ElementTree.parse(picture).iter("{http://www.w3.org/2000/svg}text")]
    yield "what stands in it", ["O1", "speed (Hz)"], [text for text in ("O1", "speed (Hz)") if text in texts]


TESTS = [
    paused_running, paused_idle, stop_in_a_run, recovered, run_and_its_time, program_of_cells, free_run_stop, short_pause, ended_by(signal.SIGTERM), ended_by(signal.SIGINT),
    metrics, traced,
]  # fmt: skip
