"""Memory over restarts: what was answered Y is there, and no damaged, missing or full place for it does harm."""

import contextlib
import os
import time

from common import KEPT, Skipped, holds, told, waited

from workbench import build
from workbench.service_disk import block, fill, free, small_disk, unblock
from workbench.service_frames import FRESH, IMAGE, LIST, List, Server, framed
from workbench.trouble import Trouble

# A save that failed is tried again after a second.
AGAIN = 1
STRINGS = ["00WN,100,65,7,101", "00WN,101,21,2200,+007,X4,000", "00WS,IN,2", "00WN,228,65,5,000", "00SA,+44"]


def killed(bench):
    """kill -9 a second after the last Y."""
    with bench.gateway() as gateway:
        with gateway.client() as client:
            yield "written", ["00Y"] * len(STRINGS), [client.ask(text) for text in STRINGS]
        time.sleep(KEPT)
        gateway.kill()
        gateway.start()
        with gateway.client() as client:
            asked = ["00QM,100", "00QM,101", "00QS,IN", "00QM,228", "00QA"]
            there = ["00QM,100,65,7,101", "00QM,101,21,2181,+7,x4,000", "00QS,IN,2", "00QM,228,00,000", "00QA,+0"]
            yield "after the restart", there, [client.ask(text) for text in asked]


def many_kills(bench):
    """Again and again, with a change of which each is there afterwards."""
    with bench.gateway("--gap", "5000") as gateway:
        for turn in range(3):
            with gateway.client() as client:
                yield f"cell {turn}", "00Y", client.ask(f"00WN,10{turn},65,{turn + 1},000")
                yield f"kept {turn}", True, waited(lambda: gateway.image() == image_of([f"00WN,10{cell},65,{cell + 1},000" for cell in range(turn + 1)]), KEPT)
            gateway.kill()
            gateway.start()
        with gateway.client() as client:
            yield "all cells", [f"00QM,10{cell},65,{cell + 1},000" for cell in range(3)], [client.ask(f"00QM,10{cell}") for cell in range(3)]


def image_of(strings, address=0):
    """The image of a drive after strings, by the second implementation."""
    server = Server("the second implementation", [build.reference(), "serve"])
    try:
        calls = List()
        for text in strings:
            calls.string(text.encode() + b"\r")
        for frame in (FRESH + bytes([address]), LIST + calls.data(), IMAGE):
            server.send(framed(frame))
            answer = server.receive()
        return answer[1:]
    finally:
        server.kill()


def image_file(bench):
    """The file has the bytes of 02's Slip 1, and the one before is kept."""
    with bench.gateway(addresses="0,12") as gateway:
        with gateway.client() as client:
            yield "a first change", "12Y", client.ask("12WS,RS,B3")
            first = image_of(["12WS,RS,B3"], 12)
            yield "its image", True, waited(lambda: gateway.image(12) == first, KEPT)
            yield "a second change", "12Y", client.ask("12WN,150,58,F7,1,000")
            second = image_of(["12WS,RS,B3", "12WN,150,58,F7,1,000"], 12)
            yield "its image then", True, waited(lambda: gateway.image(12) == second, KEPT)
            before = gateway.state / "12.image.before"
            yield "the one before", first, before.read_bytes() if before.exists() else None
            # A file is there before its save is counted.
            yield "saves", True, waited(lambda: gateway.metrics()["saves"] == 2)
            yield "the same again", "12Y", client.ask("12WS,RS,B3")
            time.sleep(KEPT)
            yield "is not written again", 2, gateway.metrics()["saves"]
        yield "no file is left aside", [], [name for name in os.listdir(gateway.state) if name.endswith(".new")]


def address_changed(bench):
    """The file keeps the name of the command line; the image's own address counts."""
    with bench.gateway(addresses="3") as gateway:
        with gateway.client() as client:
            yield "another address", "03Y", client.ask("03WS,AD,8")
            yield "kept under the first", True, waited(lambda: gateway.image(3) == image_of(["03WS,AD,8"], 3), KEPT)
        gateway.end()
        gateway.start()
        with gateway.client() as client:
            yield "after a restart", "08QS,AD,8", client.ask("08QS,AD")
            yield "the first address", None, client.silent("03QA")


def torn_file(bench):
    whole = image_of(STRINGS)
    for name, data in {"torn": whole[:-1], "empty": b"", "one byte more": whole + b"\0", "text": b"00WN,100,65,7,000\n"}.items():
        gateway = bench.gateway(addresses="0,5")
        path, other = gateway.state / "00.image", gateway.state / "05.image"
        path.write_bytes(data)
        other.write_bytes(image_of([], 5))
        yield f"{name}: status", 1, gateway.refused()
        yield holds(f"{name}: the sentence names it", str(path) in gateway.log(), gateway.log())
        yield f"{name}: the files are as they were", (data, image_of([], 5)), (path.read_bytes(), other.read_bytes())
        yield f"{name}: no line was made", False, gateway.place.exists()


def missing_file(bench):
    gateway = bench.gateway()
    before = gateway.state / "00.image.before"
    before.write_bytes(image_of(STRINGS))
    yield "absent, with the one before: status", 1, gateway.refused()
    yield holds("the sentence names it", "00.image" in gateway.log(), gateway.log())
    yield "nothing was made", [False, image_of(STRINGS)], [(gateway.state / "00.image").exists(), before.read_bytes()]


def unreadable_file(bench):
    """A folder in place of the file cannot be read by anybody."""
    gateway = bench.gateway()
    (gateway.state / "00.image").mkdir()
    yield "status", 1, gateway.refused()
    yield holds("the sentence names it", "00.image" in gateway.log(), gateway.log())


def two_gateways(bench):
    """One gateway to a state directory: a second would write over the first's files."""
    with bench.gateway() as gateway:
        second = bench.gateway(state=gateway.state)
        yield "status of the second", 1, second.refused()
        with gateway.client() as client:
            yield "the first goes on", "00QA,+0", client.ask("00QA")


def full_disk(bench):
    """A disk without room: the drive goes on, the old file stays whole, and it is kept as soon as there is room."""
    folder = bench.folder()
    with contextlib.ExitStack() as stack:
        try:
            state = stack.enter_context(small_disk(folder))
        except Trouble as trouble:
            raise Skipped(f"{trouble}; blocked_file stands in for it") from None
        gateway = stack.enter_context(bench.gateway(folder=folder, state=state))
        with gateway.client() as client:
            yield "before", "00Y", client.ask("00WN,100,65,7,000")
            yield "kept", True, waited(lambda: gateway.image() == image_of(["00WN,100,65,7,000"]), KEPT + AGAIN)
            first = gateway.image()
            fill(state)
            yield "while it is full", ["00Y", "00QM,101,65,8,000"], [client.ask("00WN,101,65,8,000"), client.ask("00QM,101")]
            yield "failures are counted", True, waited(lambda: gateway.metrics()["save_errors"] >= 2)
            yield "the old file is whole", first, gateway.image()
            yield told("the log tells it", gateway, " error ")
            free(state)
            yield "with room again", True, waited(lambda: gateway.image() == image_of(["00WN,100,65,7,000", "00WN,101,65,8,000"]), KEPT + AGAIN)
            yield "the drive goes on", "00QA,+0", client.ask("00QA")
        gateway.kill()


def blocked_file(bench):
    """A save that cannot be made, here since a folder stands where the new file is written aside."""
    with bench.gateway() as gateway, gateway.client() as client:
        block(gateway.state, 0)
        yield "while it is blocked", "00Y", client.ask("00WN,100,65,7,000")
        yield "failures are counted", True, waited(lambda: gateway.metrics()["save_errors"] >= 2)
        told = [line for line in gateway.log().splitlines() if " error " in line or " warning " in line]
        uptime = gateway.metrics()["uptime_ms"] / 1000
        yield holds("the log tells it, at most once a second", 1 <= len(told) <= uptime + 2, told)
        unblock(gateway.state, 0)
        yield "then it is kept", True, waited(lambda: gateway.image() == image_of(["00WN,100,65,7,000"]), KEPT + AGAIN)
        yield "the drive goes on", "00QM,100,65,7,000", client.ask("00QM,100")


def broadcast_kept(bench):
    """A preset that was set for all drives is kept by each, though none has answered."""
    with bench.gateway(addresses="0,1") as gateway:
        with gateway.client() as client:
            yield "a preset for all", None, client.silent("99WS,IN,3")
            yield "is kept", True, waited(lambda: gateway.image(0) == image_of(["99WS,IN,3"]) and gateway.image(1) == image_of(["99WS,IN,3"], 1), KEPT)
        gateway.kill()
        gateway.start()
        with gateway.client() as client:
            yield "after the restart", ["00QS,IN,3", "01QS,IN,3"], [client.ask("00QS,IN"), client.ask("01QS,IN")]


TESTS = [full_disk, blocked_file, killed, many_kills, image_file, address_changed, torn_file, missing_file, unreadable_file, two_gateways, broadcast_kept]
