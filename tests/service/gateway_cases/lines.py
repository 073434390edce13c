"""Strings and answers over a socket and a pty: whole, in pieces, half, too long, from several clients and to several drives."""

import os
import random
import socket
import subprocess
import termios
import time

from common import holds, told, waited, within

from workbench.build import ROOT
from workbench.service_gateway import SILENCE, Client, over_socket, over_tty
from workbench.trouble import Trouble

MILLION = 1_000_000


def example_of_01(bench):
    with bench.gateway() as gateway, gateway.client() as client:
        asked = ["00QA", "00WN,228,65,0400,000", "00QM,228", "00XX"]
        yield "the console's example", ["00QA,+0", "00Y", "00QM,228,65,400,000", "00N"], [client.ask(text) for text in asked]
        yield "another address", None, client.silent("07QA")
        yield "a string to all drives", None, client.silent("99ES")
        yield "and then", "00QA,+0", client.ask("00QA")


def pieces(bench):
    with bench.gateway("--gap", "10000") as gateway, gateway.client() as client:
        for byte in b"00QA":
            client.send(bytes([byte]))
            time.sleep(0.02)
        yield "byte by byte", "00QA,+0", client.ask("")
        client.send(b"00QS,IN\r00Q")
        yield "a string and the beginning of the next", "00QS,IN,1", client.answer()
        client.send(b"A\r")
        yield "the next", "00QA,+0", client.answer()
        client.send(b"00QA\r00QS,IN\r00XX\r00QC\r00QE\r00QR\r")
        yield "six strings at once", ["00QA,+0", "00QS,IN,1", "00N", "00QC,0", "00QE,00,000", "00QR,000"], [client.answer() for _ in range(6)]


def strings_at_once(bench):
    """Strings that come in one piece are heard in their order, each by the drives as the one before left them."""
    said = {
        "00WN,100,65,60000,000": "00Y", "00QM,100": "00QM,100,65,60000,000", "00WS,AD,5": "00Y", "00QS,IN": None, "05QA": "05QA,+0", "05SA,+9": "05Y", "05QC": "05QC,0",
        "01QA": "01QA,+0", "05WS,AD,1": "05Y", "01QR": None, "99WS,AD,6": None, "06QA": None,
    }  # fmt: skip
    with bench.gateway("--gap", "10000", addresses="0,1") as gateway, gateway.client() as client:
        client.send("".join(f"{text}\r" for text in said).encode())
        expected = [answer for answer in said.values() if answer]
        yield "answers", expected, [client.answer() for _ in expected]
        yield "no more", b"", client.rest(SILENCE)
        counted = gateway.metrics()
        yield "counts", (12, 8, 2, 2), tuple(counted[name] for name in ("strings", "answers", "silent", "collisions"))
    # Their answers must fit into the socket, since those that are not taken are dropped.
    many = 60
    with bench.gateway("--gap", "10000") as gateway, gateway.client() as client:
        client.send("".join(f"00SA,+{place}\r00QA\r" for place in range(many)).encode())
        yield "many in a row", [answer for place in range(many) for answer in ("00Y", f"00QA,+{place}")], [client.answer() for _ in range(2 * many)]
        client.send(b"00WN,100,65,60000,000\r00PS,100\r00QA\r00QE\r00EE\r00QR\r")
        yield "a start and a stop among them", ["00Y", "00Y", "00Y", "00QR,100"], [(client.answer() or "")[:8] for _ in range(4)]


def half_then_hang_up(bench):
    half = "00WN,100,65,4"
    with bench.gateway("--gap", "60000") as gateway:
        with gateway.client() as client:
            yield "before", "00QA,+0", client.ask("00QA")
            client.send(half.encode())
        with gateway.client() as client:
            yield "the next client's first string", "00QM,100,00,000", client.ask("00QM,100")
        yield "dropped bytes", len(half), gateway.metrics()["dropped"]


def half_then_gap(bench):
    with bench.gateway("--gap", "100") as gateway, gateway.client() as client:
        client.send(b"00WN,100,65,4")
        time.sleep(0.8)
        yield "after the gap", "00QM,100,00,000", client.ask("00QM,100")
        yield "dropped bytes", 13, gateway.metrics()["dropped"]


def long_strings(bench):
    with bench.gateway("--gap", "10000") as gateway, gateway.client() as client:
        for size in (63, 64, 65, 1000, 20_000):
            text = "00QA" + "x" * (size - 4)
            yield f"{size} bytes and the 13", "00N", client.ask(text)
        yield "bytes beyond 64", 1 + 936 + 19_936, gateway.metrics()["dropped"]
        yield "and then", "00QA,+0", client.ask("00QA")


def several_drives(bench):
    with bench.gateway(addresses="0,1,47") as gateway, gateway.client() as client:
        yield "each answers for itself", ["47QA,+0", "01QA,+0", "00QA,+0"], [client.ask(text) for text in ("47QA", "01QA", "00QA")]
        yield "a cell of one drive", "01Y", client.ask("01WN,100,65,7,000")
        yield "is not the others'", ["00QM,100,00,000", "47QM,100,00,000"], [client.ask(text) for text in ("00QM,100", "47QM,100")]
        yield "a preset for all", None, client.silent("99WS,IN,3")
        yield "is each one's", ["00QS,IN,3", "01QS,IN,3", "47QS,IN,3"], [client.ask(f"{own}QS,IN") for own in ("00", "01", "47")]
        yield "collisions", 0, gateway.metrics()["collisions"]


def collisions(bench):
    with bench.gateway(addresses="3,4,9") as gateway, gateway.client() as client:
        yield "one gets the other's address", "03Y", client.ask("03WS,AD,4")
        yield "both answers are dropped", None, client.silent("04QA")
        yield "the third still answers", "09QA,+0", client.ask("09QA")
        yield "collisions", 1, gateway.metrics()["collisions"]
        yield told("a line of the log tells it", gateway, "address 04")


def peer_ends_its_side(bench):
    with bench.gateway("--answer-delay", "300") as gateway:
        with gateway.client() as client:
            began = time.monotonic()
            client.send(b"00QA\r")
            client.socket.shutdown(socket.SHUT_WR)
            yield "what is owed", "00QA,+0", client.answer()
            yield within("seconds of the delay", 0.29, time.monotonic() - began, 10)
            yield "then the line is closed", b"", client.receive(10)
        with gateway.client() as client:
            yield "the next client", "00QS,AD,0", client.ask("00QS,AD")


def mute_peer(bench):
    with bench.gateway() as gateway:
        before = gateway.resident()
        with gateway.client() as client:
            end = time.monotonic() + 2
            while time.monotonic() < end:
                try:
                    client.send(b"00QM,100\r", 0.1)
                except Trouble:
                    pass
        grown = gateway.resident() - before
        yield within("kilobytes that it has grown", -10_000, grown, 4_000)
        with gateway.client() as client:
            client.send(b"00QS,AD\r")
            yield "the next client gets its own answer", b"00QS,AD,0\r", client.rest(0.5)
        counted = gateway.metrics()
        yield holds("answers that were not taken are dropped", counted["dropped"] > 0, counted)
        yield within("time went on", counted["uptime_ms"] - counted["lost"] - 1_000, counted["ms"], counted["uptime_ms"] + 5)


def late_reader(bench):
    """A peer that reads only in the end finds the answer to its last string there, and not those that nobody waited for."""
    count = 3_000
    with bench.gateway() as gateway, gateway.client() as client:
        for _ in range(count // 100):
            client.send(b"00QM,100\r" * 100)
        yield "all are heard", True, waited(lambda: gateway.metrics()["strings"] == count)
        client.send(b"00QS,AD\r")
        yield "the last too", True, waited(lambda: gateway.metrics()["strings"] == count + 1)
        came = client.rest(0.7).split(b"\r")
        yield "the last answer", [b"00QS,AD,0", b""], came[-2:]
        yield within("answers before it", 1, len(came) - 2, count - 1)
        yield "each whole", {b"00QM,100,00,000"}, set(came[:-2])


def second_peer(bench):
    with bench.gateway() as gateway, gateway.client() as client:
        yield "the first", "00QA,+0", client.ask("00QA")
        with gateway.client() as second:
            yield "the second is closed at once", b"", second.receive(10)
        yield "the first again", "00QA,+0", client.ask("00QA")
        yield "refused", 1, gateway.metrics()["refused"]


def echo(bench):
    """A line that hears itself: each answer comes back, and must not be heard as a string."""
    with bench.gateway() as gateway, gateway.client() as client:
        for _ in range(3):
            client.send(b"00QA\r")
            end, came = time.monotonic() + 0.5, b""
            while time.monotonic() < end:
                part = client.receive(0.05)
                came += part
                client.send(part)
            yield "what comes", b"00QA,+0\r", came
        yield "strings", 3, gateway.metrics()["strings"]


def million_random_bytes(bench):
    """A million random bytes change nothing, by the full reading."""
    reading = [str(ROOT / "bin/reading"), "take", "--timeout", "20"]
    with bench.gateway() as gateway:
        with gateway.client() as client:
            texts = ["00WN,100,65,7,000", "00WS,IN,2", "00SA,-77", "00SO,F3,1", "00SC,1,+5"]
            yield "a drive with something in it", ["00Y"] * len(texts), [client.ask(text) for text in texts]
        before = subprocess.run([*reading, f"unix:{gateway.place}"], capture_output=True, timeout=60)
        with gateway.client() as client:
            pour(client, random.Random(5).randbytes(MILLION))
        after = subprocess.run([*reading, f"unix:{gateway.place}"], capture_output=True, timeout=60)
        yield "a reading is taken", (0, b""), (before.returncode, before.stderr)
        yield "the reading afterwards", (0, before.stdout), (after.returncode, after.stdout)
        yield holds("strings were heard in it", gateway.metrics()["strings"] > 3_000, gateway.metrics())


def pour(client, data):
    """Sends much, and reads whatever comes meanwhile."""
    while data:
        client.send(data[:4096])
        data = data[4096:]
        client.receive(0)
    client.rest(SILENCE)


def pseudo_terminal(bench):
    with bench.gateway(kind="pty") as gateway:
        yield "a link", True, gateway.place.is_symlink()
        for turn in range(3):
            with gateway.client() as client:
                settings = termios.tcgetattr(client.descriptor)
                yield f"raw, client {turn}", 0, settings[3] & (termios.ICANON | termios.ECHO)
                yield f"its answer, client {turn}", "00QA,+0", client.ask("00QA")
        with gateway.client() as client:
            client.send(b"00QM,100\r")
            time.sleep(0.3)
        with over_tty(str(gateway.place)) as client:
            client.rest(0.2)
            yield "after one that did not read", "00QS,AD,0", client.ask("00QS,AD")
        yield "ends", 0, gateway.end()[0]
        yield "the link is gone", False, os.path.lexists(gateway.place)


def reading_over_pty(bench):
    with bench.gateway(kind="pty", addresses="7") as gateway:
        words = [str(ROOT / "bin/reading"), "take", f"tty:{gateway.place}", "--address", "7", "--timeout", "20"]
        done = subprocess.run(words, capture_output=True, timeout=60, text=True)
        yield "165 answers", (0, 166), (done.returncode, len(done.stdout.splitlines()))


def cooked_terminal(bench):
    """A client that leaves its terminal in cooked mode, where it echoes: the answers come back to the gateway, and no million_random_bytes comes of it."""
    with bench.gateway(kind="pty") as gateway, gateway.client() as client:
        settings = termios.tcgetattr(client.descriptor)
        settings[0] |= termios.ICRNL
        settings[1] |= termios.OPOST | termios.ONLCR
        settings[3] |= termios.ECHO | termios.ICANON
        termios.tcsetattr(client.descriptor, termios.TCSANOW, settings)
        for _ in range(3):
            client.send(b"00QA\r")
            time.sleep(0.5)
        yield within("strings", 3, gateway.metrics()["strings"], 9)


def serial_line(bench):
    """A tty, here the slave of a pty whose master is the client. It hangs up; the drives go on, and the line is opened again when it is back."""
    folder = bench.folder()
    link = f"{folder}/tty"
    gateway = bench.gateway(folder=folder)
    gateway.words[2] = f"tty:{link}"
    client = serial_client(link)
    with gateway:
        yield "an answer", "00Y", client.ask("00SA,+7")
        yield "no echo, no line feed", b"00QA,+7\r", answered(client, b"00QA\r")
        client.close()
        yield "the hang-up is told", True, waited(lambda: " warning " in gateway.log())
        client = serial_client(link)
        yield "opened again", True, waited(lambda: gateway.metrics()["reconnects"] == 1)
        yield "the drive went on", "00QA,+7", client.ask("00QA")
        client.close()
        yield "ends", 0, gateway.end()[0]


def serial_client(link):
    """A new pty whose slave is found at a link, and whose master is the client."""
    master, slave = os.openpty()
    aside = f"{link}.new"
    os.symlink(os.ttyname(slave), aside)
    os.replace(aside, link)

    def close():
        os.close(slave)
        os.close(master)

    return Client(master, close)


def answered(client, data):
    client.send(data)
    return client.rest(SILENCE)


def stale_socket(bench):
    gateway = bench.gateway()
    with gateway:
        gateway.kill()
        yield "the socket of a killed gateway", True, gateway.place.is_socket()
        gateway.start()
        with over_socket(str(gateway.place)) as client:
            yield "is replaced", "00QA,+0", client.ask("00QA")
        gateway.end()
        yield "and removed at the end", False, gateway.place.exists()
        gateway.place.write_text("kept")
        yield "a file that is no socket", 1, gateway.refused()
        yield "stays", "kept", gateway.place.read_text()


TESTS = [
    million_random_bytes, mute_peer, late_reader, example_of_01, pieces, strings_at_once, half_then_hang_up, half_then_gap, long_strings, several_drives, collisions, peer_ends_its_side, second_peer, echo,
    pseudo_terminal, reading_over_pty, cooked_terminal, serial_line, stale_socket,
]  # fmt: skip
