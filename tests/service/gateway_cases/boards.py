"""Boards on sockets, and engines that are lost."""

import contextlib
import os
import signal
import socket
import time
from pathlib import Path

from common import holds, number, steps_left, told, waited

from workbench import build
from workbench.service_frames import CUT_WORD, FRESH, IMAGE, LIST, LOAD, LONGEST_LIST, NO_FRAME, NO_ROOM, NO_WORD, TOO_LONG, VERSION, List, framed, seen_of
from workbench.service_gateway import PATIENCE, hang_up


class Board:
    """A test as the board of a drive."""

    def __init__(self, gateway, folder, address=0):
        self.line = socket.socket(socket.AF_UNIX)
        self.line.settimeout(PATIENCE)
        self.line.connect(f"{folder}/{address:02}")

    def __enter__(self):
        return self

    def __exit__(self, *_):
        hang_up(self.line)

    def ask(self, body):
        """The status of a request, and what comes after it."""
        self.line.sendall(framed(body))
        head = self.take(4)
        answer = self.take(int.from_bytes(head, "little"))
        return answer[0], answer[1:]

    def take(self, size):
        data = b""
        while len(data) < size:
            part = self.line.recv(size - len(data))
            if not part:
                raise ConnectionError("the gateway closed the board's socket")
            data += part
        return data

    def perform(self, calls):
        status, body = self.ask(LIST + calls.data())
        return seen_of(calls.letters, body) if status == 0 else status

    def order(self):
        return self.perform(List().order())[0].what


def with_board(bench, **more):
    folder = bench.folder()
    os.mkdir(f"{folder}/boards")
    return bench.gateway("--board", f"unix:{folder}/boards", folder=folder, **more), f"{folder}/boards"


def steps_of_a_board(bench):
    gateway, boards = with_board(bench)
    with gateway, gateway.client() as client, Board(gateway, boards) as board:
        texts = ["00WN,100,01,10,20,+50,x1,000", "00PS,100"]
        yield "written", ["00Y", "00Y"], [client.ask(text) for text in texts]
        yield "the millisecond comes from the gateway", True, waited(lambda: board.order().kind == "run")
        order = board.order()
        yield "the order", ("run", True, 10_000, 20, 50), (order.kind, order.forward, order.hertz, order.ramp, order.rest)
        seen = board.perform(List().at_speed().travel(20).step().order())
        yield "what is seen", [0, 20, 0, 29], [seen[0].refusal, seen[1].count, seen[2].refusal, seen[3].what.rest]
        yield "busy meanwhile", None, client.silent("00QA")
        seen = board.perform(List().travel(1000).order())
        yield "no more than the run has", [29, "stand"], [seen[0].count, seen[1].what.kind]
        yield "at its end", "00QA,+50", client.until("00QA", "00QA,+50")
        seen = board.perform(List().inputs(1 << 3).halted().step())
        yield "refusals of 01", [0, 6, 5], [each.refusal for each in seen]
        yield "inputs from the board", "00QI,PX,1", client.ask("00QI,PX")


def wrong_words_of_a_board(bench):
    gateway, boards = with_board(bench)
    with gateway, gateway.client() as client, Board(gateway, boards) as board:
        yield "before", "00Y", client.ask("00SA,+7")
        wrong = {
            "a string": LIST + List().string(b"00SA,+9\r").data(), "a millisecond": LIST + b"M", "a wait": LIST + List().wait(5).data(), "after a good word": LIST + b"BM", "a version": VERSION,
            "a fresh drive": FRESH + b"\0", "an image": IMAGE, "a load": LOAD + b"\0", "no kind": b"Z", "nothing": b"",
        }  # fmt: skip
        for name, body in wrong.items():
            yield name, (NO_FRAME, b""), board.ask(body)
        refused = {"a letter that is no word": (b"?", NO_WORD), "half a word": (b"G\0", CUT_WORD), "more than can be seen": (b"B" * 4_000, NO_ROOM), "too long": (b"B" * LONGEST_LIST + b"B", TOO_LONG)}
        for name, (words, status) in refused.items():
            yield name, (status, b""), board.ask(LIST + words)
        yield "a good list still works", "stand", board.order().kind
        yield "the drive is as it was", "00QA,+7", client.ask("00QA")


def pieces_of_a_frame(bench):
    gateway, boards = with_board(bench)
    with gateway, gateway.client(), Board(gateway, boards) as board:
        for byte in framed(LIST + List().order().data())[:-1]:
            board.line.sendall(bytes([byte]))
            time.sleep(0.01)
        board.line.sendall(b"B")
        size = int.from_bytes(board.take(4), "little")
        yield "a frame byte by byte", (18, 0), (size, board.take(size)[0])


def second_board(bench):
    gateway, boards = with_board(bench, addresses="0,1")
    with gateway, gateway.client(), Board(gateway, boards) as board:
        yield "the first", "stand", board.order().kind
        with Board(gateway, boards) as second:
            yield "the second is closed at once", b"", second.line.recv(1)
        with Board(gateway, boards, 1) as other:
            yield "another drive's", "stand", other.order().kind
        yield "the first again", "stand", board.order().kind
        yield "refused", 1, gateway.metrics()["refused"]


def board_hangs_up(bench):
    gateway, boards = with_board(bench)
    with gateway, gateway.client() as client:
        texts = ["00WN,100,11,10,+50,x1,000", "00PS,100"]
        yield "written", ["00Y", "00Y"], [client.ask(text) for text in texts]
        with Board(gateway, boards) as board:
            yield "under way", True, waited(lambda: board.order().kind == "run")
            board.perform(List().travel(20))
        yield "the drive is stopped", True, client.idle("00")
        yield "steps made and left", (20, 30), (number(client.ask("00QA")), steps_left(client.ask("00QR")))
        yield told("the log tells it", gateway, "warning drive 00", "board")
        with Board(gateway, boards) as board:
            yield "another board", "stand", board.order().kind


def lost_engine(bench):
    """An engine process that dies ends the gateway with status 1; the memory of the others is kept."""
    engine = f"{build.reference()} serve"
    with bench.gateway(addresses="0,1", engine=engine) as gateway, gateway.client() as client:
        yield "written", "01Y", client.ask("01WN,100,65,7,000")
        children = children_of(gateway.process.pid)
        yield "an engine for each drive", 2, len(children)
        os.kill(min(children), signal.SIGKILL)
        yield "status", 1, gateway.status()
        yield told("the log names the drive", gateway, " error ", "drive 0")
        yield holds("the other's memory is kept", gateway.image(1) is not None, "no image")


def children_of(parent):
    """The processes that a process has started."""
    found = []
    for path in Path("/proc").glob("[0-9]*/stat"):
        with contextlib.suppress(OSError):
            # After the name, which may have spaces and brackets in it, come the state and the parent.
            fields = path.read_text().rpartition(")")[2].split()
            found += [int(path.parent.name)] if int(fields[1]) == parent else []
    return found


TESTS = [steps_of_a_board, wrong_words_of_a_board, pieces_of_a_frame, second_board, board_hangs_up, lost_engine]
