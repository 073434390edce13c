"""The command line and the environment: what is refused, with which status, before anything is made."""

import os
import subprocess

from common import holds

from workbench.service_gateway import PATIENCE

WORDS = "line addresses state baud parity gap catch-up board trace metrics engine answer-delay help".split()


def ran(bench, words, folder, **environment):
    """Status, standard output and standard error of a gateway that ends at once."""
    plain = {name: value for name, value in os.environ.items() if not name.startswith("GATEWAY_")}
    done = subprocess.run([bench.program, *words], cwd=folder, env={**plain, **environment}, stdin=subprocess.DEVNULL, capture_output=True, text=True, timeout=PATIENCE)
    return done.returncode, done.stdout, done.stderr


def help_page(bench):
    status, out, err = ran(bench, ["--help"], bench.folder())
    yield "status", (0, ""), (status, err)
    yield "each word is explained", [], [word for word in WORDS if f"--{word}" not in out]
    yield "so are the statuses and signals", [], [word for word in ("SIGTERM", "SIGUSR1", "tatus") if word not in out]


def wrong_words(bench):
    good = {"--line": "unix:line", "--addresses": "0", "--state": "state"}
    wrong = [
        {"--addresses": "48"}, {"--addresses": "1,1"}, {"--addresses": ""}, {"--addresses": "0,,1"}, {"--addresses": "-1"}, {"--addresses": "a"}, {"--addresses": "0 1"},
        {"--line": "line"}, {"--line": "tcp:1"}, {"--line": "unix:"}, {"--line": "pty:"}, {"--line": None}, {"--addresses": None}, {"--state": None}, {"--state": ""},
        {"--baud": "9601"}, {"--baud": "x"}, {"--parity": "mark"}, {"--gap": "0"}, {"--gap": "99999999999999999999"}, {"--gap": "1.5"}, {"--catch-up": "-1"}, {"--catch-up": "0"},
        {"--board": "real"}, {"--board": "unix:"}, {"--answer-delay": "x"}, {"--answer-delay": "-1"}, {"--nonsense": "1"}, {"stray": None, "word": "1"},
    ]  # fmt: skip
    for change in wrong:
        folder = bench.folder()
        os.mkdir(f"{folder}/state")
        words = [part for word, value in {**good, **change}.items() for part in ([word, value] if value is not None else [word] if word == "stray" else [])]
        status, out, err = ran(bench, with_engine(bench, words), folder)
        yield f"{change}: status", (2, ""), (status, out)
        yield holds(f"{change}: a sentence", err.count("\n") == 1 and len(err) > 20, err)
        yield f"{change}: nothing is made", (["state"], []), (os.listdir(folder), os.listdir(f"{folder}/state"))


def with_engine(bench, words):
    return [*words, "--engine", bench.engine] if bench.engine else words


def twice_and_unfinished(bench):
    folder = bench.folder()
    os.mkdir(f"{folder}/state")
    good = ["--line", "unix:line", "--addresses", "0", "--state", "state"]
    for words in ([*good, "--gap"], [*good, "--gap", "5", "--gap", "6"]):
        status, _, err = ran(bench, with_engine(bench, words), folder)
        yield f"{words[6:]}: status", 2, status
        yield holds(f"{words[6:]}: a sentence", err.count("\n") == 1, err)
    yield "nothing is made", ["state"], os.listdir(folder)


def environment(bench):
    """Words from the environment; the command line wins, and a wrong one is refused like any other."""
    folder = bench.folder()
    gateway = bench.gateway(folder=folder)
    gateway.words = [bench.program, "--addresses", "9"]
    values = {"GATEWAY_LINE": f"unix:{gateway.place}", "GATEWAY_ADDRESSES": "3", "GATEWAY_STATE": str(gateway.state), "GATEWAY_CATCH_UP": "77"}
    values.update({"GATEWAY_ENGINE": bench.engine} if bench.engine else {})
    os.makedirs(gateway.state, exist_ok=True)
    status, _, err = ran(bench, ["--addresses", "9"], folder, **{**values, "GATEWAY_CATCH_UP": "x"})
    yield "a wrong value: status", 2, status
    yield holds("the sentence names it", "catch-up" in err.lower() or "CATCH_UP" in err, err)
    gateway.words = ["env", *(f"{name}={value}" for name, value in values.items()), *gateway.words]
    with gateway, gateway.client() as client:
        yield "the command line wins", "09QA,+0", client.ask("09QA")
        yield "the environment's address", None, client.silent("03QA")


def trouble_at_the_start(bench):
    wrong = {"no state directory": ("--state", "nowhere"), "no tty": ("--line", "tty:nowhere"), "no folder for the socket": ("--line", "unix:no/where"), "no program": ("--engine", "./nowhere")}
    for name, change in wrong.items():
        folder = bench.folder()
        os.mkdir(f"{folder}/state")
        words = {"--line": "unix:line", "--addresses": "0", "--state": "state", **({"--engine": bench.engine} if bench.engine else {}), change[0]: change[1]}
        status, _, err = ran(bench, [part for pair in words.items() for part in pair], folder)
        yield f"{name}: status", 1, status
        yield holds(f"{name}: a sentence names it", "where" in err, err)
        yield f"{name}: no image is made", [], [file for file in os.listdir(f"{folder}/state") if "image" in file]


TESTS = [help_page, wrong_words, twice_and_unfinished, environment, trouble_at_the_start]
