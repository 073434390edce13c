"""What disturbs a gateway in bin/soak --gateway: each is done to a run, with the address of one of its drives, and what must hold afterwards is looked at."""

import time

from workbench import service_strings as strings
from workbench.service_disk import block, fill, free, unblock

# What is kept is kept within a second; a loaded machine gets another.
KEPT = 2.0
# SIGTERM ends a gateway within two seconds; a loaded machine gets two more.
ENDED = 4
# The gateway drops half a string after a gap; so many seconds are longer.
LONGER = 0.4


def noise(run, own):
    """Strings of a disturbed line, then half a one, which the gap ends."""
    texts, rest = strings.strings_in(strings.noise(run.random))
    for text in texts:
        run.say(text)
    run.client.send(rest)
    time.sleep(LONGER)
    run.say(f"{own:02}QA\r".encode())


def reopen(run):
    run.client.close()
    run.gateway.start()
    run.client = run.gateway.client()
    run.compare_all("after a restart")


def kill(run, own):
    """kill -9 at some time after the last change: each file is whole, and no older than what had to be kept."""
    run.cells(own)
    time.sleep(run.random.choice([0, 0.01, 0.1, 0.5, KEPT]))
    run.gateway.kill()
    killed = time.monotonic()
    for address, model in run.models.items():
        image = kept(run, address)
        judge_file(run, address, image, killed)
        model.restore(image)
        run.images[address] = [(killed, image)]
    reopen(run)


def kept(run, address):
    return run.gateway.image(address) or run.fresh[address]


def judge_file(run, address, image, killed):
    """Whether a file is one of the images that the drive had, and was not followed by another long before."""
    found = [place for place, (_, each) in enumerate(run.images[address]) if each == image]
    if not found:
        return run.differ(f"{address:02}.image after a kill", "an image that the drive had", image.hex())
    after = run.images[address][found[-1] + 1 :]
    age = killed - max(after[0][0], run.resumed) if after else 0
    if age > KEPT and not run.blocked:
        run.differ(f"{address:02}.image after a kill", f"what was changed over {KEPT} s before", f"what was changed {age:.1f} s before is not there")


def end(run, own):
    """SIGTERM: status 0 within the time, and all memory kept."""
    unblock_saves(run)
    status, seconds = run.gateway.end()
    run.expect("status after SIGTERM", 0, status)
    if seconds > ENDED:
        run.differ("seconds after SIGTERM", f"at most {ENDED}", f"{seconds:.1f}")
    for address, model in run.models.items():
        wanted = run.images[address][-1][1]
        run.expect(f"{address:02}.image after SIGTERM", wanted, kept(run, address))
        model.restore(wanted)


def restart(run, own):
    end(run, own)
    reopen(run)


def torn_file(run, own):
    """A file that lost its end: status 1, and nothing is touched; whole again, it is taken."""
    run.cells(own)
    end(run, own)
    path = run.gateway.state / f"{own:02}.image"
    whole = path.read_bytes() if path.exists() else None
    if whole:
        torn = whole[: run.random.randrange(len(whole))]
        path.write_bytes(torn)
        run.expect("status with a torn file", 1, run.gateway.refused())
        run.expect("the torn file", torn, path.read_bytes())
        path.write_bytes(whole)
    reopen(run)


def pause(run, own):
    """SIGSTOP in a run: it is stopped, and no step is lost or made twice."""
    run.long_run(own)
    time.sleep(run.random.random() / 2)
    hold(run, 0.8 + run.random.random())
    run.stopped(own, "after a pause")


def pause_idle(run, own):
    hold(run, run.random.random() * 2)
    run.settings(own)


def hold(run, seconds):
    """Stops the gateway for a time, in which it keeps nothing."""
    run.gateway.pause(seconds)
    run.resumed = time.monotonic()


def full_disk(run, own):
    """No room for a while: the drives go on."""
    block_saves(run)
    for _ in range(2):
        run.cells(own)
        time.sleep(run.random.random())
    run.settings(own)
    if run.random.random() < 0.5:
        unblock_saves(run)


def block_saves(run):
    run.blocked = True
    if run.disk:
        fill(run.gateway.state)
    else:
        for address in run.models:
            block(run.gateway.state, address)


def unblock_saves(run):
    if not run.blocked:
        return
    if run.disk:
        free(run.gateway.state)
    for address in run.models:
        unblock(run.gateway.state, address)
    time.sleep(KEPT)
    run.blocked = False


def hang_up(run, own):
    """A client that leaves half a string; the next one is not disturbed by it."""
    run.client.send(f"{own:02}WN,10".encode())
    run.client.close()
    run.client = run.gateway.client()
    run.settings(own)


def random_bytes(run, own):
    """Noise without a pause, whose answers nobody reads."""
    run.client.send(run.random.randbytes(run.random.randint(1_000, 100_000)) + strings.END)
    time.sleep(LONGER)
    run.client.rest(LONGER)
    run.compare_all("after noise")


FAULTS = {kill: 4, restart: 2, torn_file: 2, pause: 3, pause_idle: 2, full_disk: 2, hang_up: 4, noise: 4, random_bytes: 1}
