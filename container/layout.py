"""An OCI image layout that holds static binaries and two mount points, and nothing else. Equal binaries give equal bytes."""

import hashlib
import json
import os
import shutil
import tempfile
from pathlib import Path
from typing import NamedTuple

from container.commands import run
from workbench.trouble import Trouble

TAG = "gateway"
# Every date in the image.
DATE, SECONDS = "1970-01-01T00:00:00Z", 0
USER = 65534
LINE, STATE = "/line", "/state"
# They belong to root, so that nothing is kept inside a container by mistake where no directory is bound; proc and dev are what every runtime mounts.
MOUNT_POINTS = ["line", "state", "proc", "dev"]
ENVIRONMENT = {"GATEWAY_LINE": f"unix:{LINE}/socket", "GATEWAY_STATE": STATE}


class Image(NamedTuple):
    """An image: its layout, and the digest of its manifest, which stands for every byte of it."""

    path: Path
    digest: str
    size: int


def make(path, binaries):
    """Writes the layout; one that was there stays until the new one is whole."""
    judge(path)
    path.parent.mkdir(parents=True, exist_ok=True)
    with tempfile.TemporaryDirectory(prefix=f".{path.name}.", dir=path.parent) as scratch:
        new = Path(scratch, "image")
        write(new, Path(scratch, "bundle"), binaries)
        # umoci leaves it to its owner alone; a runtime of another user reads it too.
        for each in [new, *new.rglob("*")]:
            os.chmod(each, 0o755 if each.is_dir() else 0o644)
        if path.exists():
            os.rename(path, Path(scratch, "old"))
        os.rename(new, path)
    return read(path)


def judge(path):
    """Refuses to replace what is no image."""
    if path.exists() and not (path / "oci-layout").exists() and (not path.is_dir() or any(path.iterdir())):
        raise Trouble(f"{path} is there and is no OCI layout, so it stays; name another directory by -o")


def write(new, bundle, binaries):
    image = f"{new}:{TAG}"
    does = "making the image"
    run(["umoci", "init", "--layout", new], does)
    run(["umoci", "new", "--image", image], does)
    run(["umoci", "unpack", "--image", image, bundle], does)
    fill(bundle / "rootfs", binaries.files)
    run(["umoci", "repack", "--image", image, "--history.created", DATE, "--history.created_by", "bin/image-oci", bundle], does)
    run(["umoci", "config", "--image", image, *settings({**ENVIRONMENT, **binaries.environment})], does)
    run(["umoci", "gc", "--layout", new], does)


def fill(rootfs, files):
    """Binaries and mount points, with fixed modes and dates."""
    for name, source in files.items():
        shutil.copyfile(source, rootfs / name)
        os.chmod(rootfs / name, 0o555)
    for name in MOUNT_POINTS:
        (rootfs / name).mkdir()
    for folder in [rootfs, *(rootfs / name for name in MOUNT_POINTS)]:
        os.chmod(folder, 0o755)
    for path in [*rootfs.iterdir(), rootfs]:
        os.chown(path, 0, 0)
        os.utime(path, (SECONDS, SECONDS))


def settings(environment):
    """What the image says of how it is started."""
    words = ["--created", DATE, "--history.created", DATE, "--history.created_by", "bin/image-oci", "--architecture", "amd64", "--os", "linux"]
    words += ["--config.entrypoint", "/gateway", "--config.user", f"{USER}:{USER}", "--config.workingdir", "/", "--config.stopsignal", "SIGTERM"]
    for name in sorted(environment):
        words += ["--config.env", f"{name}={environment[name]}"]
    return words


def read(path):
    """The image in a layout. Each blob must be the one that its name says."""
    try:
        index = json.loads((path / "index.json").read_text())
        manifests = [each for each in index["manifests"] if each.get("annotations", {}).get("org.opencontainers.image.ref.name") == TAG]
        digest = manifests[0]["digest"]
        blobs = list((path / "blobs/sha256").iterdir())
    except (OSError, ValueError, KeyError, IndexError):
        raise Trouble(f"{path}: no OCI layout with an image {TAG}; make one by bin/image-oci -o {path}") from None
    for blob in blobs:
        if hashlib.sha256(blob.read_bytes()).hexdigest() != blob.name:
            raise Trouble(f"{path}: the blob {blob.name} is damaged; make the image again by bin/image-oci -o {path}")
    return Image(path, digest, sum(blob.stat().st_size for blob in blobs))


def contents(path):
    """Every file of a layout with its bytes."""
    return {file.relative_to(path): file.read_bytes() for file in path.rglob("*") if file.is_file()}


def config(image):
    """The image's configuration, as its manifest names it."""
    manifest = blob(image, image.digest)
    return blob(image, manifest["config"]["digest"])["config"]


def blob(image, digest):
    return json.loads((image.path / "blobs" / digest.replace(":", "/")).read_text())
