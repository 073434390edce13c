"""A small repository with the tool in it, its own rt, and no crates to speak of."""

import functools
import os
import shutil
import subprocess
import sys
import tempfile
from pathlib import Path

from common import PATIENCE, PROGRAM, ROOT

CRATES = "# Three crates.\nlaws:\nconsole: laws io\nreplay: laws io\n"
GIVEN, ANSWERS = b"00QA\r", b"00QA,+0\r"
# In a crate's folder it proves a program that has no stamp, and says much that no tool passes on. What a test puts at the place of `wait` and `end` comes before
# and after, at the top.
RT = f"""#!/bin/sh
name=$(basename "$PWD")
cd ../..
echo "$name $1" >>calls
cat >read
out=crates/$name/out
mkdir -p $out
echo "rt: $name: begins with what a check kept in another place"
@wait@
if [ $1 = run ]; then
    if [ ! -x $out/$name ] || [ ! -f $out/$name.stamp ]; then
        cp '{PROGRAM}' $out/$name
        echo "fn $name::main: proved"
        echo 'logic=proved functions=1'
        touch $out/$name.stamp
    fi
    echo "rt: running out/$name; to give it other input, run that file yourself"
fi
@end@
"""


class Tree:
    """A repository with the console's tool and no crates to speak of."""

    def __init__(self, folder):
        self.root = Path(folder).resolve()
        for name in ["bin/console", "reference/Cargo.toml", "reference/Cargo.lock"]:
            (self.root / name).parent.mkdir(exist_ok=True)
            shutil.copy(ROOT / name, self.root / name)
        shutil.copytree(ROOT / "workbench", self.root / "workbench", ignore=shutil.ignore_patterns("__pycache__"))
        (self.root / "crates.txt").write_text(CRATES)
        self.source = self.root / "crates/laws/src/lib.rt"
        self.source.parent.mkdir(parents=True)
        self.source.write_text("")
        for name in ["console", "replay"]:
            written(self.root / "crates" / name / "src/main.rt", "")
        self.program = self.root / "crates/console/out/console"
        self.stamp = self.program.with_suffix(".stamp")
        self.tools = self.root / "tools"
        self.tools.mkdir()

    def rt(self, wait="", end=""):
        self.tool("rt", RT.replace("@wait@", wait).replace("@end@", end))

    def tool(self, name, text):
        written(self.tools / name, text)

    def programs(self, console):
        """Built: a console that is given as a script, and the second implementation as it is."""
        written(self.program, console)
        written(self.stamp, "")
        other = self.root / "reference/target/release/reference"
        other.parent.mkdir(parents=True)
        shutil.copy(ROOT / "reference/target/release/reference", other)

    def start(self, words=None, path="/usr/bin:/bin", **more):
        environment = {**os.environ, "PATH": f"{self.tools}:{path}"}
        streams = {"stdin": subprocess.PIPE, "stdout": subprocess.PIPE, "stderr": subprocess.PIPE, **more}
        return subprocess.Popen(words or [sys.executable, self.root / "bin/console"], env=environment, **streams)

    def ran(self, **more):
        started = self.start(**more)
        output, complaints = started.communicate(GIVEN, PATIENCE)
        return started.returncode, output, complaints.decode()

    def builds(self):
        """How often the lowest crate was given to rt."""
        return (self.root / "calls").read_text().splitlines().count("laws lib")


def written(path, text):
    """A file that can be run."""
    path.parent.mkdir(parents=True, exist_ok=True)
    path.write_text(text)
    path.chmod(0o755)


def in_a_tree(test):
    """A test in a tree of its own."""

    @functools.wraps(test)
    def tried():
        with tempfile.TemporaryDirectory() as folder:
            yield from test(Tree(folder))

    return tried
