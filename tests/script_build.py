"""Holds what ./repair does before its first run, the build, to what it says. A kit that only pretends stands in for the real one: its `rt run`
says that crates are proved and puts the real program in place, at once or, with a prover in the background, when it is let go."""
import contextlib
import os
import shutil
import signal
import subprocess
import tempfile
import time

import script
from script import ROOT, SOON, environment, hold

RT = """#!/bin/sh
# what was asked, and who asked while another was at work
crate=${PWD##*/}
echo "$* $crate" >>"$FAKE/asked"
mkdir "$FAKE/at-work" 2>/dev/null || echo "$* $crate" >>"$FAKE/two-at-once"
proved() {
    echo "fn $1::first: proved"
    echo "crate $1: modules loaded=0 checked=34"
    echo "logic=proved functions=1 incremental=trusted"
}
proved rules
if [ -n "${SLOW:-}" ]; then
    # as rt does: provers in the background, which no interrupt reaches
    (while [ -d "$FAKE" ] && [ ! -e "$FAKE/go" ]; do sleep 0.1; done) &
    echo "$!" >>"$FAKE/provers"
    wait
fi
if [ -n "${FAILING:-}" ]; then
    echo "crate $crate: modules loaded=0 checked=34"
    echo "logic=not-proved functions=1 incremental=trusted"
    rmdir "$FAKE/at-work"
    exit 1
fi
mkdir -p out/incremental
cp "$REAL/target/bin/$crate" "out/$crate"
proved "$crate"
echo "what the program says of no input"
rmdir "$FAKE/at-work"
"""

PROGRAMS = ("repair", "layers", "gaps", "masking", "surfaced", "pack", "unpack", "plate")


class Repository:
    """A copy of what ./repair needs, with the pretended kit on the path."""
    tool = "repair"

    def __init__(self, folder):
        self.folder, self.kit, self.room = (os.path.join(folder, name) for name in ("a repository", "kit", "room"))
        for name in ("tests", "include", "models", *(f"crates/{crate}/src" for crate in ("rules", *PROGRAMS))):
            os.makedirs(os.path.join(self.folder, name))
        os.makedirs(self.kit + "/bin")
        os.mkdir(self.room)
        shutil.copytree(os.path.join(ROOT, "repairing"), os.path.join(self.folder, "repairing"))
        for name in ("repair", "crates.txt", "tests/build.sh", "include/omphirun.h", "models/lampshade.bin"):
            shutil.copy(os.path.join(ROOT, name), os.path.join(self.folder, name))
        for name, text in (("bin/rt", RT), ("KIT-ID", "pretended\n")):
            with open(os.path.join(self.kit, name), "w") as file:
                file.write(text)
        os.chmod(self.kit + "/bin/rt", 0o755)
        self.source = self.folder + "/crates/rules/src/lib.rt"
        self.touch()

    def start(self, **more):
        script.runs += 1
        env = environment(self.room, PATH=self.kit + "/bin:" + os.environ["PATH"], FAKE=self.kit, REAL=ROOT, **more)
        return subprocess.Popen([os.path.join(self.folder, self.tool)], stdin=subprocess.DEVNULL, stdout=subprocess.PIPE, stderr=subprocess.PIPE, env=env)

    def run(self, **more):
        process = self.start(**more)
        out, said = process.communicate(timeout=SOON)
        hold(not os.listdir(self.room), "nothing is left in the temporary folder")
        return process.returncode, out.decode(), said.decode()

    def touch(self):
        with open(self.source, "a") as file:
            file.write("// more\n")

    def let_go(self):
        """Ends what pretends to prove."""
        with open(self.kit + "/go", "w"):
            pass

    def lines(self, name):
        with contextlib.suppress(FileNotFoundError), open(os.path.join(self.kit, name)) as file:
            return file.read().splitlines()
        return []

    def await_lines(self, name, many):
        end = time.monotonic() + SOON
        while len(self.lines(name)) < many and time.monotonic() < end:
            time.sleep(0.02)
        hold(len(self.lines(name)) == many, f"{name} has {many} lines: {self.lines(name)}")


@contextlib.contextmanager
def repository():
    with tempfile.TemporaryDirectory() as folder:
        made = Repository(folder)
        try:
            yield made
        finally:
            made.let_go()


def runs_again():
    with repository() as r:
        status, out, said = r.run()
        hold(status == 0 and out.startswith("lampshade.bin: repaired"), "the first run builds and repairs")
        hold("repair: rules proved\nrepair: repair proved\n" in said, f"a line for each crate: {said!r}")
        hold(r.run() == (0, out, "") and r.lines("asked") == ["run repair", "run layers"], "the second run asks nothing of rt")
        r.touch()
        hold(r.run()[0] == 0 and len(r.lines("asked")) == 4, "a crate that changed is built anew")
        r.touch()
        os.utime(r.source, (0, 0))
        hold(r.run()[0] == 0 and len(r.lines("asked")) == 6, "so is one that came with an old date")
        os.remove(r.source)
        hold(r.run()[0] == 0 and len(r.lines("asked")) == 8, "so is one that lost a file")
        os.remove(r.folder + "/target/bin/repair")
        hold(r.run()[0] == 0 and len(r.lines("asked")) == 9, "so is a program that is gone")


def build_fails():
    with repository() as r:
        status, out, said = r.run(FAILING="yes")
        hold((status, out) == (2, "") and "rt run in crates/repair failed: see target/tests/rt.log" in said, "a failed build is 2")
        hold(r.run()[0] == 0, "and the next may succeed")


def gone(process):
    """Whether no such process runs, or only its entry is left."""
    try:
        with open(f"/proc/{process}/stat") as file:
            return file.read().rsplit(")", 1)[1].split()[0] in "ZX"
    except FileNotFoundError:
        return True


def interrupted_build():
    for number in (signal.SIGINT, signal.SIGTERM, signal.SIGHUP):
        with repository() as r:
            process = r.start(SLOW="yes")
            r.await_lines("provers", 1)
            process.send_signal(number)
            process.communicate(timeout=SOON)
            hold(process.returncode == -number and not os.listdir(r.room), f"{number.name} ends the build and leaves no file")
            end = time.monotonic() + SOON
            while not gone(r.lines("provers")[0]) and time.monotonic() < end:
                time.sleep(0.02)
            hold(gone(r.lines("provers")[0]), f"no prover is left after {number.name}")
            os.rmdir(r.kit + "/at-work")
            hold(r.run()[0] == 0, f"the next run builds, after {number.name}")


def two_at_once():
    with repository() as r:
        one = r.start(SLOW="yes")
        r.await_lines("provers", 1)
        two = r.start(SLOW="yes")
        said = two.stderr.readline().decode()
        r.let_go()
        for process in (one, two):
            process.communicate(timeout=SOON)
        hold("another run is building here" in said, f"the second says why it waits: {said!r}")
        hold((one.returncode, two.returncode) == (0, 0), "both repair")
        hold(r.lines("asked") == ["run repair", "run layers"] and not r.lines("two-at-once"), "and does not build again")


def nothing_installed():
    """What is missing is named with its package; no installer is called."""
    with tempfile.TemporaryDirectory() as folder:
        for name in ("apt-get", "sudo"):
            with open(os.path.join(folder, name), "w") as file:
                file.write(f"#!/bin/sh\n: >'{folder}/called'\n")
            os.chmod(os.path.join(folder, name), 0o755)
        text = f"me=test; root='{ROOT}'; . '{ROOT}/tests/build.sh'; need no-such-command its-package"
        done = subprocess.run(["sh", "-c", text], capture_output=True, env={**os.environ, "PATH": folder + ":" + os.environ["PATH"]}, timeout=SOON)
        hold(done.returncode == 2 and b"no-such-command is missing" in done.stderr and b"its-package" in done.stderr, "the package is named")
        hold(not os.path.exists(folder + "/called"), "nothing is installed")


TESTS = (runs_again, build_fails, interrupted_build, two_at_once, nothing_installed)


def runs():
    return script.runs
