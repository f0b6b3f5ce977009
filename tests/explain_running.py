"""Runs ./explain for its tests, and holds claims."""
import os
import re
import subprocess

from explain_inputs import ROOT

EXPLAIN = os.path.join(ROOT, "explain")
SOON = 60  # seconds within which everything here has to end
ONE_LINE = re.compile(r"^explain: .+\n$")

runs = 0


def hold(holds, claim):
    if not holds:
        raise AssertionError(claim)


def run(words, script=EXPLAIN, cwd=None, **more):
    """Status, output, and what was said."""
    global runs
    runs += 1
    given = {} if "input" in more else {"stdin": subprocess.DEVNULL}
    done = subprocess.run([script, *words], cwd=cwd, timeout=SOON, **{"stdout": subprocess.PIPE, "stderr": subprocess.PIPE, **given, **more})
    return done.returncode, (done.stdout or b"").decode(), done.stderr.decode()


def put(folder, name, contents):
    path = os.path.join(folder, name)
    with open(path, "wb") as file:
        file.write(contents)
    return path


def text(path):
    with open(path) as file:
        return file.read()
