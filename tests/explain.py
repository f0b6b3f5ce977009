#!/usr/bin/env python3
"""Holds ./explain to what it says. usage: tests/explain.py [--keep]     (target/bin/repair and layers are there and newer than the crates)

The examples' accounts are those kept in tests/accounts; wrong inputs give one line and nothing half written; the first run builds; random
streams agree. Planted differences are in tests/explain_planted.py, the page in tests/explain_page.py.
"""
import functools
import os
import re
import shutil
import signal
import struct
import subprocess
import sys
import tempfile
import time

import explain_page
import explain_planted
import explain_running
import script_build
from explain_inputs import CANCELLING, EXAMPLES, ROOT, WHOLE_JOB, job, random_stream, stl, wrong
from explain_running import EXPLAIN, ONE_LINE, SOON, hold, put, run, text

import marking  # explaining/ is on the path since explain_inputs
import proved
from lattice import Level

ACCOUNTS = os.path.join(ROOT, "tests", "accounts")
PICTURE = os.path.join(ROOT, "docs", "lampshade_rim.svg")


# ---- accounts that are kept

@functools.cache
def largest_rim():
    """The number of the lampshade's rim with most odd faces: the hole."""
    rims = re.findall(r"^  rim (\d+): (\d+) gaps?, (\d+) membranes?", run([])[1], re.M)
    return max(rims, key=lambda rim: int(rim[1]) + int(rim[2]))[0]


def made_accounts():
    """Each kept account as it is now: the command, and what it prints or says."""
    with tempfile.TemporaryDirectory() as folder:
        for name, contents, words in [*EXAMPLES, CANCELLING]:
            put(folder, name, contents)
            status, out, said = run([*words, name], cwd=folder)
            hold(status == 1 if out == "" else said == "", f"{name}: status {status}, said {said!r}")
            yield os.path.splitext(name)[0], f"$ ./explain {' '.join([*words, name])}\n{out}{said}"
    for name, words in (("lampshade", []), ("lampshade_hole", ["--rim", largest_rim()])):
        yield name, f"$ ./explain {' '.join(words)}".rstrip() + f"\n{run(words)[1]}"


def kept_accounts():
    for name, account in made_accounts():
        hold(account == text(os.path.join(ACCOUNTS, name + ".txt")), f"the account {name} is the one kept")


def kept_picture():
    with tempfile.TemporaryDirectory() as folder:
        path = os.path.join(folder, "rim.svg")
        status, _, said = run(["--svg", path, "--rim", largest_rim()])
        hold(status == 0, said)
        hold(text(path) == text(PICTURE), "docs/lampshade_rim.svg is what the tool draws")


def keep():
    """Writes what is kept anew."""
    shutil.rmtree(ACCOUNTS, ignore_errors=True)
    os.makedirs(ACCOUNTS)
    for name, account in made_accounts():
        put(ACCOUNTS, name + ".txt", account.encode())
    run(["--svg", PICTURE, "--rim", largest_rim(), "--force"])


# ---- wrong inputs, and files

def wrong_inputs():
    """One line on standard error, nothing on standard output, no file but the input."""
    with tempfile.TemporaryDirectory() as folder:
        for at, (name, contents, words, expected, line) in enumerate(wrong()):
            path = put(folder, name, contents)
            more = ["--page", "page.html"] if expected == 1 and at % 2 else []
            status, out, said = run([*words, *more, name], cwd=folder)
            hold((status, out) == (expected, "") and ONE_LINE.match(said) and re.search(line, said), f"{name} {words}: status {status}, said {said!r}")
            os.unlink(path)
            hold(os.listdir(folder) == [], f"{name}: nothing is written")
        for name in ("/nonexistent/file", folder):
            status, out, said = run([name])
            hold((status, out) == (2, "") and ONE_LINE.match(said), f"a file that cannot be read: {said!r}")


def other_forms():
    """The same triangles as stream, STL and job, from a file and from standard input, give the same account."""
    name, stream, words = next(example for example in EXAMPLES if example[0].startswith("example_08"))
    triangles = [struct.unpack_from("<9i", stream, at) for at in range(1, len(stream), 36)]
    half = stl(*(tuple(v / 2 for v in t) for t in triangles))
    with tempfile.TemporaryDirectory() as folder:
        told = run(words + [put(folder, "same", stream)])[1]
        hold(told.startswith("same: level 2"), told)
        hold(run(words + ["--e", "1", "--level", "2", "--kind", "stl", put(folder, "same", half)])[1] == told, "as STL")
        hold(run(words + ["--kind", "job", put(folder, "same", job(2, (2, stream[1:])))])[1] == told, "as job")
        hold(run(words + ["-"], input=stream)[1] == told.replace("same:", "standard input:", 1), "from standard input")
        odd = os.fsdecode(b"\xff <b>.bin")
        hold(run(words + [put(folder, odd, stream)])[1] == told.replace("same:", "\\udcff <b>.bin:", 1), "a name that is no text")
        told = run([put(folder, "a.job", WHOLE_JOB)])[1]
        hold(told.endswith("The job's grid: what comes of its triangles.\nThe job's quads: what comes of its triangles.\n"), f"a whole job: {told}")
        for at, body in ((29 + 5, "grid"), (len(WHOLE_JOB) - 1, "quads")):
            changed = WHOLE_JOB[:at] + bytes([WHOLE_JOB[at] ^ 8]) + WHOLE_JOB[at + 1:]
            told = run([put(folder, "a.job", changed)])[1]
            hold(f"The job's {body}: NOT what comes of its triangles; byte" in told, f"a false byte of a job's {body}: {told}")


def files():
    """A file that is there is written over with --force alone, the input never; what cannot be written leaves nothing."""
    with tempfile.TemporaryDirectory() as folder:
        name, contents, _ = EXAMPLES[1]
        put(folder, name, contents)
        put(folder, "there.html", b"mine")
        for words in (["--page", "there.html"], ["--svg", "there.html", "--layer", "z,2"], ["--page", name, "--force"]):
            status, out, said = run([*words, name], cwd=folder)
            hold((status, out) == (2, "") and ONE_LINE.match(said), f"{words}: {status} {said!r}")
        hold(text(os.path.join(folder, "there.html")) == "mine" and sorted(os.listdir(folder)) == sorted([name, "there.html"]), "nothing is written")
        hold(run(["--page", "there.html", "--force", name], cwd=folder)[0] == 0, "--force")
        hold("<svg" in text(os.path.join(folder, "there.html")) and sorted(os.listdir(folder)) == sorted([name, "there.html"]), "written whole")
    with open("/dev/full", "w") as full:
        status, _, said = run([], stdout=full)
        hold(status == 2 and ONE_LINE.match(said), f"a full disk: {said!r}")
    done = subprocess.run(f"{{ '{EXPLAIN}' --all; echo $? >&2; }} | head -n 1", shell=True, capture_output=True, timeout=SOON)
    hold(done.stdout.startswith(b"lampshade.bin: level 5") and done.stderr == b"0\n", "a reader that stops early is no failure")


def interrupts():
    """While it waits for its input it ends by the signal."""
    for number in (signal.SIGINT, signal.SIGTERM):
        process = subprocess.Popen([EXPLAIN, "-"], stdin=subprocess.PIPE, stderr=subprocess.PIPE)
        time.sleep(0.5)
        process.send_signal(number)
        hold(process.wait(SOON) == -number and process.stderr.read() == b"", f"{number.name} ends it")
        process.stdin.close()
        process.stderr.close()


# ---- the first run

class Repository(script_build.Repository):
    """A copy of what ./explain needs, with a kit that only pretends to prove."""
    tool = "explain"

    def __init__(self, folder):
        super().__init__(folder)
        shutil.copy(EXPLAIN, self.folder)
        shutil.copytree(os.path.join(ROOT, "explaining"), os.path.join(self.folder, "explaining"))


def first_run():
    """It builds and says so; a build that fails, or is interrupted, ends it and leaves nothing."""
    with tempfile.TemporaryDirectory() as folder:
        r = Repository(folder)
        status, out, said = r.run(FAILING="yes")
        hold((status, out) == (2, "") and said.endswith("explain: rt run in crates/repair failed: see target/tests/rt.log\n"), f"a failed build: {said!r}")
        process = r.start(SLOW="yes")
        r.await_lines("provers", 1)
        process.send_signal(signal.SIGTERM)
        process.communicate(timeout=SOON)
        hold(process.returncode == -signal.SIGTERM and not os.listdir(r.room), "a signal ends the build and leaves no file")
        hold(script_build.gone(r.lines("provers")[0]), "no prover is left")
        os.rmdir(r.kit + "/at-work")
        status, out, said = r.run()
        hold(status == 0 and out.startswith("lampshade.bin: level 5") and "explain: repair proved\n" in said, f"the first run: {said!r}")
        asked = r.lines("asked")
        hold(r.run() == (0, out, "") and r.lines("asked") == asked, "the second asks nothing of rt")


# ---- the comparison

def single_edges():
    """The triangles that the program is asked with mark one edge each."""
    for level in (Level(2), Level(3)):
        edges = [(a, level.point_of(p)) for p in range(level.points) for a in range(3)]
        asked = [edge for edge in edges if level.is_inner(edge) and proved.can_be_asked(level, edge)]
        hold(len(asked) == 3 * (level.n - 2) * (level.n - 3) ** 2, "edges away from the outermost cells can be asked for")
        for edge in asked:
            hold(marking.edges_met(level, proved.as_triangles(level, [edge])[0]) == [edge], f"one triangle meets {edge} alone")


def agreement():
    """Random streams, at every level: what is worked out here is what the proved program gives."""
    with tempfile.TemporaryDirectory() as folder:
        for seed in range(10):
            status, out, said = run([put(folder, "random.bin", random_stream(seed))])
            hold(status == 0 or said.startswith("explain: refused 8"), f"random stream {seed}: {said!r}")


# ---- all of it

def hold_all(tests):
    """Answers how many of the tests do not hold."""
    failed = 0
    for test in tests:
        began = time.monotonic()
        try:
            test()
        except (AssertionError, subprocess.TimeoutExpired, OSError) as fault:
            failed += 1
            print(f"{test.__name__}: DOES NOT HOLD: {fault}")
        if "--times" in sys.argv:
            print(f"{test.__name__}: {time.monotonic() - began:.1f} s")
    return failed


if __name__ == "__main__":
    if "--keep" in sys.argv:
        keep()
    browser = explain_page.find_browser()
    tests = (kept_accounts, kept_picture, wrong_inputs, other_forms, files, interrupts, first_run, single_edges, agreement, *explain_planted.TESTS)
    failures = hold_all(tests + (explain_page.TESTS if browser else ()))
    seen = "the page NOT opened: no browser is installed (Debian's package chromium)"
    if browser:
        seen = f"the page in {os.path.basename(browser)}, {explain_page.slowest():.1f} ms a layer"
    print(f"tests/explain: {len(EXAMPLES)} accounts of the examples, {explain_planted.MANY} planted differences, {explain_running.runs} runs, {seen}, "
          f"{failures} failures")
    sys.exit(1 if failures else 0)
