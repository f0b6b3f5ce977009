#!/usr/bin/env python3
"""Runs ./repair as a user would and holds it to what it says: options, exit statuses, interrupts, streams without end, symlinks.

usage: tests/script.py     (the programs that it runs are in target/bin and newer than the crates)
"""
import os
import re
import resource
import shutil
import signal
import struct
import subprocess
import sys
import tempfile
import time

ROOT = os.path.dirname(os.path.dirname(os.path.abspath(__file__)))
REPAIR = os.path.join(ROOT, "repair")
MIDDLE = 262144
MOST_TRIANGLES = 100000
SOON = 20  # seconds within which everything here has to end
ONE_LINE = re.compile(r"^repair: .+\n$")

runs = 0


def hold(holds, claim):
    if not holds:
        raise AssertionError(claim)


def triangle(*corners):
    return struct.pack("<9i", *corners)


POINT = triangle(*[MIDDLE] * 9)


def stored(name):
    with open(os.path.join(ROOT, "tests", "listings", name + ".txt")) as file:
        return file.read()


def environment(room, **more):
    """A temporary folder of its own, so that what is left behind is seen."""
    return {**os.environ, "TMPDIR": room, **more}


def run(words, script=REPAIR, room=None, env=None, **more):
    """Runs the script and answers status, output and what it said; nothing may be left in the temporary folder."""
    global runs
    runs += 1
    with tempfile.TemporaryDirectory() as own:
        given = {} if "input" in more else {"stdin": subprocess.DEVNULL}
        channels = {"stdout": subprocess.PIPE, "stderr": subprocess.PIPE, **given, **more}
        done = subprocess.run([script, *words], env=environment(room or own, **(env or {})), timeout=SOON, **channels)
        hold(not os.listdir(own), f"{words}: nothing is left in the temporary folder")
    return done.returncode, (done.stdout or b"").decode(), done.stderr.decode()


def fails(claim, words, **more):
    """What goes wrong is 2, with one line on standard error and nothing on standard output."""
    status, out, said = run(words, **more)
    hold(status == 2 and out == "" and ONE_LINE.match(said), f"{claim}: status {status}, said {said!r}")
    return said


def reports():
    lampshade = stored("lampshade")
    numbers = re.findall(r"\d+", "".join(lampshade.splitlines(True)[:2]))
    status, out, said = run([])
    told = [re.search(rf"^  {word} +(\d+)", out, re.M).group(1) for word in ("level", "triangles", "rims", "flips", "inside", "quads")]
    hold(status == 0 and said == "" and out.startswith("lampshade.bin: repaired\n") and told == numbers, "the sample's report")
    with open(os.path.join(ROOT, "models", "lampshade.bin"), "rb") as file:
        stream = file.read()
    hold(run(["-"], input=stream)[1] == out.replace("lampshade.bin", "standard input"), "the same from standard input")
    status, out, _ = run(["--quads", os.path.join(ROOT, "models", "lampshade.bin")])
    hold(status == 0 and out.endswith("\n\n" + lampshade), "--quads prints the listing")
    status, out, _ = run(["--picture"])
    layers = [row for row in out.splitlines() if re.fullmatch("[#.]{33}", row)]
    hold(status == 0 and len(layers) == 33 * 33 and sum(row.count("#") for row in layers) == int(numbers[4]), "--picture prints the layers")


def gaps_and_membranes():
    """A model that lacks faces is told from one with an extra wall, and both from one that is closed; the picture shows where."""
    def told(model):
        _, out, _ = run(["--picture", os.path.join(ROOT, "models", f"{model}.bin")])
        counts = [int(re.search(rf"^  {word} +(\d+)", out, re.M).group(1)) for word in ("missing", "walls")]
        rows = re.findall(r"^[-ox*]{33}$", out, re.M)
        hold(len(rows) == 33 * 33, f"{model}: the second picture")
        for letter, count in zip("ox", counts):  # three faces stand at a point
            points = sum(row.count(letter) + row.count("*") for row in rows)
            hold(points <= count <= 3 * points, f"{model}: {points} points for {count} faces")
        return counts

    missing, walls = told("sphere_with_hole")
    hold(missing > walls, f"a sphere with a hole lacks faces: {missing} missing, {walls} walls")
    missing, walls = told("box_with_membrane")
    hold(walls > missing, f"a box with a membrane has an extra wall: {missing} missing, {walls} walls")
    hold(told("overlapping_boxes") == [0, 0], "two whole boxes lack nothing")


def options():
    with open(os.path.join(ROOT, "include", "omphirun.h")) as file:
        version = ".".join(re.findall(r"^#define OMPHIRUN_(?:MAJOR|MINOR|PATCH) (\d+)", file.read(), re.M))
    hold(run(["--version"]) == (0, f"repair (Omphirun) {version}\n", ""), "--version")
    for word in ("--help", "-h"):
        status, out, _ = run([word])
        hold(status == 0 and out.startswith("usage: ./repair"), word)
    for word in ("--quad", "-q", "--quads=1"):
        hold(word + ":" in fails("an unknown option", [word]), f"{word} is named")
    hold("a" in fails("two files", ["a", "b"]), "the files are named")
    for name in ("", "/nonexistent/file", ROOT):
        hold(name in fails("a file that cannot be read", [name]), "the file is named")
    with tempfile.TemporaryDirectory() as folder:
        shutil.copy(os.path.join(ROOT, "models", "bowl.bin"), os.path.join(folder, "--quads"))
        status, out, _ = run(["--", "--quads"], cwd=folder)
        hold(status == 0 and out.startswith("--quads: repaired"), "-- ends the options")


def contents(folder):
    files = {}
    for name in sorted(os.listdir(folder)):
        with open(os.path.join(folder, name), "rb") as file:
            files[name] = file.read()
    return files


def masks_of(picture, row):
    """The masks as they have to be, by the layers that --picture prints."""
    rows = re.findall(rf"^[#.]{{{row}}}$", picture, re.M)
    packed = [int(r.replace("#", "1").replace(".", "0").ljust(-row // 8 * -8, "0"), 2).to_bytes(-(-row // 8), "big") for r in rows]
    return {f"layer_{k:02}.pbm": b"P4\n%d %d\n" % (row, row) + b"".join(packed[row * k:row * (k + 1)]) for k in range(row)}


def masks():
    """A file for each layer, the same layers that --picture prints; no file is written over unless told, and none is there in part."""
    with tempfile.TemporaryDirectory() as folder:
        new, small = os.path.join(folder, "a new", "folder"), os.path.join(folder, "small")
        status, out, said = run(["--picture", "--masks", new])
        hold((status, said) == (0, "") and f"\n  masks      33, layer_00.pbm to layer_32.pbm in {new}\n" in out, f"--masks: {status} {said!r}")
        right = masks_of(out, 33)
        hold(len(right) == 33 and contents(new) == right, "the masks are the layers")
        status, out, _ = run(["--masks", small, "--picture", "-"], input=b"\2" + POINT)
        hold(status == 0 and len(contents(small)) == 5 and contents(small) == masks_of(out, 5), "the masks of level 2")
        os.remove(os.path.join(new, "layer_00.pbm"))
        with open(os.path.join(new, "layer_32.pbm"), "wb") as file:
            file.write(b"kept")
        there = contents(new)
        hold("layer_01.pbm" in fails("a file that is there", ["--masks", new]) and contents(new) == there, "no file is written over, and none added")
        for name in there:
            if name != "layer_32.pbm":
                os.remove(os.path.join(new, name))
        hold("layer_32.pbm" in fails("a last file", ["--masks", new]) and contents(new) == {"layer_32.pbm": b"kept"}, "nor is any before it")
        hold(run(["--masks", new, "--force"])[0] == 0 and contents(new) == right, "--force writes over it")
        os.symlink("nowhere", os.path.join(folder, "layer_00.pbm"))
        fails("a symlink that leads nowhere", ["--masks", folder])
        os.remove(os.path.join(folder, "layer_00.pbm"))
        os.mkdir(os.path.join(folder, "layer_00.pbm"))
        fails("a folder where a mask has to be", ["--masks", folder, "--force"])
        none = os.path.join(folder, "none")
        hold(run(["--masks", none, "-"], input=b"")[0] == 1 and not os.path.exists(none), "a refused stream has no masks")
        hold(sorted(os.listdir(folder)) == ["a new", "layer_00.pbm", "small"], "nothing is left beside the masks")
        model = shutil.copy(os.path.join(ROOT, "models", "bowl.bin"), os.path.join(small, "layer_30.pbm"))
        hold("is the file that is read" in fails("a model where a mask has to be", ["--force", "--masks", small, model]), "the input is kept")
        for words in (["--masks"], ["--masks", ""], ["--masks", "--quads"], ["--masks", none, "--masks", small], ["--force"],
                      ["--masks", "/dev/null"], ["--masks", "/dev/null/folder"]):
            fails("a folder that is none", words)
        hold(not os.path.exists(none), "nor has a wrong command")


def many_quads():
    """A short line through each of many grid points, which marks the six edges there."""
    half = 1 << 14
    places = [(i, j, k) for k in range(2, 31, 2) for j in range(2, 31, 2) for i in range(2, 31, 2)]
    return b"\5" + b"".join(triangle(*[half * c - 1 for c in p], *[half * c for c in p] * 2) for p in places)


def refusals():
    streams = {1: b"", 3: b"\2" + POINT[:35], 4: b"\2" + triangle(0, *[MIDDLE] * 8), 24: b"\2" + triangle(*[MIDDLE] * 8, 393216),
               8: many_quads(), 9: b"\2" + POINT * (MOST_TRIANGLES + 1)}
    for number, stream in streams.items():
        status, out, said = run(["--quads", "-"], input=stream)
        hold((status, out) == (1, "") and re.match(rf"^standard input: refused {number}: .+\n$", said), f"refused by {number}: {status} {said!r}")


def bad_coordinates():
    """Which coordinate is out, and on which side: the first of the first triangle that has one, whatever follows."""
    for number, side, level, bad in ((4, "below", 2, 131071), (24, "above", 2, 393216), (4, "below", 5, -(1 << 31)), (24, "above", 5, (1 << 31) - 1)):
        for place in range(9):
            numbers = [MIDDLE] * place + [bad] + [0] * (8 - place)
            stream = bytes([level]) + POINT * place + triangle(*numbers) + triangle(*[0] * 9) + b"unfinished"
            status, out, said = run(["-"], input=stream)
            least = 1 << (19 - level)
            words = (f"standard input: refused {number}: a coordinate lies {side} the level's range: {'xyz'[place % 3]} of corner {'ABC'[place // 3]} "
                     f"of triangle {place + 1} is {bad}, the range is {least} to {524287 - least}\n")
            hold((status, out, said) == (1, "", words), f"place {place}: {said!r}")


def without_end():
    """No more is read than the program would look at."""
    hold(run(["/dev/zero"])[0] == 1, "/dev/zero is refused")
    with tempfile.TemporaryDirectory() as folder:
        for number, begin in ((4, b"\2"), (9, b"\2" + POINT * MOST_TRIANGLES)):
            path = os.path.join(folder, "large")
            with open(path, "wb") as file:
                file.write(begin)
                file.truncate(3 << 30)
            began = time.monotonic()
            status, _, said = run([path])
            hold(status == 1 and f"refused {number}" in said, f"3 GB are refused by {number}")
            hold(time.monotonic() - began < SOON / 2, "3 GB are refused at once")


def small_files():
    """As on a full disk: no file may grow beyond 4 kB."""
    signal.signal(signal.SIGXFSZ, signal.SIG_IGN)
    resource.setrlimit(resource.RLIMIT_FSIZE, (4096, 4096))


def what_goes_wrong():
    fails("closed input", ["-"], stdin=None, preexec_fn=lambda: os.close(0))
    fails("closed output", [], preexec_fn=lambda: os.close(1))
    with open("/dev/full", "w") as full:
        fails("a full disk", [], stdout=full)
        hold(run(["/dev/zero"], stdout=full)[0] == 1, "a refusal needs no room on standard output")
    fails("no temporary folder", [], room="/nonexistent")
    fails("no room in the temporary folder", [], preexec_fn=small_files)
    fails("no room for the listing", ["-"], input=many_quads()[:100 * 36 + 1], preexec_fn=small_files)
    fails("no room for the picture", ["--picture", "-"], input=b"\5" + POINT, preexec_fn=small_files)
    with tempfile.TemporaryDirectory() as tools:
        for name in ("dirname", "mktemp", "readlink", "rm"):
            os.symlink(shutil.which(name), os.path.join(tools, name))
        hold(run([], env={"PATH": tools})[:2] == (2, ""), "a tool that is missing is 2 as well")
        os.symlink(shutil.which("basename"), os.path.join(tools, "basename"))
        hold("Rattle" in fails("no kit", [], env={"PATH": tools}), "the kit is named")


def early_reader():
    global runs
    runs += 1
    done = subprocess.run(f"{{ '{REPAIR}' --quads; echo $? >&2; }} | head -n 1", shell=True, capture_output=True, timeout=SOON)
    hold((done.stdout, done.stderr) == (b"lampshade.bin: repaired\n", b"0\n"), "a reader that stops early is no failure")


def symlinks():
    with tempfile.TemporaryDirectory() as folder:
        os.symlink(REPAIR, os.path.join(folder, "one"))
        os.symlink("one", os.path.join(folder, "two"))
        for name in ("one", "two"):
            hold(run([], script=os.path.join(folder, name), cwd="/")[0] == 0, "a symlink works")
            hold(run([], script="./" + name, cwd=folder)[0] == 0, "a symlink works by a short path")


def group_is_gone(group):
    end = time.monotonic() + SOON
    while time.monotonic() < end:
        try:
            os.killpg(group, 0)
        except ProcessLookupError:
            return True
        time.sleep(0.05)
    return False


def interrupts():
    """While it waits for its input: it ends by the signal, and leaves no file and no process."""
    global runs
    for number in (signal.SIGINT, signal.SIGTERM, signal.SIGHUP):
        runs += 1
        with tempfile.TemporaryDirectory() as room:
            process = subprocess.Popen([REPAIR, "-"], stdin=subprocess.PIPE, env=environment(room), start_new_session=True)
            end = time.monotonic() + SOON
            while not any("stream" in files for _, _, files in os.walk(room)) and time.monotonic() < end:
                time.sleep(0.05)
            process.send_signal(number)
            hold(process.wait(SOON) == -number, f"{number.name} ends it")
            process.stdin.close()
            hold(group_is_gone(process.pid) and not os.listdir(room), f"nothing is left after {number.name}")


def hold_all(tests):
    """Answers how many of the tests do not hold."""
    failed = 0
    for test in tests:
        try:
            test()
        except (AssertionError, subprocess.TimeoutExpired, OSError) as fault:
            failed += 1
            print(f"{test.__name__}: DOES NOT HOLD: {fault}")
    return failed


if __name__ == "__main__":
    import script_build
    import script_job
    import script_many
    import script_stl
    failures = hold_all((reports, gaps_and_membranes, options, masks, refusals, bad_coordinates, without_end, what_goes_wrong, early_reader, symlinks,
                         interrupts))
    failures += hold_all(script_job.TESTS)
    failures += hold_all(script_stl.TESTS)
    failures += hold_all(script_many.TESTS)
    failures += hold_all(script_build.TESTS)
    print(f"tests/script: ./repair in {runs + script_build.runs()} runs, {failures} failures")
    sys.exit(1 if failures else 0)
