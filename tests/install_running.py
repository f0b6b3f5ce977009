"""What the tests of ./install share: the command run and judged, what lies in a folder, the tools that were named on the command line."""
import os
import re
import subprocess
import sys
import tempfile

from script import ROOT, hold

INSTALL = os.path.join(ROOT, "install")
CC, CXX, ARCHIVE = (sys.argv[1:4] + [None] * 3)[:3]
SOON = 60

runs = 0


def read(path):
    with open(path, "rb") as file:
        return file.read()


HEADER = read(os.path.join(ROOT, "include", "omphirun.h")).decode()
VERSION = ".".join(re.findall(r"^#define OMPHIRUN_(?:MAJOR|MINOR|PATCH) (\d+)", HEADER, re.M))
SHARED = "libomphirun.so." + VERSION.split(".")[0]
CALLS = sorted(re.findall(r"^uint32_t (omphirun_\w+)\(", HEADER, re.M))
FILES = ["include/omphirun.h", "lib/libomphirun.a", "lib/" + SHARED, "lib/libomphirun.so", "lib/pkgconfig/omphirun.pc"]


def install(*words, env=None, **more):
    """Runs ./install and answers status, output and what it said; nothing may be left in the temporary folder."""
    global runs
    runs += 1
    with tempfile.TemporaryDirectory() as room:
        everything = {**os.environ, "TMPDIR": room, **(env or {})}
        done = subprocess.run([INSTALL, *words], stdin=subprocess.DEVNULL, capture_output=True, env=everything, timeout=SOON, **more)
        hold(not os.listdir(room), f"{words}: nothing is left in the temporary folder")
    return done.returncode, done.stdout.decode(), done.stderr.decode()


def installs(*words, **more):
    status, out, said = install(*words, **more)
    hold((status, said) == (0, ""), f"{words}: status {status}, said {said!r}")
    return out


def fails(claim, *words, **more):
    """What goes wrong is 2, with one line on standard error and nothing on standard output."""
    status, out, said = install(*words, **more)
    hold(status == 2 and out == "" and re.fullmatch(r"install: .+\n", said), f"{claim}: status {status}, said {said!r}")
    return said


def everything(folder):
    """All that lies in a folder, empty folders too."""
    return sorted(os.path.relpath(os.path.join(at, name), folder) for at, folders, files in os.walk(folder) for name in folders + files)


def placed(prefix):
    return sorted(FILES + ["include", "lib", "lib/pkgconfig"]) == everything(prefix)


def told_by(words, **more):
    """What a tool prints; it has to succeed without a word of complaint."""
    done = subprocess.run(words, capture_output=True, timeout=SOON, **more)
    hold(done.returncode == 0 and done.stderr == b"", f"{words}: {done.stdout.decode()[-300:]}{done.stderr.decode()[-700:]}")
    return done.stdout.decode()
