#!/usr/bin/env python3
"""Installs the library as a user would, builds examples/plate.c with what is there, runs it, and takes it away: exactly what was put in place.

usage: tests/install.py CC CXX ARCHIVE
"""
import os
import re
import shutil
import stat
import subprocess
import sys
import tempfile

import install_example
import install_running
from install_running import ARCHIVE, CALLS, CC, FILES, HEADER, INSTALL, SHARED, SOON, VERSION
from install_running import everything, fails, install, installs, placed, read, told_by
from script import hold, hold_all, small_files

PREFIXES = ("plain", "with a space", "it's * a [hostile] & long; name", "é ü", "~", "-option", "trailing///")


# ---- what is put in place


def in_place():
    """Exactly these files, whole and for all to read, for any name of a folder; once more the same; and away."""
    with tempfile.TemporaryDirectory() as room:
        for name in PREFIXES:
            prefix = os.path.join(room, name)
            out = installs("--", prefix, preexec_fn=lambda: os.umask(0o077))
            hold(out.startswith(f"Omphirun {VERSION} is installed in ") and placed(prefix), f"{name}: {everything(prefix)}")
            hold(read(os.path.join(prefix, FILES[0])).decode() == HEADER and read(os.path.join(prefix, FILES[1])) == read(ARCHIVE), "whole")
            hold(os.readlink(os.path.join(prefix, "lib/libomphirun.so")) == SHARED, "the link leads to the major version")
            modes = [stat.S_IMODE(os.stat(os.path.join(prefix, file)).st_mode) for file in FILES + ["", "lib", "include", "lib/pkgconfig"]]
            hold(modes == [0o644, 0o644, 0o755, 0o755, 0o644] + [0o755] * 4, f"anybody can read them: {modes}")
            before = {file: read(os.path.join(prefix, file)) for file in FILES}
            installs("--", prefix)
            hold(placed(prefix) and before == {file: read(os.path.join(prefix, file)) for file in FILES}, f"{name}: once more the same")
            hold(installs("--uninstall", "--", prefix).startswith("5 files") and os.listdir(room) == [], f"{name}: nothing is left")
        hold(installs("--uninstall", prefix).startswith("0 files"), "there is nothing to take away twice")


def exported():
    """The shared library has the header's calls and no other name."""
    with tempfile.TemporaryDirectory() as room:
        installs(room)
        nm = re.sub("gcc$", "nm", CC)
        found = told_by([nm, "-D", "--defined-only", os.path.join(room, "lib", SHARED)])
        hold(sorted(line.split()[-1] for line in found.splitlines()) == CALLS, f"exported: {found}")
        installs("--uninstall", room)
        hold(os.path.isdir(room) and not os.listdir(room), "a folder that was there stays")


def needed():
    """The archive needs memset of whoever links it, and no other name."""
    nm = re.sub("gcc$", "nm", CC)
    found = told_by([nm, "-u", ARCHIVE])
    hold(sorted({line.split()[-1] for line in found.splitlines() if line.startswith(" ")}) == ["memset"], f"needed: {found}")


def short_names():
    """A relative PREFIX, a symlink to the script, a symlink to a folder."""
    with tempfile.TemporaryDirectory() as room:
        os.symlink(INSTALL, os.path.join(room, "one"))
        os.mkdir(os.path.join(room, "real"))
        os.symlink("real", os.path.join(room, "link"))
        done = subprocess.run(["./one", "link/../below/here"], cwd=room, capture_output=True, timeout=SOON)
        hold(done.returncode == 0 and placed(os.path.join(room, "below", "here")), f"a relative PREFIX: {done.stderr}")
        pc = read(os.path.join(room, "below", "here", "lib", "pkgconfig", "omphirun.pc")).decode()
        hold(f"\nprefix={room}/link/../below/here\n" in pc, "omphirun.pc names it whole")
        installs("--uninstall", "below/here", cwd=room)
        installs(os.path.join(room, "link"))
        hold(placed(os.path.join(room, "real")), "by a link to a folder")


def destdir():
    with tempfile.TemporaryDirectory() as room:
        stage = os.path.join(room, "a stage")
        installs("/opt/some where", env={"DESTDIR": stage})
        hold(placed(os.path.join(stage, "opt/some where")), "DESTDIR stands before PREFIX")
        pc = read(os.path.join(stage, "opt/some where/lib/pkgconfig/omphirun.pc")).decode()
        hold("\nprefix=/opt/some where\n" in pc and room not in pc, "what is installed speaks of PREFIX")
        fails("a relative PREFIX", "opt", env={"DESTDIR": stage})
        installs("/", env={"DESTDIR": os.path.join(room, "root")})
        hold(placed(os.path.join(room, "root")), "PREFIX can be / itself")
        installs("--uninstall", "/opt/some where", env={"DESTDIR": stage})
        hold(everything(stage) == ["opt"], "nothing is left")


def others_stay():
    """Files and folders of others stay, whatever their names."""
    with tempfile.TemporaryDirectory() as prefix:
        for folder in ("include", "lib/pkgconfig", "lib/cmake"):
            os.makedirs(os.path.join(prefix, folder))
        for file in ("lib/libomphirun.so.1", "lib/libother.so", "include/omphirun.hpp", "lib/pkgconfig/omphirun2.pc"):
            with open(os.path.join(prefix, file), "w") as out:
                out.write("another's")
        before = everything(prefix)
        installs(prefix)
        hold(sorted(before + FILES) == everything(prefix), "installed beside others")
        installs("--uninstall", prefix)
        hold(before == everything(prefix), "others stay")
        installs(prefix)
        path = os.path.join(prefix, "lib", "pkgconfig", "omphirun.pc")
        with open(path) as file:
            text = file.read()
        with open(path, "w") as file:
            file.write(text.replace("Version: " + VERSION, "Version: 1.2.3").replace("when empty:", "when empty: ../.. / lib/cmake include/.."))
        installs("--uninstall", prefix)
        hold(everything(prefix) == sorted(set(before) - {"lib/libomphirun.so.1"} | {"lib/" + SHARED}), "the version that omphirun.pc names is taken away")


# ---- what goes wrong


def wrong_words():
    hold(install("--help")[0] == 0 and install("-h")[1].startswith("usage: ./install"), "--help")
    for words in ((), ("--uninstall",), ("--unistall", "/tmp/x"), ("a", "b"), ("",), ("--", ""), ("-x",)):
        fails("a wrong command", *words)


def hostile_names():
    """Names that omphirun.pc could not hold are refused before anything is written."""
    with tempfile.TemporaryDirectory() as room:
        for name in ('a"b', "a$b", "a#b", "a\\b", "a`b", "a(b", "a)b", "a\nb", "a\tb", "a\x7fb", "ends in a space "):
            fails(f"{name!r}", os.path.join(room, name))
            hold(os.listdir(room) == [], f"{name!r}: nothing is written")


def no_place():
    """Where nothing can be written, nothing is: no part of it, and no folder."""
    for prefix in ("/proc/omphirun", "/dev/null", "/dev/null/below"):
        hold(prefix in fails("no place to write to", prefix), f"{prefix} is named")
    with tempfile.TemporaryDirectory() as room:
        prefix = os.path.join(room, "prefix")
        for name in FILES:
            os.makedirs(os.path.join(prefix, name))
            before = everything(room)
            hold(name in fails("a folder where a file has to be", prefix) and everything(room) == before, f"{name}: nothing is written")
            shutil.rmtree(prefix)
        os.mkdir(prefix)
        open(os.path.join(prefix, "lib"), "w").close()
        hold("/lib" in fails("a file where a folder has to be", prefix) and everything(room) == ["prefix", "prefix/lib"], "nothing is written")
        os.remove(os.path.join(prefix, "lib"))
        fails("a full disk", prefix, preexec_fn=small_files)
        hold(everything(room) == ["prefix"], "nothing is left of what was begun")
        installs(prefix)
        before = {file: read(os.path.join(prefix, file)) for file in FILES}
        fails("a full disk", prefix, preexec_fn=small_files)
        hold(placed(prefix) and before == {file: read(os.path.join(prefix, file)) for file in FILES}, "what was there stays whole")
        if os.geteuid() != 0:
            for folder in ("lib", "include", "lib/pkgconfig"):
                os.chmod(os.path.join(prefix, folder), 0o555)
                fails("a folder that cannot be written", prefix)
                fails("nor taken from", "--uninstall", prefix)
                os.chmod(os.path.join(prefix, folder), 0o755)
        installs("--uninstall", prefix)


if __name__ == "__main__":
    failures = hold_all((in_place, install_example.example, exported, needed, short_names, destdir, others_stay, wrong_words, hostile_names, no_place))
    missing = sorted(set(install_example.passed_over))
    without = f", passed over: {' and '.join(missing)}, not installed" if missing else ""
    print(f"tests/install: ./install in {install_running.runs} runs, plate.c in {install_example.tried}, {failures} failures{without}")
    sys.exit(1 if failures else 0)
