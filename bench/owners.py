#!/usr/bin/env python3
"""Times whole programs on STL files, in turn, from start to end; the best round counts. What a program prints goes to a file in memory.

usage: bench/owners.py "PLATE COMMAND" FILE...
"""
import os
import shlex
import shutil
import subprocess
import sys
import tempfile
import time

LEAST_ROUNDS, MOST_ROUNDS, SECONDS = 5, 100, 10.0
MEMORY = "/dev/shm" if os.path.isdir("/dev/shm") else None


def run(command, path):
    """Seconds by the clock and of the processor, and the first line that was printed."""
    with open(path, "rb") as file, tempfile.TemporaryFile(dir=MEMORY) as printed:
        began = time.perf_counter()
        started = subprocess.Popen(command, stdin=file, stdout=printed, stderr=subprocess.DEVNULL)
        _, status, used = os.wait4(started.pid, 0)
        took = time.perf_counter() - began
        started.returncode = os.waitstatus_to_exitcode(status)
        if started.returncode:
            sys.exit(f"bench: {command[0]} ended with {started.returncode} on {path}")
        printed.seek(0)
        return took, used.ru_utime + used.ru_stime, printed.readline(200).decode(errors="replace").strip()


def peak_of(command, path):
    """The most memory that a run holds, in bytes: looked at again and again until it ends, in a run that is not timed."""
    most = 0
    with open(path, "rb") as file, tempfile.TemporaryFile(dir=MEMORY) as printed:
        started = subprocess.Popen(command, stdin=file, stdout=printed, stderr=subprocess.DEVNULL)
        while started.poll() is None:
            with open(f"/proc/{started.pid}/status") as status:
                for line in status:
                    if line.startswith("VmHWM:"):
                        most = max(most, 1024 * int(line.split()[1]))
    return most


def sides(plate, path, folder):
    """The commands, by their names; admesh writes what it has mended, as plate does."""
    found = {"plate": [*shlex.split(plate), "5f00r"], "cat": ["cat"]}
    if shutil.which("admesh"):
        found["admesh"] = ["admesh", f"--write-binary-stl={folder}/out.stl", path]
    return found


def main(words):
    if len(words) < 2:
        sys.exit('usage: bench/owners.py "PLATE COMMAND" FILE...')
    if not shutil.which("admesh"):
        print("admesh is not installed (Debian's package admesh): its rows are left out")
    print(f"{'file':<14} {'MB':>7} {'program':>8} {'clock ms':>10} {'processor ms':>13} {'MB/s':>8} {'peak MB':>8}")
    for path in sorted(words[1:], key=os.path.getsize):
        size = os.path.getsize(path)
        with tempfile.TemporaryDirectory(dir=MEMORY) as folder:
            commands = sides(words[0], path, folder)
            best, end = {}, time.perf_counter() + SECONDS
            for number in range(MOST_ROUNDS):
                if number >= LEAST_ROUNDS and time.perf_counter() > end:
                    break
                for name, command in commands.items():
                    took, used, first = run(command, path)
                    if name == "plate" and not first.startswith("level "):
                        sys.exit(f"bench: plate says {first!r} of {path}")
                    old = best.get(name, (took, used))
                    best[name] = (min(took, old[0]), min(used, old[1]))
            for name, (took, used) in best.items():
                times = f"{1e3 * took:10.1f} {1e3 * used:13.1f} {size / 1e6 / took:8.0f}"
                print(f"{os.path.basename(path):<14} {size / 1e6:7.1f} {name:>8} {times} {peak_of(commands[name], path) / 1e6:8.1f}", flush=True)


if __name__ == "__main__":
    main(sys.argv[1:])
