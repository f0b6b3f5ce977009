#!/usr/bin/env python3
"""Times whole programs beside each other on the same streams, in turn, by the processor's time for each; the best round counts.

usage: bench/programs.py "REPAIR COMMAND" "REFERENCE COMMAND" "DESCENT COMMAND" STREAM...     (the third: the reference, marking by its descent)
"""
import os
import shlex
import subprocess
import sys
import tempfile
import time

LEAST_ROUNDS, MOST_ROUNDS, SECONDS = 5, 100, 3.0


def run(command, stream):
    """The processor's time, and what was printed."""
    with open(stream, "rb") as file, tempfile.TemporaryFile() as printed:
        started = subprocess.Popen(command, stdin=file, stdout=printed)
        _, status, used = os.wait4(started.pid, 0)
        started.returncode = os.waitstatus_to_exitcode(status)
        if started.returncode:
            sys.exit(f"bench: {command[-1]} ended with {started.returncode} on {stream}")
        printed.seek(0)
        return used.ru_utime + used.ru_stime, printed.read()


def time_stream(commands, stream):
    """The best time of each command, and the first line that they print; all must print the same."""
    best, printed, end = [float("inf")] * len(commands), [None] * len(commands), time.perf_counter() + SECONDS
    for number in range(MOST_ROUNDS):
        if number >= LEAST_ROUNDS and time.perf_counter() > end:
            break
        for side, command in enumerate(commands):
            took, printed[side] = run(command, stream)
            best[side] = min(best[side], took)
    if len(set(printed)) != 1:
        sys.exit(f"bench: the programs print different things for {stream}")
    return best, printed[0].decode().split("\n", 1)[0]


def main(words):
    if len(words) < 4:
        sys.exit('usage: bench/programs.py "REPAIR COMMAND" "REFERENCE COMMAND" "DESCENT COMMAND" STREAM...')
    commands = [shlex.split(words[number]) for number in range(3)]
    print(f"{'program on':<34} {'repair ms':>11} {'reference ms':>12} {'ratio':>7} {'descent ms':>12} {'ratio':>7}")
    for stream in words[3:]:
        (repair, reference, descent), first = time_stream(commands, stream)
        name = os.path.basename(stream).split(".")[0].replace("_", " ")
        print(f"{name:<34} {1e3 * repair:11.2f} {1e3 * reference:12.2f} {repair / reference:7.2f} {1e3 * descent:12.2f} {repair / descent:7.2f}   {first}",
              flush=True)


if __name__ == "__main__":
    main(sys.argv[1:])
