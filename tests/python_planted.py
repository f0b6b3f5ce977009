#!/usr/bin/env python3
"""Plants faults in a copy of python/omphirun.py, one at a time, and shows that tests/python.py finds each.

usage: tests/python_planted.py     (OMPHIRUN_LIBRARY is set)
"""
import os
import shutil
import subprocess
import sys
import tempfile

TESTS = os.path.dirname(os.path.abspath(__file__))
ROOT = os.path.dirname(TESTS)

FAULTS = {
    "what cannot be written is lent for writing": ('(_WRITABLE if parameter.kind == "written" else 0)', "0"),
    "memory with gaps is lent": ("_WITHOUT_GAPS = 0x01, 0x04, 0x38", "_WITHOUT_GAPS = 0x01, 0x04, 0x18"),
    "memory that is not aligned is lent": ("    if view.bytes and view.at % view.size:", "    if False:"),
    "no memory has to be aligned": ("    if view.bytes and view.at % view.size:", "    if (view.at or 0) % view.size:"),
    "memory is lent twice": ("        _hold_apart(lent)\n", ""),
    "what is only read may not overlap": ('if "written" in (one.kind, other.kind) and', "if"),
    "numbers of 64 bits are lent": (" or view.size != ctypes.sizeof(parameter.type)", ""),
    "numbers of any type are lent": ("code not in _FORMATS[parameter.c]", "False"),
    "numbers with the high byte first are lent": ('.lstrip("@=<")', '.lstrip("@=<>!")'),
    "a number too large is cut off": ("    if parameter.type(number).value != number:\n", "    if False:\n"),
    "a length in bytes": ("view.bytes // view.size]", "view.bytes]"),
    "memory is kept after a call": ("        for _, view in lent:\n            _release_buffer(view)\n", "        pass\n"),
    "memory is kept after a fault": ("        _release_buffer(view)\n        raise fault", "        raise fault"),
    "the place is left out": ('told["place"] if number in _TELLS_PLACE else None', "None"),
    "the axis of a number that is not finite is left out": ("_TELLS_AXIS = (4, 24), (4, 24, 12)", "_TELLS_AXIS = (4, 24), (4, 24)"),
    "counts in another order": ('Patched(*_call("patch", level, grid, work, totals))', 'Patched(*_call("patch", level, grid, work, totals)[::-1])'),
    "a mask's header too long": ("(7 if row < 10 else 9)", "(7 if row < 9 else 9)"),
    "a word of the header changed": ("Every coordinate is judged before", "Every coordinate is looked at before"),
    "a call declared otherwise": ("uint32_t omphirun_sign(uint32_t level, uint8_t *grid,", "uint32_t omphirun_sign(uint32_t level, const uint8_t *grid,"),
}


def tried(room):
    """The status of the tests with the copy in the module's place."""
    env = {**os.environ, "PYTHONPATH": os.path.join(room, "python"), "PYTHONDONTWRITEBYTECODE": "1"}
    return subprocess.run([sys.executable, os.path.join(TESTS, "python.py")], env=env, capture_output=True, timeout=300).returncode


def main():
    missed = []
    with tempfile.TemporaryDirectory() as room:
        shutil.copytree(os.path.join(ROOT, "python"), os.path.join(room, "python"))
        os.symlink(os.path.join(ROOT, "include"), os.path.join(room, "include"))
        path = os.path.join(room, "python", "omphirun.py")
        with open(path) as file:
            module = file.read()
        for fault, (old, new) in FAULTS.items():
            if module.count(old) != 1:
                sys.exit(f"tests/python: {fault}: its old text does not stand exactly once")
            with open(path, "w") as file:
                file.write(module.replace(old, new))
            if tried(room) == 0:
                missed.append(fault)
        with open(path, "w") as file:
            file.write(module)
        if tried(room) != 0:
            missed.append("a fault is found where none was planted")
    for fault in missed:
        print(f"NOT FOUND: {fault}")
    print(f"tests/python: {len(FAULTS) - len(missed)} planted faults found, {len(missed)} not found")
    return 1 if missed else 0


if __name__ == "__main__":
    sys.exit(main())
