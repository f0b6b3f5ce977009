#!/usr/bin/env python3
"""Holds omphirun.py to include/omphirun.h: each call's declaration and words, the numbers, the version.

usage: python/words.py            says what differs; the status is 1 then
       python/words.py --write    copies declarations, words, numbers and version from the header
"""
import ast
import os
import re
import sys
import textwrap

HERE = os.path.dirname(os.path.abspath(__file__))
MODULE, HEADER = os.path.join(HERE, "omphirun.py"), os.path.join(os.path.dirname(HERE), "include", "omphirun.h")
WIDTH = 140


def read(path):
    with open(path) as file:
        return file.read()


def declared(header):
    """The calls in the header's order: name, words in one line, declaration as it stands."""
    for words, line in re.findall(r"/\* ((?:(?!\*/).)*?) \*/\n(uint32_t omphirun_\w+\([^)]*\);)", header, re.S):
        yield re.search(r"omphirun_(\w+)", line).group(1), re.sub(r"\s+", " ", words), line


def docstring(words):
    told, refusals = re.fullmatch(r"(.*?) ?(Refusals.*)", words).groups()
    lines = [textwrap.wrap(part, WIDTH - 4, break_long_words=False, break_on_hyphens=False) for part in (told, refusals)]
    return '"""' + "\n    ".join(lines[0]) + "\n\n    " + "\n    ".join(lines[1]) + '\n    """'


def numbers(header):
    named = re.findall(r"^    OMPHIRUN_(\w+) = (\d+),?$", header, re.M)
    return "".join(f'    "{name}": {number},\n' for name, number in named)


def with_words(module, header):
    """The module as the header has it."""
    calls = {name: words for name, words, _ in declared(header)}
    found = {node.name: node.body[0] for node in ast.parse(module).body if isinstance(node, ast.FunctionDef)}
    lines = module.splitlines(True)
    for name, doc in sorted(found.items(), key=lambda item: -item[1].lineno):
        if name in calls:
            lines[doc.lineno - 1:doc.end_lineno] = ["    " + docstring(calls[name]) + "\n"]
    module = "".join(lines)
    module = re.sub(r'(?<=_DECLARED = """\n).*?(?=""")', lambda _: "".join(line + "\n" for _, _, line in declared(header)), module, flags=re.S)
    module = re.sub(r'(?<=Number = enum.IntEnum\("Number", \{\n).*?(?=\}\))', lambda _: numbers(header), module, flags=re.S)
    version = re.findall(r"^#define OMPHIRUN_(?:MAJOR|MINOR|PATCH) (\d+)$", header, re.M)
    return re.sub(r"(?<=^MAJOR, MINOR, PATCH = )\d+, \d+, \d+", ", ".join(version), module, flags=re.M)


def main(words):
    if words not in ([], ["--write"]):
        sys.exit("usage: python/words.py [--write]")
    module, header = read(MODULE), read(HEADER)
    right = with_words(module, header)
    missing = [name for name, _, _ in declared(header) if not re.search(rf"^def {name}\(", module, re.M)]
    if missing:
        sys.exit(f"python/words.py: omphirun.py lacks {', '.join(missing)}")
    if words and right != module:
        with open(MODULE, "w") as file:
            file.write(right)
    elif right != module:
        at = next(n for n, (a, b) in enumerate(zip(module.splitlines() + [""], right.splitlines() + [""]), 1) if a != b)
        sys.exit(f"python/words.py: line {at} of omphirun.py is not as the header has it: python/words.py --write copies it")


if __name__ == "__main__":
    main(sys.argv[1:])
