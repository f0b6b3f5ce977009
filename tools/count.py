#!/usr/bin/env python3
"""Prints each line of code in crates/*/src that a regular expression fits, with the function that it stands in, and how many there are.
Comments are left out.
usage: tools/count.py REGEX     at the top of the repository"""

import glob
import re
import sys

FUNCTION = re.compile(r'\s*(?:pub(?:\(crate\))? )?(?:unsafe )?(?:extern "C" )?fn (\w+)')


def lines_of(path):
    """Each line of a file with its number and the function whose head came last."""
    function = None
    with open(path, encoding='utf-8') as file:
        for number, line in enumerate(file, 1):
            head = FUNCTION.match(line)
            if head:
                function = head.group(1)
            yield number, line.strip(), function


def main():
    if len(sys.argv) != 2:
        sys.exit(__doc__)
    wanted = re.compile(sys.argv[1])
    found = 0
    for path in sorted(glob.glob('crates/*/src/**/*.rt', recursive=True)):
        for number, line, function in lines_of(path):
            if not line.startswith('//') and wanted.search(line):
                found += 1
                print(f'{path}:{number} {function} | {line}')
    print(found)


main()
