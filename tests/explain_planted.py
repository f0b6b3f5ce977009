"""Planted differences: what the proved program is made to say falsely, and what the account is made to work out falsely, has to be found."""
import os
import re
import shutil
import tempfile

from explain_inputs import ROOT, TOUCHING, random_stream
from explain_running import EXPLAIN, ONE_LINE, hold, put, run, text

ASKED_AGAIN = '[ "$(wc -c <"$stream")" -gt "$first" ]'

# What the proved program is made to say: the program, a test on the stream, a sed script on what it printed, and what is told to differ.
FALSE_WORDS = [
    ("repair", "true", "2s/rims [0-9]*/rims 77/", "the counts"),
    ("repair", "true", "2s/flips [0-9]*/flips 77/", "the counts"),
    ("repair", "true", "2s/inside \\([0-9]*\\)/inside 1\\1/", "the counts"),
    ("repair", "true", "1s/triangles [0-9]*/triangles 77/", "the levels and triangles"),
    ("repair", "true", "9s/^q \\([0-9]*\\) \\([0-9]*\\) /q \\2 \\1 /", "the cells of quad 7"),
    ("repair", "true", "9s/^q \\([0-9]*\\) \\([0-9]*\\) \\([0-9]*\\) \\([0-9]*\\)$/q \\2 \\3 \\4 \\1/", "the cells of quad 7"),
    ("repair", "true", "9d", "the numbers of quads"),
    ("repair", "true", "3,$d", "the numbers of quads"),
    ("layers", "true", "3s/\\.$/#/", "the signs of point"),
    ("layers", "true", "s/threes [0-9]*/threes 77/", "the numbers of gaps and membranes"),
    ("repair", ASKED_AGAIN, "2s/flips [0-9]*/flips 77/", "the counts"),
]

# What the account is made to work out: a file, what stands there, what is put in its place; each a slip that the rules warn of.
SLIPS = [
    ("marking.py", "one[1] < other[0] or other[1] < one[0]", "one[1] <= other[0] or other[1] < one[0]"),
    ("marking.py", 'yield "N", cross(sides[0][1], difference(c, a))', 'yield "N", cross(sides[0][1], difference(a, b))'),
    ("rims.py", "        for face in rim:  # which grows meanwhile\n", "        for face in rim[:1]:\n"),
    ("rims.py", "many % 2}", "many == 1}"),
    ("halving.py", "box.low[a] + sides[a] // 2", "box.low[a] + (sides[a] + 1) // 2"),
    ("halving.py", "a = sides.index(max(sides))", "a = max(range(3), key=lambda b: (sides[b], b))"),
    ("halving.py", "listed[0::2], listed[1::2]", "listed[:len(listed) // 2], listed[len(listed) // 2:]"),
    ("halving.py", "paths = [path(one, other)", "paths = [path(other, one)"),
    ("halving.py", "flips.symmetric_difference_update(joined.flips)", "flips.update(joined.flips)"),
    ("repairing.py", "flips ^= rim.flips", "flips |= rim.flips"),
    ("repairing.py", "inside = inside_points(level, patched)", "inside = inside_points(level, marks)"),
    ("quads.py", "(one, four, three, two)", "(two, three, four, one)"),
]

WRAPPER = """#!/bin/sh
stream={folder}/stream first={first}
cat >"$stream"
[ "$1" != --build ] || exit 0
{root}/explaining/proved.sh "$1" <"$stream" >{folder}/printed || exit 2
if [ "$1" = {program} ] && {test}; then sed '{script}' {folder}/printed; else cat {folder}/printed; fi
"""


def copy_of_the_tool(folder, first=0, program="none", test="true", script=""):
    """The tool in a folder of its own, with what lies between it and the proved program."""
    os.makedirs(os.path.join(folder, "tests"))
    shutil.copy(EXPLAIN, folder)
    shutil.copy(os.path.join(ROOT, "tests", "build.sh"), os.path.join(folder, "tests"))
    shutil.copytree(os.path.join(ROOT, "explaining"), os.path.join(folder, "explaining"))
    wrapper = os.path.join(folder, "explaining", "proved.sh")
    with open(wrapper, "w") as file:
        file.write(WRAPPER.format(root=ROOT, folder=folder, first=first, program=program, test=test, script=script))
    return os.path.join(folder, "explain")


def complaint(tool, model):
    """What the tool says against its own result; nothing where it is content."""
    status, out, said = run([model], script=tool)
    hold((status == 2 and out == "" and ONE_LINE.match(said)) or (status == 0 and said == ""), f"one line or none: {said!r}")
    return said


def false_words():
    with tempfile.TemporaryDirectory() as room:
        small, lampshade = put(room, "random.bin", random_stream(5)), os.path.join(ROOT, "models", "lampshade.bin")
        for at, (program, test, script, what) in enumerate(FALSE_WORDS):
            model = lampshade if test == ASKED_AGAIN else small
            said = complaint(copy_of_the_tool(os.path.join(room, str(at)), os.path.getsize(model), program, test, script), model)
            hold(re.search(f"{what}.* differ from the proved program's", said), f"{program} made to say {script}: {said!r}")
        hold(complaint(copy_of_the_tool(os.path.join(room, "right")), small) == "", "the copy itself is content")


def slips():
    """Each is found on one of these inputs, the quickest first."""
    with tempfile.TemporaryDirectory() as room:
        inputs = [put(room, "touching.bin", TOUCHING), put(room, "random.bin", random_stream(5)), os.path.join(ROOT, "models", "soup.bin")]
        for at, (file, old, new) in enumerate(SLIPS):
            tool = copy_of_the_tool(os.path.join(room, str(at)))
            path = os.path.join(room, str(at), "explaining", file)
            source = text(path)
            hold(source.count(old) == 1, f"{file} has once: {old}")
            put(os.path.dirname(path), file, source.replace(old, new).encode())
            hold(any(complaint(tool, model) for model in inputs), f"{file} with {new} is found")


TESTS = (false_words, slips)
MANY = len(FALSE_WORDS) + len(SLIPS)
