"""Holds ./repair MODEL.stl to what is said of it: how a model is placed, what is reported and written, what is refused. The rule of fit is worked
out here once more, in fractions, from docs/DECISIONS.md alone."""
import collections
import math
import os
import re
import signal
import struct
import subprocess
import tempfile
import time
from fractions import Fraction

import script
import script_build
from script import MOST_TRIANGLES, ROOT, SOON, contents, environment, fails, group_is_gone, hold, masks_of, run, small_files
from script_job import QUADS, TRIANGLES, read, write

HOOK = os.path.join(ROOT, "models", "hook.stl")
MIDDLE_OF_TWO = 262143.5  # the point (1,1,1) of level 2 lies where 2v + 1 is 262144
WORDS = ("level", "triangles", "rims", "missing", "walls", "flips", "inside", "quads")


def stl(*facets, header=b"", count=None):
    """A binary STL file of facets of nine numbers each."""
    records = b"".join(struct.pack("<3f", 0, 0, 0) + struct.pack("<9f", *facet) + b"\0\0" for facet in facets)
    return header.ljust(80, b"\0") + struct.pack("<I", len(facets) if count is None else count) + records


def facets_of(data):
    """The vertices of each facet, as floats, with the normals apart."""
    count = struct.unpack_from("<I", data, 80)[0]
    hold(len(data) == 84 + 50 * count, "the length of a binary STL file")
    records = [struct.unpack_from("<12f", data, 84 + 50 * t) for t in range(count)]
    return [(r[3:6], r[6:9], r[9:12]) for r in records]


def box(low, high, unit=1.0):
    """The twelve facets of a box."""
    ends = [[low[a] * unit, high[a] * unit] for a in range(3)]
    corners = [(ends[0][c & 1], ends[1][c >> 1 & 1], ends[2][c >> 2]) for c in range(8)]
    sides = ((0, 4, 6, 2), (1, 3, 7, 5), (0, 1, 5, 4), (2, 6, 7, 3), (0, 2, 3, 1), (4, 5, 7, 6))
    return [corners[a] + corners[b] + corners[c] for s in sides for a, b, c in ((s[0], s[1], s[2]), (s[0], s[2], s[3]))]


def nearest(number, e):
    """Times 2^e, to the nearest whole number, halves away from zero."""
    exact = Fraction(number) * Fraction(2) ** e
    return int(math.copysign(1, exact)) * math.floor(abs(exact) + Fraction(1, 2))


def fitted(facets, level, e=None):
    """e and the shift by the rule of fit: the largest e with which the extent fits the level's range; half of the free room lies below."""
    widest = 524287 - (1 << (20 - level))
    for power in range(20, -21, -1) if e is None else (e,):
        results = [[nearest(f[c], power) for f in facets for c in range(axis, 9, 3)] for axis in range(3)]
        if all(max(r) - min(r) <= widest and max(map(abs, r)) <= 1 << 30 for r in results):
            return power, [(524287 - (max(r) - min(r))) // 2 - min(r) for r in results]
    return None


def told(out, word):
    """The number that a line of the report begins with."""
    return int(re.search(rf"^  {word} +(\d+)", out, re.M).group(1))


def closed(facets):
    steps = collections.Counter((f[c], f[(c + 1) % 3]) for f in facets for c in range(3))
    return all(steps[b, a] == many for (a, b), many in steps.items())


def volume(facets):
    """Six times the volume of facets in whole numbers, by determinants; above zero where they turn outwards."""
    return sum(ax * (by * cz - bz * cy) - ay * (bx * cz - bz * cx) + az * (bx * cy - by * cx) for (ax, ay, az), (bx, by, bz), (cx, cy, cz) in facets)


def number(text):
    return f"{float(text):.6g}"


def owners_files():
    """The report and the surface of models of many sizes and places, each held to the rule of fit."""
    hook = [sum(f, ()) for f in facets_of(read(HOOK))]
    models = {"hook": hook, "large": box((-3, -2, -1), (4, 5, 6), 1e6), "tiny": box((0, 0, 0), (3, 2, 1), 2.0 ** -30),
              "far": box((1000, 2000, -3000), (1004, 2002, -2999)),
              "flat": box((0, 0, 0), (5, 5, 0)), "point": [(1.5, -2.5, 3.0) * 3], "third": box((1, 1, 1), (2, 3, 4), 1 / 3)}
    with tempfile.TemporaryDirectory() as folder:
        for name, facets in models.items():
            for level in (2, 3, 4, 5):
                path, out_path = write(os.path.join(folder, "model.sTl"), stl(*facets)), os.path.join(folder, "out.stl")
                status, out, said = run(["--level", str(level), "-o", out_path, path])
                hold((status, said) == (0, "") and out.startswith("model.sTl: repaired\n"), f"{name}, level {level}: {status} {said!r}")
                floats = [struct.unpack("<9f", struct.pack("<9f", *f)) for f in facets]
                e, shift = fitted(floats, level)
                unit = Fraction(1, 1 << 20) * 2 ** (20 - e)
                way = " ".join(number(s * unit) for s in shift)
                hold(f"\n  scale      e {e}: " in out and f"\n  moved      by {way} units " in out, f"{name}, level {level}: e {e}, moved by {way}: {out}")
                cell = unit * (1 << (19 - level))
                hold(f"\n  cell       {number(cell)} unit" in out and f"thinner than about {number(cell * 3 / 2)} unit" in out, f"{name}: the size of a cell")
                results = [[nearest(f[c], e) * unit for f in floats for c in range(axis, 9, 3)] for axis in range(3)]
                size = " x ".join(number(max(r) - min(r)) for r in results)
                ends = ", ".join(f"{axis} {number(min(r))} to {number(max(r))}" for axis, r in zip("xyz", results))
                hold(f"\n  model      {size} units: {ends}\n" in out, f"{name}: the model's size: {out}")
                check_surface(name, out, read(out_path), unit, cell, results)
                os.remove(out_path)


def check_surface(name, out, data, unit, cell, results):
    """Closed, with outward normals, the volume of the points inside, and no further from the model than a cell; as far as floats can tell."""
    inside = told(out, "inside")
    facets = [tuple(tuple(int(c / float(unit / 2)) for c in p) for p in f) for f in facets_of(data)]  # in halves of the grid's numbers: exact
    hold(len(facets) == 2 * told(out, "quads") and closed(facets), f"{name}: a closed surface")
    hold(f"\n  volume     {number(inside * cell ** 3)} cubic units\n" in out, f"{name}: the volume: {out}")
    places = {c for f in facets for p in f for c in p}
    if all(abs(c) <= 1 << 24 for c in places):  # a float holds it
        hold(volume(facets) == 6 * inside * (2 * cell / unit) ** 3 and all(c % 2 for c in places), f"{name}: the surface holds the points inside")
    for axis, r in enumerate(results):
        at = [p[axis] * unit / 2 for p in {p for f in facets for p in f}]
        hold(all(min(r) - cell <= c <= max(r) + cell for c in at), f"{name}: the surface stands where the model stood")


def ways_in():
    """By name, by option, from a pipe, from a file on standard input and from a named pipe: the same."""
    right = run([HOOK])[1].split("\n", 1)[1]
    with tempfile.TemporaryDirectory() as folder:
        other, pipe = write(os.path.join(folder, "hook.bin"), read(HOOK)), os.path.join(folder, "pipe.stl")
        os.mkfifo(pipe)
        for words in (["--stl", other], ["--kind", "stl", other], ["--level", "5", HOOK], ["--", HOOK]):
            hold(run(words)[1].split("\n", 1)[1] == right, f"{words}: the same report")
        hold(run(["--stl", "-"], input=read(HOOK)) == (0, "standard input: repaired\n" + right, ""), "from a pipe")
        hold(run(["--stl"], input=read(HOOK)) == (0, "standard input: repaired\n" + right, ""), "a kind without FILE is on standard input")
        with open(HOOK, "rb") as file:
            hold(run(["--kind", "stl", "-"], stdin=file)[1].split("\n", 1)[1] == right, "from a file on standard input")
        sender = subprocess.Popen(["cp", HOOK, pipe])
        hold(run([pipe])[1].split("\n", 1)[1] == right, "from a named pipe")
        sender.wait(SOON)
        hold(run(["--brief", HOOK]) == (0, "hook.stl: repaired, 48 triangles, 0 missing, 0 walls, 0 flips, 2275 points inside, 1458 quads\n", ""), "--brief")
        behind = write(os.path.join(folder, "behind.stl"), read(HOOK) + b"\0")
        hold("counts 48 triangles, which take 2484 bytes, and has 2485" in run(["--stl", "-"], input=read(behind) + bytes(1000))[2], "a byte behind is enough")
    status, _, said = run(["--stl", "/dev/zero"])
    hold(status == 1 and "refused 10" in said, "a device without end")


def given_e():
    """--e with and without --no-fit: the middle, or as the caller has placed it."""
    facets = [sum(f, ()) for f in facets_of(read(HOOK))]
    with tempfile.TemporaryDirectory() as folder:
        out_path = os.path.join(folder, "out.stl")
        for e in (14, 13, 5, 0, -3, -20):
            out = run(["--e", str(e), "-o", out_path, "--force", HOOK])[1]
            _, shift = fitted(facets, 5, e)
            hold(f"e {e}: " in out and f"by {' '.join(number(Fraction(s) / Fraction(2) ** e) for s in shift)} units" in out, f"--e {e}: {out}")
        status, out, said = run(["--no-fit", "--e", "13", "-o", out_path, "--force", HOOK])
        hold(status == 0 and "moved      not at all" in out, f"--no-fit: {said}")
        kept = read(out_path)
        # the same triangles as a stream: its surface stands at e 0, so that each number is 2^13 times as large
        stream = bytes([5]) + b"".join(struct.pack("<9i", *(nearest(c, 13) for c in f)) for f in facets)
        hold(run(["-o", out_path, "--force", "-"], input=stream)[0] == 0, "the stream of the same triangles")
        hold([[[c / 2 ** 13 for c in p] for p in f] for f in facets_of(read(out_path))] == [[list(p) for p in f] for f in facets_of(kept)], "the same surface")
        hold(told(run(["--level", "2", "--no-fit", "-"] + ["--stl"], input=stl([131072.0] * 3 + [393215.0] * 6))[1], "inside") == 1, "the line of level 2")
    hold("level's range, which at e 0 is 16384 to 507903 units" in run(["--no-fit", HOOK])[2], "the range is told")


def parts():
    """--quads, --picture, --masks and --job agree with what the job of the placed triangles gives."""
    with tempfile.TemporaryDirectory() as folder:
        path, layers, job, model = (os.path.join(folder, name) for name in ("out.stl", "layers", "a.job", "model.stl"))
        facets = [f for k, f in enumerate(box((0, 0, 0), (3, 2, 1), 1 / 3)) if k != 5]
        write(model, stl(*facets))
        status, out, said = run(["--quads", "--picture", "--masks", layers, "--job", job, "-o", path, model])
        hold((status, said) == (0, ""), f"all at once: {status} {said!r}")
        again = run(["--quads", "--picture", job])[1]
        hold(out.split("\n\n", 1)[1] == again.split("\n\n", 1)[1], "the listing and both pictures are those of the job")
        hold([told(out, w) for w in WORDS] == [told(again, w) for w in WORDS] and told(out, "missing") > 0, "so are the numbers")
        hold(contents(layers) == masks_of(out, 33), "the masks are the layers")
        floats = [struct.unpack("<9f", struct.pack("<9f", *f)) for f in facets]
        e, shift = fitted(floats, 5)
        placed = b"".join(struct.pack("<9i", *(nearest(f[c], e) + shift[c % 3] for c in range(9))) for f in floats)
        data = read(job)
        hold(data[29 + 33 ** 3:29 + 33 ** 3 + len(placed)] == placed and data[11] == TRIANGLES and data[20] == QUADS,
             "the job has the triangles as they stand on the grid")
        hold(f"\n  surface    {os.path.getsize(path)} bytes, {path}\n" in out and f"\n  job        {len(data)} bytes, {job}\n" in out, "the files are told")
        write(model, stl(*[facets[0]] * (MOST_TRIANGLES + 1)))
        status, out, said = run(["--level", "2", "--force", "--job", job, model])
        hold((status, said) == (0, "") and told(out, "triangles") == MOST_TRIANGLES + 1, f"a job of more triangles than a stream has: {status} {said!r}")
        data, size, quads = read(job), 36 * (MOST_TRIANGLES + 1), 8 * told(out, "quads")
        hold(struct.unpack_from("<BIIBII", data, 11) == (TRIANGLES, 154, size, QUADS, 154 + size, quads) and len(data) == 154 + size + quads,
             "its offsets and lengths")
        answer = run([job])
        hold(answer[:2] == (1, "") and "refused 9: " in answer[2] and "the stream of a job" in answer[2], f"but a stream has no more: {answer}")


def lines_through_points(points):
    """A short line through each of these points of level 5, which marks the six edges there; and the ends of the level's range, which mark none."""
    half = 1 << 14
    ends = [(half, half, half) * 3, (524287 - half,) * 9]
    return stl(*ends, *[tuple(half * c - 1.0 for c in p) + tuple(float(half * c) for c in p) * 2 for p in points])


def stl_refusals():
    """One line on standard error, status 1, and nothing written."""
    nan, inf, plain = float("nan"), float("inf"), (1.0,) * 9
    dots = [(i, j, k) for k in range(2, 31) for j in range(2, 31) for i in range(2, 31) if (i + j + k) % 2 == 0]
    cases = (("refused 11: .*save it as binary STL", b"solid cube\nfacet\n", []), ("refused 11", read(HOOK.replace("hook", "hook_text")), []),
             ("refused 10: .*has 0 bytes", b"", []), ("refused 10: .*has 83 bytes", bytes(83), []),
             ("refused 10: .*counts 2 .*184 bytes, and has 134", stl(plain, count=2), []),
             ("refused 10: .*counts 2147483648 .*107374182484 bytes, and has 134", stl(plain, count=2 ** 31), []),
             ("refused 10: .*counts 4294967295 .*214748364834 bytes, and has 134", stl(plain, count=2 ** 32 - 1), []),
             ("refused 12: .* x of corner A of triangle 2", stl(plain, (nan,) + plain[1:]), []),
             ("refused 12: .* z of corner C of triangle 1", stl(plain[1:] + (-inf,)), []),
             ("refused 12: .* y of corner B of triangle 3", stl(plain, plain, plain[:4] + (nan, inf) + plain[6:]), ["--e", "0"]),
             ("no triangles", stl(), []), ("no triangles", stl(header=b"solid"), []), ("too large: no model", stl((1e30,) * 9), []),
             ("too large: no model", stl((0.0,) * 8 + (6e11,)), []),
             ("too large: with --e 20 .*level 2: leave", stl((0.0,) * 8 + (1.0,)), ["--e", "20", "--level", "2"]),
             ("refused 13: at e 20 ", stl((2.0 ** 11,) * 9), ["--no-fit", "--e", "20"]),
             ("refused 4: .* 131072 to 393215 units", stl((131071.0,) * 9), ["--no-fit", "--level", "2"]),
             ("refused 24: .* 0.5 to 1.499996 units", stl((1.6,) * 9), ["--no-fit", "--level", "2", "--e", "18"]),
             ("refused 8: .*32,768 quads", lines_through_points(dots), []))
    with tempfile.TemporaryDirectory() as folder:
        model, none = os.path.join(folder, "a.stl"), os.path.join(folder, "none")
        for words, data, options in cases:
            write(model, data)
            status, out, said = run([*options, "-o", none, "--masks", none + "_masks", "--job", none + ".job", model])
            hold((status, out) == (1, "") and re.match(rf"^a\.stl: {words}.*\n$", said), f"{words}: {status} {said!r}")
            hold(os.listdir(folder) == ["a.stl"] and read(model) == data, "nothing is written")
            if data:
                hold(run([*options, "--stl", "-"], input=data)[::2] == (1, said.replace("a.stl", "standard input")), f"{words}: the same on standard input")
        few = write(model, lines_through_points(dots[:2000]))
        hold(told(run([few])[1], "quads") == 12000, "12,000 quads are not refused")
        status, out, said = run(["--job", none, few])
        hold((status, said) == (0, "") and os.path.getsize(none) == 29 + 33 ** 3 + 36 * 2002 + 8 * 12000, "nor is their job")
        answer = run(["--kind", "job", none])
        hold(answer[:2] == (1, "") and "refused 8: " in answer[2] and "8,192 quads" in answer[2], f"but of a stream no more than 8,192 are listed: {answer}")


def stl_commands():
    """Wrong commands are told before anything is done."""
    stream = os.path.join(ROOT, "models", "bowl.bin")
    for words in (["--level", "6", HOOK], ["--level", "", HOOK], ["--level", "5x", HOOK], ["--level"], ["--e", "21", HOOK], ["--e", "-21", HOOK],
                  ["--e", "1.5", HOOK],
                  ["--e", "", HOOK], ["--e", "+1", HOOK], ["--e"], ["--level", "5", stream], ["--e", "0", stream], ["--no-fit", stream], ["-o"],
                  ["-o", ""], ["-o", "-"],
                  ["-o", "a", "-o", "b", HOOK], ["--jobs", "2", HOOK], [HOOK, HOOK], ["-o", "/nonexistent/a.stl", HOOK], ["-o", "/dev/null", HOOK],
                  ["-o", ROOT, HOOK]):
        fails("a wrong command", words)
    with tempfile.TemporaryDirectory() as folder:
        same = os.path.join(folder, "same")
        fails("one file for two", ["-o", same, "--job", os.path.join(folder, ".", "same"), HOOK])
        hold(not os.listdir(folder), "nothing is written")


def stl_kept():
    """No file is written over unless told, the one that is read never, and none is there in part."""
    with tempfile.TemporaryDirectory() as folder:
        path, model = os.path.join(folder, "a.stl"), write(os.path.join(folder, "model.stl"), read(HOOK))
        hold(run(["-o", path, model])[0] == 0, "a surface is written")
        right = read(path)
        write(path, b"kept")
        hold("a.stl" in fails("a file that is there", ["-o", path, model]) and read(path) == b"kept", "no file is written over")
        hold(run(["--force", "-o", path, model])[0] == 0 and read(path) == right, "--force writes over it")
        for same in (model, os.path.join(folder, ".", "model.stl")):
            hold("is the file that is read" in fails("the file that is read", ["--force", "-o", same, model]), "the input is kept")
        with open(model, "rb") as file:
            fails("the file on standard input", ["--force", "--stl", "-o", model, "-"], stdin=file)
        os.symlink("model.stl", os.path.join(folder, "link"))
        fails("a link to the file that is read", ["--force", "-o", os.path.join(folder, "link"), model])
        fails("no room", ["-o", os.path.join(folder, "big.stl"), model], preexec_fn=small_files)
        fails("no room for a copy", ["--stl", "-"], input=stl(*[(1.0,) * 9] * 100), preexec_fn=small_files)
        with open("/dev/full", "w") as full:
            fails("a full disk", [model], stdout=full)
        fails("closed input", ["--stl", "-"], stdin=None, preexec_fn=lambda: os.close(0))
        hold(read(model) == read(HOOK) and sorted(os.listdir(folder)) == ["a.stl", "link", "model.stl"], f"nothing is left: {os.listdir(folder)}")


def streams_out():
    """-o of a stream and of a job: their own coordinates."""
    line = b"\2" + struct.pack("<9i", *[131072] * 3, *[393215] * 6)
    with tempfile.TemporaryDirectory() as folder:
        path, job, again = (os.path.join(folder, name) for name in ("a.stl", "a.job", "b.stl"))
        status, out, said = run(["-o", path, "--job", job, "-"], input=line)
        hold((status, said) == (0, "") and f"\n  surface    684 bytes, {path}\n" in out, f"-o of a stream: {status} {said!r}")
        facets = [tuple(tuple(int(2 * c) for c in p) for p in f) for f in facets_of(read(path))]
        places = {c for f in facets for p in f for c in p}
        hold(places == {393215, 655359} and volume(facets) == 6 * 262144 ** 3, f"its surface is around the point (2,2,2): {places}")
        hold(run(["-o", again, job])[0] == 0 and read(again) == read(path), "-o of a job: the same")
        hold("volume     2.2518e+15 cubic units" in out and "cell       131072 units" in out, "in the stream's own units")


def stl_interrupts():
    """While it waits for its input: it ends by the signal, and leaves no file and no process."""
    for number_ in (signal.SIGINT, signal.SIGTERM, signal.SIGHUP):
        script.runs += 1
        with tempfile.TemporaryDirectory() as room:
            process = subprocess.Popen([script.REPAIR, "--stl", "-"], stdin=subprocess.PIPE, env=environment(room), start_new_session=True)
            end = time.monotonic() + SOON
            while not any("model" in files for _, _, files in os.walk(room)) and time.monotonic() < end:
                time.sleep(0.05)
            process.send_signal(number_)
            hold(process.wait(SOON) == -number_, f"{number_.name} ends it")
            process.stdin.close()
            hold(group_is_gone(process.pid) and not os.listdir(room), f"nothing is left after {number_.name}")


def stl_planted():
    """A program that prints less, or something else, is found: what it prints is changed behind it in a copy of the script."""
    with script_build.repository() as r:
        path, part, out = (os.path.join(r.folder, name) for name in ("repair", "repairing/models.sh", "out.stl"))
        env = dict(PATH=r.kit + "/bin:" + os.environ["PATH"], FAKE=r.kit, REAL=ROOT)
        text, words = read(part).decode(), ["-o", out, "--job", out + ".job", HOOK]
        hold(run(words, script=path, env=env)[0] == 0 and os.path.exists(out), "the repository's copy repairs")
        for name in (out, out + ".job"):
            os.remove(name)
        whole, packed = 'run_on plate "$model" "$room/plated" "$(plate_word r)"', 'run_on plate "$model" "$room/packed" "$(plate_word j)"'
        for call, fault, said in ((whole, 'truncate -s -1 "$room/plated"', "cut short"), (whole, 'echo >>"$room/plated"', "cut short"),
                                  (whole, 'sed -i "5d" "$room/plated"', "something else"), (whole, ': >"$room/plated"', "something else"),
                                  (whole, 'echo refuse >"$room/plated"', "something else"),
                                  (whole, 'sed -i "4s/quads .*/quads 7/" "$room/plated"', "cut short"),
                                  (packed, 'truncate -s -36 "$room/packed"', "job is cut short"),
                                  (packed, 'echo refused 4 >"$room/packed"', "job is cut short"),
                                  (packed, 'echo refused 20 >"$room/packed"', "offsets have 32 bits")):
            hold(text.count(call) == 1, f"{call} stands in the script once")
            write(part, text.replace(call, f"{call}; {fault}").encode())
            hold(said in fails(fault, words, script=path, env=env) and not os.path.exists(out), f"{fault} is found, and nothing is written")


TESTS = (owners_files, ways_in, given_e, parts, stl_refusals, stl_commands, stl_kept, streams_out, stl_interrupts, stl_planted)
