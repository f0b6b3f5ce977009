"""Holds ./repair --job and ./repair FILE.job to what is said of them: a job file is written here once more, from the documents alone."""
import os
import re
import shutil
import struct
import subprocess
import tempfile

import script
import script_build
from script import MOST_TRIANGLES, POINT, ROOT, SOON, contents, fails, hold, many_quads, run, small_files, triangle

GRID, TRIANGLES, QUADS = 1, 2, 3
LINE = triangle(*[131072] * 3, *[393215] * 6)  # through the point (2,2,2) of level 2, which comes to lie inside
ABOVE = 393216  # the first number above the range of level 2


def job_of(level, bodies):
    """The level byte, the count, for each body its kind, offset and length, then the bodies without gaps in rising order of kind."""
    table, at = b"", 2 + 9 * len(bodies)
    for kind, body in sorted(bodies.items()):
        table += struct.pack("<BII", kind, at, len(body))
        at += len(body)
    return bytes([level, len(bodies)]) + table + b"".join(body for _, body in sorted(bodies.items()))


def grid_of(picture, row):
    """The grid after sign, by the layers that --picture prints: 8 for a point inside, and a mark where the next point on an axis differs."""
    inside = [c == "#" for line in re.findall(rf"^[#.]{{{row}}}$", picture, re.M) for c in line]
    steps = ((1, 1), (2, row), (4, row * row))

    def byte(p):
        place = (p % row, p // row % row, p // row // row)
        return 8 * inside[p] + sum(mark for (mark, step), c in zip(steps, place) if c < row - 1 and inside[p] != inside[p + step])
    return bytes(byte(p) for p in range(row ** 3))


def case_of(stream, out):
    """The job of a stream, by what --picture and --quads print of it."""
    level = stream[0]
    quads = re.findall(r"^q (\d+) (\d+) (\d+) (\d+)$", out, re.M)
    return job_of(level, {GRID: grid_of(out, (1 << level) + 1), TRIANGLES: stream[1:], QUADS: b"".join(struct.pack("<4H", *map(int, q)) for q in quads)})


def is_grid(level, grid):
    n = 1 << level

    def good(p, byte):
        place = (p % (n + 1), p // (n + 1) % (n + 1), p // (n + 1) // (n + 1))
        return byte < 16 and all(place[a] < n and all(0 < place[b] < n for b in range(3) if b != a) for a in range(3) if byte >> a & 1)
    return all(good(p, byte) for p, byte in enumerate(grid))


def stream_of(data):
    """What `unpack` prints for a file: the refusals of the reader in their order, then the stream."""
    def refused(number):
        return b"refused %d\n" % number
    if not data:
        return refused(18)
    if data[0] not in (2, 3, 4, 5):
        return refused(1)
    if len(data) < 2 or data[1] > 3 or len(data) < 2 + 9 * data[1]:
        return refused(18)
    lines = [struct.unpack_from("<BII", data, 2 + 9 * k) for k in range(data[1])]
    kinds = [kind for kind, _, _ in lines]
    if any(kind not in (GRID, TRIANGLES, QUADS) for kind in kinds) or any(a >= b for a, b in zip(kinds, kinds[1:])):
        return refused(19)
    at, bodies = 2 + 9 * len(lines), {}
    for kind, offset, size in lines:
        if offset != at or not {GRID: size == ((1 << data[0]) + 1) ** 3, TRIANGLES: size % 36 == 0, QUADS: size % 8 == 0}[kind]:
            return refused(20)
        bodies[kind] = data[at:at + size]
        at += size
    if at != len(data):
        return refused(20)
    if GRID in bodies and not is_grid(data[0], bodies[GRID]):
        return refused(5)
    return data[:1] + bodies[TRIANGLES] if TRIANGLES in bodies else b"no triangles\n"


def write(path, data):
    with open(path, "wb") as file:
        file.write(data)
    return path


def read(path):
    with open(path, "rb") as file:
        return file.read()


def same_report(out):
    """A report without the name of what was read, and without the line of a job that was written."""
    return re.sub(r"\n  job .*", "", out.split(": ", 1)[1])


def round_trips():
    """The job is the one that the documents' rules give, and repairing it again gives the same report, listing and picture."""
    models = {name: read(os.path.join(ROOT, "models", name + ".bin")) for name in ("lampshade", "bowl")}
    for name, stream in {**models, "line": b"\2" + LINE, "point": b"\3" + POINT * 3, "nothing": b"\4"}.items():
        with tempfile.TemporaryDirectory() as folder:
            path, again = os.path.join(folder, name + ".Job"), os.path.join(folder, "again")
            words = ["--quads", "--picture", "--force", "--job"]
            status, out, said = run([*words, path, write(os.path.join(folder, "stream"), stream)])
            hold((status, said) == (0, "") and f"\n  job        {os.path.getsize(path)} bytes, {path}\n" in out, f"{name}: {status} {said!r}")
            hold(read(path) == case_of(stream, out), f"{name}: the job is the triangles as read, the grid after sign and the quads")
            status, other, said = run([*words, again, path])
            hold((status, said) == (0, "") and same_report(other) == same_report(out), f"{name}: the same report from the job")
            hold(read(again) == read(path), f"{name}: the same job again")
            hold(sorted(os.listdir(folder)) == sorted([name + ".Job", "again", "stream"]), f"{name}: nothing is left beside the jobs")
            hold(same_report(run(["--quads", "--picture", "--kind", "job", "-"], input=read(path))[1]) == same_report(out), f"{name}: from standard input")
            hold(run(["--kind", "job", again])[0] == 0, f"{name}: by any name")
            shutil.move(path, os.path.join(folder, "stream.job"))
            shutil.move(os.path.join(folder, "stream"), path)
            hold(run(["--kind", "stream", path])[0] == 0, f"{name}: a stream by any name")


def explained():
    """./explain reads our jobs, and finds in them what comes of their triangles."""
    with tempfile.TemporaryDirectory() as folder:
        path = os.path.join(folder, "a.job")
        hold(run(["--job", path, os.path.join(ROOT, "models", "bowl.bin")])[0] == 0, "a job is written")
        done = subprocess.run([os.path.join(ROOT, "explain"), path], capture_output=True, timeout=10 * SOON)
        told = done.stdout.decode()
        for body in ("grid", "quads"):
            hold(done.returncode == 0 and f"The job's {body}: what comes of its triangles." in told, f"./explain, the {body}: {told[-300:]!r}")


def job_refusals():
    """Each refusal with its number and in words; what the stream of a job's triangles is refused by is told as of a stream."""
    quad, bad = b"\1\0" * 4, bytes([255]) * 125
    whole = job_of(2, {GRID: bytes(125), TRIANGLES: POINT, QUADS: quad})
    entry = struct.Struct("<BII").pack
    cases = ((18, b""), (1, b"\1"), (1, b"\6\4"), (18, b"\2"), (18, b"\2\4" + bytes(40)), (18, whole[:28]), (19, b"\2\1" + entry(4, 0, 1)),
             (19, b"\2\2" + entry(2, 0, 1) * 2), (19, b"\2\2" + entry(3, 0, 1) + entry(2, 0, 1)), (20, whole[:-1]), (20, whole + b"\0"),
             (20, job_of(2, {GRID: bad[1:], TRIANGLES: POINT})), (20, job_of(2, {GRID: bad, TRIANGLES: POINT[:12]})),
             (5, job_of(2, {GRID: bad, TRIANGLES: POINT})),
             (4, job_of(2, {TRIANGLES: triangle(*[0] * 9)})), (24, job_of(2, {TRIANGLES: triangle(*[ABOVE] * 9)})),
             (8, job_of(5, {TRIANGLES: many_quads()[1:]})), (9, job_of(2, {TRIANGLES: POINT * (MOST_TRIANGLES + 1)})))
    with tempfile.TemporaryDirectory() as folder:
        for number, data in cases:
            none = os.path.join(folder, "none")
            status, out, said = run(["--job", none, write(os.path.join(folder, "a.job"), data)])
            hold((status, out) == (1, "") and re.match(rf"^a\.job: refused {number}: .+\n$", said), f"refused by {number}: {status} {said!r}")
            hold(os.listdir(folder) == ["a.job"], "a job that is refused is not written again")
        for bodies in ({}, {GRID: bytes(125)}, {GRID: bytes(125), QUADS: quad}):
            answer = run([write(os.path.join(folder, "a.job"), job_of(2, bodies))])
            hold(answer == (1, "", "a.job: no triangles: the job has none to repair\n"), f"no triangles: {answer}")
    hold("larger than" in fails("a job without end", ["--kind", "job", "/dev/zero"]), "no more is read than 64 MB")
    hold(run(["--kind", "job", "-"], input=b"")[0] == 1, "no job on standard input")


def damaged():
    """The program `unpack` on every truncation of a small job and on changed bytes of it, beside the same from the documents."""
    small = job_of(2, {GRID: bytes(62) + b"\10" + bytes(62), TRIANGLES: LINE, QUADS: b"\1\0" * 4})
    files = [small[:k] for k in range(len(small) + 1)] + [small + b"\0"]
    for at in [*range(29), *range(29, len(small), 8)]:
        files += [small[:at] + bytes([small[at] ^ flip]) + small[at + 1:] for flip in (1, 3, 16, 128)]
    large = job_of(5, {GRID: bytes(35937), TRIANGLES: LINE * 2000, QUADS: b""})
    files += [large, large[:35966], large[:35967], large[:-1], large + b"\0", large[:35965] + b"\x10" + large[35966:], large[:31] + b"\4" + large[32:]]
    script.runs += len(files)
    wrong = [k for k, data in enumerate(files) if unpacked(data) != stream_of(data)]
    hold(not wrong, f"{len(wrong)} of {len(files)} jobs are unpacked otherwise, the first is number {wrong[:1]}")


def unpacked(data):
    with tempfile.TemporaryFile() as file:
        file.write(data)
        file.seek(0)
        return subprocess.run([os.path.join(ROOT, "target", "bin", "unpack")], stdin=file, capture_output=True, timeout=SOON).stdout


def files_kept():
    """No file is written over unless told, the one that is read never, and none is there in part."""
    with tempfile.TemporaryDirectory() as folder:
        path, model = os.path.join(folder, "a.job"), write(os.path.join(folder, "model"), b"\2" + LINE)
        right = case_of(b"\2" + LINE, run(["--quads", "--picture", "--job", path, model])[1])
        for old in (b"kept", b""):
            write(path, old)
            hold("a.job" in fails("a file that is there", ["--job", path, model]) and read(path) == old, "no file is written over")
        hold(run(["--job", path, "--force", model])[0] == 0 and read(path) == right, "--force writes over it")
        for same in (path, os.path.join(folder, ".", "a.job")):
            hold("is the file that is read" in fails("the file that is read", ["--force", "--job", same, path]) and read(path) == right, "the input is kept")
        with open(path, "rb") as file:
            fails("the file on standard input", ["--force", "--kind", "job", "--job", path, "-"], stdin=file)
        os.symlink("nowhere", os.path.join(folder, "link"))
        fails("a symlink that leads nowhere", ["--job", os.path.join(folder, "link"), model])
        os.mkdir(os.path.join(folder, "folder"))
        for place in ("folder", "missing/a.job", "model/a.job"):
            fails("no place for a job", ["--force", "--job", os.path.join(folder, place), model])
        fails("a device", ["--force", "--job", "/dev/null", model])
        big = os.path.join(folder, "big.job")
        fails("no room", ["--job", big, "-"], input=b"\4" + POINT, preexec_fn=small_files)
        hold(sorted(os.listdir(folder)) == ["a.job", "folder", "link", "model"], f"nothing is left beside the jobs: {os.listdir(folder)}")
        for words in (["--job"], ["--job", ""], ["--job", "--quads"], ["--job", big, "--job", big], ["--kind"], ["--kind", "text"], ["--kind", ""]):
            fails("a wrong command", words)


def with_masks():
    """Masks and a job: all are written, or none."""
    with tempfile.TemporaryDirectory() as folder:
        path, layers, model = os.path.join(folder, "a.job"), os.path.join(folder, "layers"), os.path.join(ROOT, "models", "bowl.bin")
        words = ["--masks", layers, "--job", path, model]
        hold(run(words)[0] == 0 and len(contents(layers)) == 33, "both are written")
        first = os.path.join(layers, "layer_00.pbm")
        os.remove(path)
        fails("a mask that is there", words)
        hold(not os.path.exists(path), "then no job is written")
        shutil.rmtree(layers)
        write(path, b"kept")
        fails("a job that is there", words)
        hold(read(path) == b"kept" and not os.path.exists(first), "then no mask is written")
        hold(run([*words, "--force"])[0] == 0 and len(contents(layers)) == 33 and len(read(path)) > 35966, "--force writes both")


def planted():
    """Programs that print less, or something else, are found: what they print is changed behind them in a copy of the script."""
    with script_build.repository() as r:
        hold(r.run()[0] == 0, "the repository's copy repairs")
        job = write(os.path.join(r.folder, "a.job"), job_of(2, {TRIANGLES: LINE * 2}))
        out, path, part = (os.path.join(r.folder, name) for name in ("out.job", "repair", "repairing/streams.sh"))
        env = dict(PATH=r.kit + "/bin:" + os.environ["PATH"], FAKE=r.kit, REAL=ROOT)
        words, text = ["--job", out, job], read(part).decode()
        hold(run(words, script=path, env=env)[0] == 0 and len(read(out)) == 29 + 125 + 2 * 36 + 6 * 8, "and writes a job")
        os.remove(out)
        pack, unpack = 'run_on pack "$room/stream" "$room/packed"', 'run_on unpack "$room/job" "$room/stream"'
        for call, fault, said in ((pack, 'truncate -s -8 "$room/packed"', "job is cut short"), (pack, 'echo >>"$room/packed"', "job is cut short"),
                                  (unpack, 'truncate -s -36 "$room/stream"', "stream is cut short"), (unpack, ': >"$room/stream"', "something else"),
                                  (unpack, 'echo refuse >"$room/stream"', "something else")):
            hold(text.count(call) == 1, f"{call} stands in the script once")
            write(part, text.replace(call, f"{call}; {fault}").encode())
            hold(said in fails(fault, words, script=path, env=env) and not os.path.exists(out), f"{fault} is found, and nothing is written")


TESTS = (round_trips, explained, job_refusals, damaged, files_kept, with_masks, planted)
