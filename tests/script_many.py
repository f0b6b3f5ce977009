"""Holds ./repair --out-dir to what is said of it: many files, so many at a time, taken up again after one that was killed."""
import os
import re
import shutil
import signal
import subprocess
import tempfile
import time

import script
from script import REPAIR, ROOT, SOON, environment, fails, group_is_gone, hold, run
from script_job import read, write
from script_stl import HOOK, box, stl

LAST = re.compile(r"^(\d+) repaired, (\d+) refused, (\d+) passed over, (\d+) failed$", re.M)


def some_models(folder, many):
    """Boxes of many sizes, and what each becomes by itself."""
    paths = [write(os.path.join(folder, f"model {k}.stl"), stl(*box((0, 0, 0), (1 + k, 2, 3)))) for k in range(many)]
    for k, path in enumerate(paths):
        hold(run(["-o", os.path.join(folder, f"alone {k}"), path])[0] == 0, "a model by itself")
    return paths, [read(os.path.join(folder, f"alone {k}")) for k in range(many)]


def counts(out):
    return [int(n) for n in LAST.search(out).groups()]


def many_files():
    """Repaired, refused, passed over and failed, each with its line and its count."""
    with tempfile.TemporaryDirectory() as folder:
        paths, alone = some_models(folder, 5)
        text = write(os.path.join(folder, "text.stl"), b"solid")
        stream = shutil.copy(os.path.join(ROOT, "models", "bowl.bin"), folder)
        out_dir, gone = os.path.join(folder, "a", "repaired"), os.path.join(folder, "gone.stl")
        for jobs, words in ((3, ["--jobs", "3"]), (1, [])):
            status, out, said = run([*words, "--out-dir", out_dir, *paths, text, stream])
            hold((status, counts(out)) == (1, [6, 1, 0, 0]), f"{jobs} at a time: {status} {out} {said}")
            hold(len(out.splitlines()) == 7 and all(f"model {k}.stl: repaired, 12 triangles" in out for k in range(5)), f"a line for each: {out}")
            hold(said.startswith("text.stl: refused 11: ") and len(said.splitlines()) == 1, f"and for the one that is refused: {said!r}")
            hold([read(os.path.join(out_dir, f"model {k}.stl")) for k in range(5)] == alone, "each as by itself")
            hold(sorted(os.listdir(out_dir)) == ["bowl.stl"] + [f"model {k}.stl" for k in range(5)], f"no other file: {os.listdir(out_dir)}")
            if jobs == 3:
                shutil.rmtree(out_dir)
        os.remove(os.path.join(out_dir, "model 3.stl"))
        write(os.path.join(out_dir, "model 1.stl"), b"kept")
        status, out, said = run(["--out-dir", out_dir, *paths])
        hold((status, said, counts(out)) == (0, "", [1, 0, 4, 0]) and "model 1.stl: passed over" in out, f"taken up again: {out}")
        hold(read(os.path.join(out_dir, "model 1.stl")) == b"kept" and read(os.path.join(out_dir, "model 3.stl")) == alone[3], "what is there is kept")
        status, out, _ = run(["--out-dir", out_dir, "--force", *paths])
        hold((status, counts(out)) == (0, [5, 0, 0, 0]) and read(os.path.join(out_dir, "model 1.stl")) == alone[1], "--force repairs all again")
        status, out, said = run(["--out-dir", out_dir, gone, paths[0], text])
        hold((status, counts(out)) == (2, [0, 1, 1, 1]) and "there is no file" in said, f"a file that is not there: {status} {out} {said}")
        answer = run(["--out-dir", os.path.join(folder, "b"), "--level", "3", "--e", "10", paths[0]])
        hold(answer[0] == 0 and answer[1].count("\n") == 1, "one FILE has its line alone")
        hold(run(["-o", os.path.join(folder, "c"), "--level", "3", "--e", "10", paths[0]])[0] == 0, "the same by itself")
        hold(read(os.path.join(folder, "b", "model 0.stl")) == read(os.path.join(folder, "c")), "options go to each")


def early_reader_of_many():
    """A reader that stops early is no failure, and nothing is left."""
    with tempfile.TemporaryDirectory() as folder, tempfile.TemporaryDirectory() as room:
        paths, alone = some_models(folder, 3)
        out_dir = os.path.join(folder, "repaired")
        for many in (3, 0):
            script.runs += 1
            words = " ".join(f"'{word}'" for word in [REPAIR, "--out-dir", out_dir, *paths])
            done = subprocess.run(f"{{ {words}; echo $? >&2; }} | true", shell=True, capture_output=True, timeout=SOON, env=environment(room))
            hold((done.stdout, done.stderr) == (b"", b"0\n"), f"{many} repaired: {done}")
            hold([read(os.path.join(out_dir, f"model {k}.stl")) for k in range(3)] == alone and not os.listdir(room), f"nothing is left: {os.listdir(room)}")


def many_commands():
    """Wrong commands are told before anything is done."""
    with tempfile.TemporaryDirectory() as folder:
        one, two = (write(os.path.join(folder, name), read(HOOK)) for name in ("one.stl", "one.STL"))
        none = os.path.join(folder, "none")
        hold("is a file that is read" in fails("the models' own folder", ["--force", "--out-dir", folder, one]), "no model is written over")
        hold("two FILEs" in fails("one name for two", ["--out-dir", none, one, two]), "names that meet are told")
        for words in (["--out-dir"], ["--out-dir", none], ["--out-dir", none, "-"], ["--out-dir", none, "-o", none, one], ["--out-dir", none, "--quads", one],
                      ["--out-dir", none, "--masks", none, one], ["--out-dir", none, "--job", none, one], ["--out-dir", none, "--picture", one],
                      ["--out-dir", none, "--jobs", "0", one], ["--out-dir", none, "--jobs", "x", one], ["--out-dir", "/dev/null", one],
                      ["--out-dir", none, "--level", "5", os.path.join(ROOT, "models", "bowl.bin")], ["--out-dir", none, "--out-dir", none, one]):
            fails("a wrong command", words)
        shutil.rmtree(none, ignore_errors=True)
        hold(sorted(os.listdir(folder)) == ["one.STL", "one.stl"] and read(one) == read(HOOK), "nothing is written")


def await_true(what, claim):
    end = time.monotonic() + SOON
    while not what() and time.monotonic() < end:
        time.sleep(0.05)
    hold(what(), claim)


def processes(word):
    """The processes whose last word is this."""
    found = []
    for pid in filter(str.isdigit, os.listdir("/proc")):
        try:
            with open(f"/proc/{pid}/cmdline", "rb") as file:
                words = file.read().split(b"\0")[:-1]
        except OSError:
            continue
        if words and words[-1].decode() == word:
            found.append((int(pid), words))
    return found


def killed_and_taken_up():
    """One of many that is killed leaves nothing, and does not stop the others; the next run repairs it. A pipe that nobody writes to has it wait."""
    with tempfile.TemporaryDirectory() as folder, tempfile.TemporaryDirectory() as room:
        paths, alone = some_models(folder, 3)
        pipe, out_dir = os.path.join(folder, "pipe.stl"), os.path.join(folder, "repaired")
        os.mkfifo(pipe)
        script.runs += 1
        process = subprocess.Popen([REPAIR, "--jobs", "2", "--out-dir", out_dir, pipe, *paths], env=environment(room), stdout=subprocess.PIPE,
                                   stderr=subprocess.PIPE)
        await_true(lambda: os.path.exists(os.path.join(out_dir, "model 2.stl")), "the others are repaired meanwhile")
        child = [pid for pid, words in processes(pipe) if b"--brief" in words and b"-c" not in words]
        hold(len(child) >= 1, "the run that waits")
        for pid in child:
            os.kill(pid, signal.SIGKILL)
        os.close(os.open(pipe, os.O_RDWR | os.O_NONBLOCK))  # what waited for the pipe's other end goes
        out, _ = process.communicate(timeout=SOON)
        hold((process.returncode, counts(out.decode())) == (2, [3, 0, 0, 1]), f"the killed one failed: {process.returncode} {out}")
        hold(sorted(os.listdir(out_dir)) == [f"model {k}.stl" for k in range(3)] and not os.listdir(room), f"and left nothing: {os.listdir(out_dir)}")
        os.remove(pipe)
        write(pipe, read(paths[1]))
        left = os.path.join(out_dir, f".repair.{os.uname().nodename}.abcdef")  # as a run leaves it that is killed itself
        os.mkdir(left)
        os.utime(left, (0, 0))
        status, out, _ = run(["--jobs", "2", "--out-dir", out_dir, pipe, *paths])
        hold((status, counts(out)) == (0, [1, 0, 3, 0]) and read(os.path.join(out_dir, "pipe.stl")) == alone[1], "the next run repairs it")
        hold(not os.path.exists(left), "and takes away what a killed run left")


def interrupted():
    """A signal ends all runs; what is whole is kept, and nothing else is left."""
    for number in (signal.SIGINT, signal.SIGTERM, signal.SIGHUP):
        with tempfile.TemporaryDirectory() as folder, tempfile.TemporaryDirectory() as room:
            pipe, out_dir, model = os.path.join(folder, "pipe.stl"), os.path.join(folder, "repaired"), shutil.copy(HOOK, folder)
            os.mkfifo(pipe)
            script.runs += 1
            process = subprocess.Popen([REPAIR, "--jobs", "2", "--out-dir", out_dir, pipe, model], env=environment(room), stdout=subprocess.DEVNULL,
                                       stderr=subprocess.DEVNULL, start_new_session=True)
            await_true(lambda: os.path.exists(os.path.join(out_dir, "hook.stl")), "the other is repaired")
            process.send_signal(number)
            hold(process.wait(SOON) == -number, f"{number.name} ends it")
            hold(group_is_gone(process.pid) and not processes(pipe) and not os.listdir(room), f"nothing is left after {number.name}")
            hold(os.listdir(out_dir) == ["hook.stl"], f"but for what is whole: {os.listdir(out_dir)}")


def over_machines():
    """As README has it, by GNU parallel; this machine stands in for two."""
    if not shutil.which("parallel"):
        print("over_machines: passed over, since parallel is not installed (Debian's package parallel)")
        return
    with tempfile.TemporaryDirectory() as folder, tempfile.TemporaryDirectory() as room:
        paths, alone = some_models(folder, 4)
        script.runs += 1
        words = ["parallel", "--sshlogin", "1/:,1/:", "--workdir", folder, REPAIR, "--out-dir", "repaired", "{}", ":::",
                 *(os.path.basename(p) for p in paths), "none.stl"]
        done = subprocess.run(words, capture_output=True, text=True, cwd=folder, env=environment(room), timeout=2 * SOON, stdin=subprocess.DEVNULL)
        hold(done.returncode == 1 and done.stdout.count(": repaired, ") == 4 and "there is no file" in done.stderr,
             f"{done.returncode} {done.stdout} {done.stderr}")
        hold([read(os.path.join(folder, "repaired", f"model {k}.stl")) for k in range(4)] == alone, "each as by itself")
        done = subprocess.run(words[:-1], capture_output=True, text=True, cwd=folder, env=environment(room), timeout=2 * SOON, stdin=subprocess.DEVNULL)
        hold(done.returncode == 0 and done.stdout.count(": passed over, ") == 4, f"taken up again: {done.stdout} {done.stderr}")


TESTS = (many_files, early_reader_of_many, many_commands, killed_and_taken_up, interrupted, over_machines)
