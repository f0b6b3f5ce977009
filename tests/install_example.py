"""examples/plate.c, built with the installed library by pkg-config as C and as C++, by CMake, and with the archive by hand; and run."""
import os
import shlex
import shutil
import struct
import subprocess
import tempfile

from install_running import CC, CXX, SHARED, SOON, VERSION, installs, read, told_by
from script import ROOT, hold

STRICT = ["-O2", "-Wall", "-Wextra", "-Wpedantic", "-Werror"]

tried = 0
passed_over = []


def plate(program, libraries, room, *words):
    """Status, output, complaints and the two files that the example writes, with the shared library of a folder."""
    files = [os.path.join(room, name) for name in ("repaired.stl", "masks.pbm")]
    for file in files:
        if os.path.exists(file):
            os.remove(file)
    done = subprocess.run([program, *words, *files], capture_output=True, env={**os.environ, "LD_LIBRARY_PATH": libraries}, timeout=SOON)
    return [done.returncode, done.stdout.decode(), done.stderr.decode()] + [read(file) if os.path.exists(file) else None for file in files]


def asked(prefix, *words):
    """What pkg-config tells of the library, as a shell reads it."""
    return shlex.split(told_by(["pkg-config", *words, "omphirun"], env={**os.environ, "PKG_CONFIG_PATH": os.path.join(prefix, "lib", "pkgconfig")}))


def by_pkg_config(prefix, room):
    """Programs built as C and as C++, with what pkg-config tells."""
    if not shutil.which("pkg-config"):
        passed_over.append("pkg-config")
        return []
    hold(asked(prefix, "--modversion") == [VERSION], "pkg-config tells the version")
    source, flags = os.path.join(ROOT, "examples", "plate.c"), asked(prefix, "--cflags")
    hold(flags == ["-I" + os.path.join(prefix, "include")], f"and where the header is: {flags}")
    programs = [os.path.join(room, name) for name in ("plate_c", "plate_cxx")]
    told_by([CC, *STRICT, "-std=c99", *flags, "-o", programs[0], source, *asked(prefix, "--libs")])
    told_by([CXX, *STRICT, "-std=c++98", "-fno-exceptions", *flags, "-x", "c++", "-c", "-o", programs[1] + ".o", source])
    told_by([CXX, "-o", programs[1], programs[1] + ".o", *asked(prefix, "--libs")])
    return programs


def by_cmake(prefix, room):
    if not (shutil.which("cmake") and shutil.which("pkg-config") and (shutil.which("make") or shutil.which("ninja"))):
        passed_over.append("CMake")
        return []
    folder = os.path.join(room, "cmake")
    env = {**os.environ, "PKG_CONFIG_PATH": os.path.join(prefix, "lib", "pkgconfig")}
    told_by(["cmake", "-S", os.path.join(ROOT, "examples"), "-B", folder, "-DCMAKE_C_COMPILER=" + CC, "-DCMAKE_BUILD_TYPE=Release"], env=env)
    told_by(["cmake", "--build", folder], env=env)
    return [os.path.join(folder, "plate")]


def without_tools(prefix, room):
    """A program linked with the archive by hand, which needs no shared library to run."""
    program = os.path.join(room, "plate_archive")
    told_by([CC, *STRICT, "-std=c99", "-I", os.path.join(prefix, "include"), "-o", program, os.path.join(ROOT, "examples", "plate.c"),
           os.path.join(prefix, "lib", "libomphirun.a")])
    return [program]


def by_reference(room):
    """The example with the reference in the library's place."""
    program = os.path.join(room, "plate_reference")
    told_by([CC, "-O2", "-std=gnu11", "-w", "-I", os.path.join(ROOT, "include"), "-o", program, os.path.join(ROOT, "examples", "plate.c"),
           os.path.join(ROOT, "tests", "second.c")])
    return program


def stl_of(stream):
    """A stream of the program as a binary STL file; its numbers are floats exactly."""
    triangles = [struct.unpack("<9i", stream[at:at + 36]) for at in range(1, len(stream), 36)]
    return bytes(80) + struct.pack("<I", len(triangles)) + b"".join(struct.pack("<12fH", 0, 0, 0, *t, 0) for t in triangles)


def models(room):
    """Files with their E: a stock tool's, the same without a triangle, the lampshade, no triangle, and some that are refused."""
    hook, text = (read(os.path.join(ROOT, "models", name)) for name in ("hook.stl", "hook_text.stl"))
    files = {"hook": (hook, 13), "open hook": (hook[:80] + struct.pack("<I", 47) + hook[84:84 + 47 * 50], 13), "empty": (bytes(84), 0),
             "lampshade": (stl_of(read(os.path.join(ROOT, "models", "lampshade.bin"))), 0), "too small": (hook, 3), "text": (text, 13),
             "cut short": (hook[:-1], 13), "E": (hook, 21)}
    for name, (content, e) in files.items():
        path = os.path.join(room, name + ".stl")
        with open(path, "wb") as file:
            file.write(content)
        yield name, path, str(e)


def example():
    """In each way that the example can be built it does what it does with the reference in the library's place."""
    global tried
    with tempfile.TemporaryDirectory() as room:
        inputs, reference = list(models(room)), by_reference(room)
        expected = {name: plate(reference, "", room, path, e) for name, path, e in inputs}
        lampshade = expected["lampshade"]
        hold(lampshade[:3] == [0, "895 triangles, 13 rims closed by 20 flips\n391284 bytes of STL, 33 masks\n", ""], f"the lampshade: {lampshade[:3]}")
        hold(expected["open hook"][1].startswith("47 triangles") and " 0 rims" not in expected["open hook"][1], "a hook without a triangle has a rim")
        hold(expected["too small"][0] == 1 and "x of corner A of triangle 1 is 324" in expected["too small"][2], "a coordinate out of range is named")
        hold([expected[name][2] for name in ("text", "cut short", "E")] ==
             [f"plate: read_stl is refused by {number}\n" for number in (11, 10, 14)], "refusals of read_stl")
        for name in ("plain", "with a space"):
            prefix = os.path.join(room, name)
            installs(prefix)
            programs = by_pkg_config(prefix, room) + by_cmake(prefix, room) + without_tools(prefix, room)
            alone = os.path.join(room, "alone")  # the loader looks for the major version's name, not for the link
            os.makedirs(alone, exist_ok=True)
            shutil.copy(os.path.join(prefix, "lib", SHARED), alone)
            for program in programs:
                for which, path, e in inputs:
                    tried += 1
                    hold(plate(program, alone, room, path, e) == expected[which], f"{os.path.basename(program)} on {which}")
            installs("--uninstall", prefix)
            hold(not os.path.exists(prefix), "nothing is left")
            shutil.rmtree(os.path.join(room, "cmake"), ignore_errors=True)
