"""What the tests of the module share: claims that are counted, exceptions, and the sample lampshade as triangles and as a binary STL file."""
import os
import struct
from array import array

try:
    import numpy
except ImportError:
    numpy = None

ROOT = os.path.dirname(os.path.dirname(os.path.abspath(__file__)))
MIDDLE = 262144
tried = 0


def hold(holds, claim):
    global tried
    tried += 1
    if not holds:
        raise AssertionError(claim)


def read(*path):
    with open(os.path.join(ROOT, *path), "rb") as file:
        return file.read()


STREAM = read("models", "lampshade.bin")
LAMPSHADE = struct.unpack(f"<{(len(STREAM) - 1) // 4}i", STREAM[1:])
STL = bytes(80) + struct.pack("<I", len(LAMPSHADE) // 9) + b"".join(
    struct.pack("<12fH", 0, 0, 0, *LAMPSHADE[at:at + 9], 0) for at in range(0, len(LAMPSHADE), 9))


def raises(kinds, call, *given):
    """What the call raises, which has to be of these kinds and change nothing."""
    lent = [g for g in given if isinstance(g, (bytearray, array))]
    before = [bytes(g) for g in lent]
    try:
        call(*given)
    except kinds as fault:
        hold(before == [bytes(g) for g in lent], f"{call.__name__} changed what it was lent and raised {fault!r}")
        for g in lent:  # a buffer that is still lent cannot grow
            g.append(0)
            g.pop()
        return fault
    raise AssertionError(f"{call.__name__}{tuple(type(g).__name__ for g in given)} raises nothing")
