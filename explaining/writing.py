"""Writes a file beside its place and renames it when it is whole, so that nothing is left half written."""
import os
import tempfile

from faults import Trouble


def check(path, source, force):
    """Refuses a place that is taken, before anything is worked out. What is read is never written over."""
    if source is not None and os.path.exists(path) and os.path.samefile(path, source):
        raise Trouble(f"{path} is what is to be explained: it is not written over")
    if os.path.isdir(path):
        raise Trouble(f"{path} is a folder")
    if os.path.lexists(path) and not force:
        raise Trouble(f"{path} is there already: --force writes over it")


def write(path, text):
    try:
        handle, beside = tempfile.mkstemp(prefix=".explain.", dir=os.path.dirname(path) or ".")
    except OSError as fault:
        raise Trouble(f"cannot write {path}: {fault.strerror}") from None
    try:
        with os.fdopen(handle, "w", encoding="utf-8", errors="backslashreplace") as file:
            file.write(text)
        mask = os.umask(0)
        os.umask(mask)
        os.chmod(beside, 0o666 & ~mask)
        os.rename(beside, path)
    except OSError as fault:
        os.unlink(beside)
        raise Trouble(f"cannot write {path}: {fault.strerror}") from None
    except BaseException:
        os.unlink(beside)
        raise
