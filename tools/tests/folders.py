"""Calls of the program that the gate built in a folder of a test, and what stands in that folder."""
import contextlib
import hashlib
import pathlib
import subprocess
import time

PROGRAM = pathlib.Path("crates/pegasus/out/pegasus").absolute()
# Long enough that a file is seen while it is written, one piece after the other.
LONG = 64 * 2**20
ALONE = ("alone", "request.json")
CALLS = (ALONE, ("run", "request.json", "--workers", "2"))


def begin(place, words, program=PROGRAM, **streams):
    return subprocess.Popen([program, *words], cwd=place, stdout=subprocess.PIPE, text=True, **streams)


def end(running):
    """Status, and the lines after the record, where there is one."""
    text, _ = running.communicate(timeout=120)
    return running.returncode, text.split("closed\n", 1)[-1].splitlines()


def call(place, words, **more):
    return end(begin(place, words, **more))


def parts(place):
    return sorted(it.name for it in place.glob(".pegasus.part.*"))


def files(place):
    """What stands at sites and in the output, by its path, and what is still being written."""
    found = [it for top in ("sites", "output") for it in (place / top).rglob("*") if not it.is_dir()]
    return sorted(str(it.relative_to(place)) for it in found) + parts(place)


def hole(path, length=LONG):
    """A file of zeros, and the line that tells its delivery as the file a."""
    with open(path, "wb") as out:
        out.truncate(length)
    return f"delivered a {length} {hashlib.sha256(bytes(length)).hexdigest()}"


def comes(is_there, running):
    """Waits until something is to be seen in the folder of a running call."""
    until = time.monotonic() + 60
    while not is_there():
        assert running.poll() is None and time.monotonic() < until, "it was not seen"
        time.sleep(0.0005)


def is_growing(path):
    with contextlib.suppress(FileNotFoundError):
        return path.stat().st_size > 0
    return False
