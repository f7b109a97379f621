"""What the program that the gate built shows of its progress on a terminal, here one that Python makes: that it is written over,
that nothing of it stays, and that nothing else of a call is changed by it."""
import os
import pathlib
import pty
import re
import shutil
import subprocess
import sys
import tempfile
import time
import tty

import terminals

PROGRAM = pathlib.Path("crates/pegasus/out/pegasus").absolute()
EXAMPLES = pathlib.Path("examples").absolute()
MAKE = EXAMPLES / "montage" / "make"
LINE = re.compile(rb"(\rjobs begun: \d+ *)+\r +\r")


def place_of(work):
    """The examples, and a workflow of some seventy jobs in the folder itself."""
    place = pathlib.Path(work, "place")
    shutil.copytree(EXAMPLES, place / "examples")
    subprocess.run([sys.executable, MAKE, "12", "."], cwd=place, check=True, stdout=subprocess.DEVNULL)
    return place


def plainly(words):
    """Status and both streams of a call that has no terminal."""
    with tempfile.TemporaryDirectory() as work:
        done = subprocess.run([PROGRAM, *words], cwd=place_of(work), capture_output=True, timeout=60)
    return done.returncode, done.stdout, done.stderr


def on_terminal(words, is_all):
    """Status and output of a call whose standard error is a terminal, what came to that, and how long it took. With `is_all`
    the output goes to the terminal too."""
    terminal, end = pty.openpty()
    tty.setraw(end)
    with tempfile.TemporaryDirectory() as work, open(pathlib.Path(work, "text"), "w+b") as text:
        place, where = place_of(work), end if is_all else text
        begun = time.monotonic()
        call = subprocess.Popen([PROGRAM, *words], cwd=place, stdin=subprocess.DEVNULL, stdout=where, stderr=end)
        os.close(end)
        came = terminals.read_all(terminal)
        status = call.wait(timeout=60)
        took = time.monotonic() - begun
        text.seek(0)
        output = text.read()
    os.close(terminal)
    return status, output, came, took


def screen(came):
    """What stands on a terminal after bytes with carriage returns."""
    lines = []
    for line in came.split(b"\n"):
        seen = bytearray()
        for piece in line.split(b"\r"):
            seen[: len(piece)] = piece
        lines.append(bytes(seen).rstrip())
    return lines


def shows(words):
    """A call that runs jobs: its answer is the same with a terminal, on which the line stood, at most ten times a second."""
    status, text, errors = plainly(words)
    assert status == 0 and not errors, (words, status, errors)
    found, output, came, took = on_terminal(words, False)
    assert (found, output) == (status, text), (words, found)
    assert LINE.fullmatch(came) and not screen(came)[0], (words, came)
    assert came.count(b"jobs") <= 10 * took + 2, (words, took, came)
    found, _, came, _ = on_terminal(words, True)
    assert found == status and b"jobs begun" in came, (words, found)
    assert screen(came) == [it.rstrip() for it in text.split(b"\n")], (words, came)


def shows_nothing(words):
    """A call that runs no job."""
    status, text, errors = plainly(words)
    assert not errors, (words, errors)
    assert on_terminal(words, False)[:3] == (status, text, b""), words


def runs_by_many(words):
    """A run whose record differs from call to call: what follows the record doesn't."""
    status, text, errors = plainly(words)
    found, output, came, _ = on_terminal(words, False)
    assert found == status == 0 and not errors, (words, status, found, errors)
    assert output.split(b"closed\n")[1] == text.split(b"closed\n")[1], words
    assert LINE.fullmatch(came), (words, came)


if not PROGRAM.exists():
    print("progress: skipped, no program is built")
    sys.exit()
shows(["alone", "examples/diamond/request.json"])
shows(["alone", "request.json"])
shows(["eval", "request.json"])
shows(["rehearse", "20"])
shows(["run", "request.json", "--workers", "1"])
runs_by_many(["run", "request.json", "--workers", "4"])
shows_nothing(["check", "request.json"])
shows_nothing(["plan", "request.json"])
shows_nothing(["alone", "nowhere.json"])
print("progress: ok, 9 calls")
