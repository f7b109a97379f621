"""Replicas of many lengths, over real files and the program that the gate built: one that is longer than declared is told
with its whole length, any other comes whole; and what is no file."""
import hashlib
import os
import pathlib
import subprocess
import sys
import tempfile
import threading

from workflows import delivery, job, replica, write

PROGRAM = pathlib.Path("crates/pegasus/out/pegasus").absolute()
DECLARED = 10
# Around the declared size, around the piece in which a document is read, and longer than any piece.
LENGTHS = (0, 9, 10, 11, 16384, 16385, 65536, 65537, 1_000_000)
MOST = 2**40


def call(place, *words):
    """Status, and the last lines of the text: those after the record, where there is one."""
    done = subprocess.run([PROGRAM, *words], cwd=place, capture_output=True, text=True, timeout=60)
    return done.returncode, done.stdout.split("closed\n", 1)[-1].splitlines()


def is_left(place):
    """Whether anything stands in the folder that the call should have taken away."""
    parts = list(place.glob(".pegasus.part.*"))
    files = [it for it in (place / "sites").rglob("*") if not it.is_dir()]
    return parts + files


def answer(bytes_of, size):
    """What a delivery of the file a has to end with."""
    if len(bytes_of) > size:
        return 6, [f"failed replica a {size} {len(bytes_of)}"]
    return 0, [f"delivered a {len(bytes_of)} {hashlib.sha256(bytes_of).hexdigest()}", "done"]


def tries(place, pfn, bytes_of):
    """One replica, delivered, and brought to a site for a job, by one worker and by two; and its worth, for which no size is
    declared."""
    wanted = answer(bytes_of, DECLARED)
    write(place, [delivery("a")], [replica("a", pfn)], size=DECLARED)
    for words in (("alone", "request.json"), ("run", "request.json", "--workers", "2")):
        assert call(place, *words) == wanted, (pfn, len(bytes_of), words)
        assert not is_left(place) and (place / "output" / "a").exists() == (wanted[0] == 0), (len(bytes_of), words)
        (place / "output" / "a").unlink(missing_ok=True)
    write(place, [job("digest", [], ["a"], ["b"])], [replica("a", pfn)], size=DECLARED, sizes={"b": 100})
    status, lines = call(place, "alone", "request.json")
    assert (status, lines if status else []) == (wanted[0], wanted[1] if status else []), (len(bytes_of), lines)
    if status == 0:
        assert (place / "output" / "b").read_text().strip() == hashlib.sha256(bytes_of).hexdigest()
    assert call(place, "eval", "request.json")[0] == 0
    return 4


def lengths(place):
    tried = 0
    for length in LENGTHS:
        bytes_of = (b"0123456789abcdef\n" * (length // 17 + 1))[:length]
        (place / "a file").write_bytes(bytes_of)
        for pfn in ("a file", "file://a file", place / "a file"):
            tried += tries(place, pfn, bytes_of)
    return tried


def longest(place):
    """A file of one byte more than the greatest size that can be declared, nearly all of it a hole."""
    with open(place / "long", "wb") as out:
        try:
            out.truncate(MOST + 1)
        except OSError as fault:
            print(f"replicas: skipped, no file of {MOST + 1} bytes can be made here: {fault}")
            return 0
    wanted = 6, [f"failed replica a {MOST} {MOST + 1}"]
    write(place, [job("digest", [], ["a"], ["b"])], [replica("a", "long")], size=MOST)
    for words in (("eval", "request.json"), ("alone", "request.json")):
        assert call(place, *words) == wanted, words
    return 2


def through_pipe(place, bytes_of, *words):
    """A call over a replica that is a named pipe, into which something is written meanwhile."""
    pipe = place / "pipe"
    os.mkfifo(pipe)

    def feed():
        try:
            with open(pipe, "wb") as out:
                out.write(bytes_of)
        except BrokenPipeError:
            pass

    writer = threading.Thread(target=feed)
    writer.start()
    try:
        return call(place, *words)
    finally:
        writer.join()
        pipe.unlink()


def no_files(place):
    """A pipe has no length, so a transfer doesn't take it, while the worth of it is that of what comes; a folder, and nothing."""
    for length in LENGTHS:
        bytes_of = b"x" * length
        write(place, [delivery("a")], [replica("a", "pipe")], size=DECLARED)
        assert through_pipe(place, bytes_of, "alone", "request.json") == (6, ["failed host 0"]), length
        assert not is_left(place) and not (place / "output").exists()
        write(place, [job("count", [], ["a"], ["b"])], [replica("a", "pipe")], size=DECLARED)
        text = f"0 {length}\n" if length == 0 else f"1 {length}\n"
        worth = f"value b {len(text)} {hashlib.sha256(text.encode()).hexdigest()}"
        assert through_pipe(place, bytes_of, "eval", "request.json") == (0, [worth, "done"]), length
    for pfn, told, worth in ((".", "host 0", "host -"), ("none", "absent a none", "absent a none"), ("ftp://a", "absent a ftp://a", "absent a ftp://a")):
        write(place, [delivery("a")], [replica("a", pfn)], size=DECLARED)
        assert call(place, "alone", "request.json") == (6, [f"failed {told}"]), pfn
        write(place, [job("count", [], ["a"], ["b"])], [replica("a", pfn)], size=DECLARED)
        assert call(place, "eval", "request.json") == (6, [f"failed {worth}"]), pfn
    return 2 * len(LENGTHS) + 6


if not PROGRAM.exists():
    print("replicas: skipped, no program is built")
    sys.exit()
count = 0
for subject in (lengths, longest, no_files):
    with tempfile.TemporaryDirectory() as work:
        count += subject(pathlib.Path(work))
print(f"replicas: ok, {count} calls")
