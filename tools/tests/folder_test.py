"""What the program that the gate built leaves in its working folder: files that are being written, names, links, a file that
changes while it is read, and a disk that is full. What a call answers is looked at with it."""
import hashlib
import os
import pathlib
import resource
import shutil
import signal
import subprocess
import sys
import tempfile

from folders import ALONE, CALLS, LONG, PROGRAM, begin, call, comes, end, files, hole, is_growing, parts
from workflows import delivery, job, replica, write


def names(place):
    """Names stand escaped in their folders, whoever makes them."""
    wanted = {"a/b": "a%2Fb", ".x": "%2Ex", "..": "%2E.", "%": "%25", "a b": "a b", "\u00e9": "\u00e9", "x.": "x.", "sites": "sites"}
    write(place, [job("text", ["of", name], [], [name]) for name in wanted], sites=("../pool",))
    for words in (*CALLS, ("run", "request.json", "--workers", "16")):
        status, lines = call(place, words)
        assert status == 0 and len(lines) == len(wanted) + 1, (words, lines)
        assert files(place) == sorted(f"output/{it}" for it in wanted.values()), words
        assert sorted(it.name for it in (place / "sites").iterdir()) == ["%2E.%2Fpool"], words
        for name, file in wanted.items():
            assert (place / "output" / file).read_text() == f"of {name}\n", name
        shutil.rmtree(place / "output")
    return 3


def at_once(place):
    """One name at two sites: two files are written beside each other, each with a number of its own."""
    line = hole(place / "long")
    jobs = [job("digest", [], ["a"], [f"f{it}"], site=it) for it in ("one", "two")]
    write(place, jobs, [replica("a", "long")], sites=("one", "two"))
    running = begin(place, ("run", "request.json", "--workers", "2"))
    comes(lambda: all(is_growing(place / f".pegasus.part.{it}") for it in (1, 2)), running)
    assert files(place) == [".pegasus.part.1", ".pegasus.part.2"]
    status, lines = end(running)
    assert status == 0 and files(place) == ["output/fone", "output/ftwo"], (lines, files(place))
    for it in ("fone", "ftwo"):
        assert (place / "output" / it).read_text().split() == line.split()[-1:], it
    return 1


def dropped(place):
    """A call that is ended from outside leaves a file that nobody takes for the file itself; the next call replaces it."""
    line = hole(place / "long")
    write(place, [delivery("a")], [replica("a", "long")])
    for words in CALLS:
        running = begin(place, words)
        comes(lambda: is_growing(place / ".pegasus.part.1"), running)
        running.send_signal(signal.SIGKILL)
        assert end(running)[0] == -signal.SIGKILL and files(place) == [".pegasus.part.1"], words
        assert call(place, words) == (0, [line, "done"]) and files(place) == ["output/a"], words
        shutil.rmtree(place / "output")
    return 4


def planted(place):
    """What stands where a file is to be written goes, and a link's target stays; a folder doesn't go."""
    (place / "a").write_text("brought\n")
    outside, part = place / "outside", place / ".pegasus.part.1"
    line = f"delivered a 8 {hashlib.sha256(b'brought' + bytes([10])).hexdigest()}"
    write(place, [delivery("a")], [replica("a", "a")])
    for words in CALLS:
        outside.write_text("outside\n")
        for plant in (lambda: part.write_text("of an earlier call, and longer\n"), lambda: part.symlink_to("outside"),
                      lambda: part.symlink_to("nowhere"), lambda: os.mkfifo(part)):
            plant()
            assert call(place, words) == (0, [line, "done"]) and files(place) == ["output/a"], words
            assert (place / "output" / "a").read_text() == "brought\n" and outside.read_text() == "outside\n", words
            assert not (place / "nowhere").exists()
        shutil.rmtree(place / "output")
        part.mkdir()
        assert call(place, words) == (6, ["failed host 0"]) and part.is_dir() and not (place / "output").exists(), words
        part.rmdir()
    return 10


def discarded(place):
    """What a task that failed had written goes: of another digest, of a job that makes more than is declared. An earlier file of
    its name stays."""
    (place / "a").write_text("brought\n")
    got = hashlib.sha256(b"brought\n").hexdigest()
    wrong = [replica("a", "a", checksum="0" * 64)]
    told = f"failed checksum a {'0' * 64} {got}"
    oversize = [job("text", ["word"], [], ["x"]), job("text", ["longer", "word"], [], ["y"])]
    for words in CALLS:
        for jobs in ([delivery("a")], [job("digest", [], ["a"], ["b"])]):
            write(place, jobs, wrong)
            assert call(place, words) == (6, [told]) and not files(place), words
        (place / "output").mkdir()
        (place / "output" / "a").write_text("of an earlier run\n")
        write(place, [delivery("a")], wrong)
        assert call(place, words) == (6, [told]) and files(place) == ["output/a"], words
        assert (place / "output" / "a").read_text() == "of an earlier run\n", words
        shutil.rmtree(place / "output")
        write(place, oversize, size=5)
        status, lines = call(place, words)
        assert status == 6 and lines[-1] == "failed oversize j1 y 5 12" and not parts(place), (words, lines)
        shutil.rmtree(place / "sites", ignore_errors=True)
        shutil.rmtree(place / "output", ignore_errors=True)
    return 8


def amid(place):
    """Sixteen workers are about files when one of these turns out to be wrong: each that was told stands in the output, and nothing
    else is left anywhere."""
    hole(place / "long", LONG // 8)
    (place / "short").write_text("brought\n")
    names = [f"a{number}" for number in range(40)]
    replicas = [replica(name, "short" if name == "a9" else "long", checksum="0" * 64 if name == "a9" else None) for name in names]
    write(place, [delivery(name) for name in names], replicas)
    status, lines = call(place, ("run", "request.json", "--workers", "16"))
    assert status == 6 and lines[-1].startswith("failed checksum a9 "), lines
    told = [line.split()[1] for line in lines[:-1]]
    assert len(told) < len(names) and files(place) == sorted(f"output/{it}" for it in told), (told, files(place))
    return 1


def changing(place):
    """A file that is shortened while it is read is a fault; of one that is lengthened there comes what it had at first."""
    line = hole(place / "long")
    write(place, [delivery("a")], [replica("a", "long")])
    for words in CALLS:
        for length, wanted in ((1, (6, ["failed host 0"])), (2 * LONG, (0, [line, "done"]))):
            hole(place / "long")
            running = begin(place, words)
            comes(lambda: is_growing(place / ".pegasus.part.1"), running)
            os.truncate(place / "long", length)
            assert end(running) == wanted, (words, length)
            assert files(place) == ([] if wanted[0] else ["output/a"]), (words, files(place))
            shutil.rmtree(place / "output", ignore_errors=True)
    return 4


def linked_folders(place):
    """A link in the place of a folder that the program writes in isn't followed."""
    elsewhere = place / "elsewhere"
    elsewhere.mkdir()
    (place / "sites").mkdir()
    tried = 0
    for link, target, told in (
        ("sites/pool", "../elsewhere", "host -"), ("sites/pool", "nowhere", "host -"),
        ("sites", "elsewhere", "host -"), ("sites", "nowhere", "host -"),
        ("output", "elsewhere", "host 1"), ("output", "nowhere", "host 1"),
    ):
        write(place, [job("text", ["word"], [], ["b"])])
        if link == "sites":
            shutil.rmtree(place / "sites", ignore_errors=True)
        (place / link).symlink_to(target)
        for words in CALLS:
            assert call(place, words) == (6, [f"failed {told}"]), (link, target, words)
            assert not list(elsewhere.iterdir()) and not parts(place) and (place / link).is_symlink(), (link, words)
            if link == "output":
                shutil.rmtree(place / "sites")
            tried += 1
        (place / link).unlink()
    return tried


def linked_output(place):
    """A link in the place of a delivered file is replaced, and its target stays."""
    write(place, [job("text", ["word"], [], ["b"])])
    (place / "output").mkdir()
    for words in CALLS:
        (place / "outside").write_text("outside\n")
        (place / "output" / "b").unlink(missing_ok=True)
        (place / "output" / "b").symlink_to("../outside")
        assert call(place, words)[0] == 0 and (place / "outside").read_text() == "outside\n", words
        assert not (place / "output" / "b").is_symlink() and (place / "output" / "b").read_text() == "word\n", words
    return 2


def linked_scratch(place):
    """A file at a site that was exchanged for a link, while a job is at work, isn't read; and where one was put in the place of a
    file that is still on its way, the file takes its place."""
    (place / "outside").write_text("outside\n")
    (place / "b").write_text("brought\n")
    (place / "lines").write_bytes(b"".join(b"%d\n" % (it * 7919 % 999983) for it in range(1_000_000)))
    jobs = [job("sorted", [], ["lines"], ["x"]), job("join", [], ["x", "b"], ["y"])]
    write(place, jobs, [replica("lines", "lines"), replica("b", "b")])
    running = begin(place, ("run", "request.json", "--workers", "2"))
    at = place / "sites" / "pool" / "b"
    comes(at.exists, running)
    at.unlink()
    at.symlink_to("../../outside")
    status, lines = end(running)
    assert status == 6 and lines[-1] == "failed host 1", lines
    assert at.is_symlink() and (place / "outside").read_text() == "outside\n" and not parts(place)
    shutil.rmtree(place / "sites")
    shutil.rmtree(place / "output", ignore_errors=True)

    hole(place / "long")
    write(place, [job("digest", [], ["long"], ["y"])], [replica("long", "long")])
    running = begin(place, ALONE)
    comes(lambda: is_growing(place / ".pegasus.part.1"), running)
    at = place / "sites" / "pool" / "long"
    at.parent.mkdir(parents=True)
    at.symlink_to("../../outside")
    status, lines = end(running)
    assert status == 0 and (place / "outside").read_text() == "outside\n" and files(place) == ["output/y"], lines
    return 2


def overfull(place, **streams):
    """Calls in a folder where no file of a megabyte can be written."""
    with tempfile.TemporaryDirectory() as other:
        (pathlib.Path(other) / "long").write_bytes(bytes(2**20))
        registered = [replica("long", pathlib.Path(other, "long"))]
        for words in CALLS:
            for jobs in ([delivery("long")], [job("digest", [], ["long"], ["y"])]):
                write(place, jobs, registered)
                number = 0 if len(jobs[0]["uses"]) == 1 else 1
                assert call(place, words, **streams) == (6, [f"failed host {number}"]), (words, number)
                assert not files(place), files(place)
            # What fits is written: the failed calls left no room taken.
            write(place, [job("text", ["word"], [], ["b"])])
            assert call(place, words, **streams)[0] == 0 and files(place) == ["output/b"], words
            shutil.rmtree(place / "output")
    return 6


def limited(place):
    """Each file of the process may have so many bytes at most; a write beyond them fails."""
    def limit():
        signal.signal(signal.SIGXFSZ, signal.SIG_IGN)
        resource.setrlimit(resource.RLIMIT_FSIZE, (65536, 65536))

    return overfull(place, preexec_fn=limit, restore_signals=False)


def full(place):
    """A file system in memory of 128 KB, which root alone can have."""
    disk = place / "disk"
    disk.mkdir()
    mounted = subprocess.run(["mount", "-t", "tmpfs", "-o", "size=128k", "tmpfs", disk], capture_output=True, text=True, check=False)
    if mounted.returncode != 0:
        print(f"folder: skipped, no small file system can be mounted here: {mounted.stderr.strip()}")
        return 0
    try:
        return overfull(disk)
    finally:
        subprocess.run(["umount", disk], check=True)


if not PROGRAM.exists():
    print("folder: skipped, no program is built")
    sys.exit()
count = 0
SUBJECTS = (
    names, at_once, dropped, planted, discarded, amid, changing, linked_folders, linked_output, linked_scratch, limited, full
)
for subject in SUBJECTS:
    with tempfile.TemporaryDirectory() as work:
        count += subject(pathlib.Path(work))
print(f"folder: ok, {count} calls")
