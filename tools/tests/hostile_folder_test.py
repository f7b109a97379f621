"""What a real disk can put in the way of the program that the gate built: names that would lead out of the folder, links, what
may not be read or written, a disk that gets full, folders and devices in the place of files, documents that are streams or grow,
a second run in the same folder, and an end at any moment. Each has an answer from which one can go on."""
import concurrent.futures
import contextlib
import hashlib
import os
import pathlib
import random
import shutil
import signal
import socket
import subprocess
import sys
import tempfile
import threading
import time

from folders import ALONE, CALLS, PROGRAM, begin, call, comes, end, files, hole, parts
from workflows import delivery, job, replica, write

CHECK = ("check", "request.json")
NOBODY = 65534
MEBIBYTE = 2**20
# So many lines that their sorting can be stopped while it goes on.
MANY = 500_000


def told(name):
    """A name as the program prints it."""
    shown = name.encode(errors="surrogateescape")
    return "".join(chr(it) if 0x21 <= it <= 0x7E and it != 0x25 else f"%{it:02X}" for it in shown)


def sum_of(data):
    return hashlib.sha256(data).hexdigest()


def mixed(count):
    """So many lines of six digits, out of order."""
    return b"".join(b"%06d\n" % (it * 7919 % 999983) for it in range(count))


@contextlib.contextmanager
def stopped(place, words, is_there):
    """A run that is stopped as soon as something is to be seen in its folder. It goes on where it is told to."""
    running = begin(place, words)
    try:
        comes(is_there, running)
        running.send_signal(signal.SIGSTOP)
        yield running
    finally:
        running.kill()


@contextlib.contextmanager
def small_disk(place, options):
    """A file system in memory, which root alone can have; nothing where there is none."""
    disk = place / "disk"
    disk.mkdir()
    mounted = subprocess.run(["mount", "-t", "tmpfs", "-o", options, "tmpfs", disk], capture_output=True, text=True, check=False)
    if mounted.returncode != 0:
        print(f"hostile-folder: skipped, no small file system can be mounted here: {mounted.stderr.strip()}")
        yield None
        return
    try:
        yield disk
    finally:
        subprocess.run(["umount", disk], check=True)


def leaving(place):
    """Names of files and sites that would lead out of the folder stay in it, and one that no file can have ends the run."""
    inner = place / "inner"
    inner.mkdir()
    kept = {"../../x": "%2E.%2F..%2Fx", "/tmp/x": "%2Ftmp%2Fx", ".": "%2E", "%2E%2E": "%252E%252E"}
    kept |= {"x" * 255: "x" * 255, "/" * 85: "%2F" * 85}
    tried = 0
    for name, file in kept.items():
        write(inner, [job("text", ["word"], [], [name])], sites=(name,))
        for words in CALLS:
            assert call(inner, words) == (0, [f"delivered {told(name)} 5 {sum_of(b'word' + bytes([10]))}", "done"]), (name, words)
            assert files(inner) == [f"output/{file}"] and [it.name for it in (inner / "sites").iterdir()] == [file], (name, words)
            shutil.rmtree(inner / "sites")
            shutil.rmtree(inner / "output")
            tried += 1
    for name in ("a\0b", "x" * 256, "x" * 300, "/" * 86, "\u00e9" * 128):
        for of_file, of_site in ((name, "pool"), ("x", name)):
            write(inner, [job("text", ["word"], [], [of_file])], sites=(of_site,))
            for words in CALLS:
                assert call(inner, words) == (6, ["failed host 0"]) and not files(inner), (name, words)
                shutil.rmtree(inner / "sites", ignore_errors=True)
                tried += 1
    assert os.listdir(place) == ["inner"]
    return tried


def named_documents(place):
    """Names of documents that no file has, and words that are no text."""
    write(place, [])
    tried = 0
    for name in ("x" * 300, "x/" * 3000, "request.json/x"):
        assert call(place, ("check", name)) == (3, [f"document failed {told(name)}"]), name
        tried += 1
    for name, line in (("a\0b", "document failed a%00b"), ("../none", "no document ../none"), ("..", "document failed .."), ("", None)):
        write(place, [], workflow=name)
        wanted = (3, [line]) if line else (4, ["refused request kind /workflow"])
        assert call(place, CHECK) == wanted, name
        tried += 1
    status, lines = call(place, (b"check", b"\xff.json"))
    assert status == 2 and lines[0].startswith("usage: "), lines
    (place / "w.json").write_bytes(b'{"pegasus":"5.0","name":"\xff","jobs":[]}')
    write(place, [], workflow="w.json")
    assert call(place, CHECK) == (4, ["refused workflow syntax"])
    return tried + 2


def links(place):
    """A document and a replica may be links. One that leads nowhere is absent, one that leads to itself can't be read."""
    write(place, [delivery("a")], [replica("a", "link")])
    (place / "loop").symlink_to("loop")
    (place / "dangling").symlink_to("nowhere")
    (place / "elsewhere").mkdir()
    (place / "elsewhere" / "a").write_text("brought\n")
    (place / "elsewhere" / "request.json").write_bytes((place / "request.json").read_bytes())
    (place / "r.json").symlink_to("elsewhere/request.json")
    (place / "link").symlink_to("elsewhere/a")
    assert call(place, ("check", "r.json"))[0] == 0
    assert call(place, ("check", "dangling")) == (3, ["no document dangling"])
    assert call(place, ("check", "loop")) == (3, ["document failed loop"])
    for words in CALLS:
        assert call(place, words) == (0, [f"delivered a 8 {sum_of(b'brought' + bytes([10]))}", "done"]), words
        assert not (place / "output" / "a").is_symlink() and (place / "output" / "a").read_text() == "brought\n"
        shutil.rmtree(place / "output")
    for target, line in (("nowhere", "absent a link"), ("loop", "host 0")):
        (place / "link").unlink()
        (place / "link").symlink_to(target)
        for words in CALLS:
            assert call(place, words) == (6, [f"failed {line}"]) and not files(place), (target, words)
    return 9


class Other:
    """A folder of somebody who isn't root, and the program called by that one."""

    def __init__(self, place):
        self.who = {"user": NOBODY, "group": NOBODY, "extra_groups": []} if os.geteuid() == 0 else {}
        self.program, self.at = place / "pegasus", place / "at"
        shutil.copy2(PROGRAM, self.program)
        for it in (place, self.program):
            it.chmod(0o755)

    def anew(self):
        """Makes the folder once more, in which each file may be read and written."""
        if self.at.exists():
            for it in (self.at, *self.at.rglob("*")):
                it.chmod(0o755) if it.is_dir() else None
            shutil.rmtree(self.at)
        self.at.mkdir()
        (self.at / "a").write_text("brought\n")
        write(self.at, [delivery("a"), job("text", ["word"], [], ["b"])], [replica("a", "a")])
        for folder in ("sites", "output"):
            (self.at / folder).mkdir()
        for it in (self.at, *self.at.rglob("*")):
            if self.who:
                os.chown(it, NOBODY, NOBODY)

    def call(self, words):
        return call(self.at, words, program=self.program, **self.who)

    def forbids(self, path, mode, words, wanted, *lasts):
        """The call ends with this status, and with one of these lines."""
        self.anew()
        (self.at / path).chmod(mode)
        status, lines = self.call(words)
        assert status == wanted and lines[-1] in lasts and not parts(self.at), (path, oct(mode), words, lines)


def forbidden(place):
    """What may not be read or written, as somebody who isn't root."""
    other = Other(place)
    other.anew()
    try:
        assert other.call(CHECK)[0] == 0 and other.call(ALONE)[0] == 0
    except PermissionError as fault:
        print(f"hostile-folder: skipped, nobody but root can begin a program here: {fault}")
        return 0
    other.forbids("request.json", 0, CHECK, 3, "document failed request.json")
    other.forbids("workflow.json", 0, CHECK, 3, "document failed workflow.json")
    for words in CALLS:
        other.forbids("a", 0, words, 6, "failed host 1")
        other.forbids("sites", 0o000, words, 6, "failed host -")
        other.forbids("sites", 0o555, words, 6, "failed host 0")
        other.forbids(".", 0o555, words, 6, "failed host 0", "failed host 1")
        other.forbids("output", 0o555, words, 6, "failed host 1", "failed host 2")
    other.anew()
    return 14


def fills(place):
    """A disk that gets full in the middle of a run: what was delivered is whole and told, and nothing half-written has a name.
    With the disk's room made, and `sites` removed, the run is done."""
    data = bytes(range(256)) * 160
    names = [f"a{it}" for it in range(5)]
    tried = 0
    with small_disk(place, "size=160k") as disk:
        if disk is None:
            return 0
        (place / "data").write_bytes(data)
        for words in (*CALLS, ("run", "request.json", "--workers", "16")):
            write(disk, [delivery(it) for it in names], [replica(it, place / "data") for it in names])
            status, lines = call(disk, words)
            given = [line.split(" ")[1] for line in lines[:-1]]
            # Sixteen may have begun all of them before the first one fails.
            least = 0 if words[-1] == "16" else 1
            assert status == 6 and lines[-1].startswith("failed host ") and least <= len(given) < len(names), (words, lines)
            assert files(disk) == sorted(f"output/{it}" for it in given), (words, files(disk), given)
            assert all((disk / "output" / it).read_bytes() == data for it in given), words
            shutil.rmtree(disk / "output", ignore_errors=True)
            write(disk, [delivery(it) for it in names[:2]], [replica(it, place / "data") for it in names])
            assert call(disk, words)[0] == 0 and files(disk) == ["output/a0", "output/a1"], words
            shutil.rmtree(disk / "output")
            tried += 2
    return tried


def no_names_left(place):
    """A disk on which no further file can be made."""
    tried = 0
    with small_disk(place, "nr_inodes=6") as disk:
        if disk is None:
            return 0
        for words in CALLS:
            write(disk, [job("text", ["word"], [], [f"b{it}"]) for it in range(3)], cleanup="none")
            status, lines = call(disk, words)
            assert status == 6 and lines[-1].startswith("failed host ") and not parts(disk), (words, lines, files(disk))
            for top in ("sites", "output"):
                shutil.rmtree(disk / top, ignore_errors=True)
            tried += 1
    return tried


def folders_as_files(place):
    """A folder where a file is to stand, an empty one too, and a file where a folder is to stand."""
    write(place, [job("text", ["word"], [], ["b"])])
    tried = 0
    for words in CALLS:
        for full in (False, True):
            (place / "output" / "b").mkdir(parents=True)
            if full:
                (place / "output" / "b" / "mine").write_text("mine\n")
            assert call(place, words) == (6, ["failed host 1"]), words
            assert (place / "output" / "b").is_dir(), words
            assert files(place) == ["output/b/mine"] * full + ["sites/pool/b"], (words, files(place))
            shutil.rmtree(place / "output")
            shutil.rmtree(place / "sites")
        for path, line in (("output", "host 1"), ("sites", "host -"), ("sites/pool", "host -")):
            (place / path).parent.mkdir(exist_ok=True)
            (place / path).write_text("mine\n")
            assert call(place, words) == (6, [f"failed {line}"]) and (place / path).read_text() == "mine\n", (path, words)
            (place / path).unlink()
            shutil.rmtree(place / "sites", ignore_errors=True)
        tried += 5
    return tried


def exchanged(place):
    """A file at a site that was exchanged for a folder while a job runs is neither read nor removed."""
    (place / "lines").write_bytes(mixed(MANY))
    (place / "b").write_text("brought\n")
    jobs = [job("sorted", [], ["lines"], ["x"]), job("join", [], ["x", "b"], ["y"])]
    write(place, jobs, [replica("lines", "lines"), replica("b", "b")])
    at = place / "sites" / "pool" / "b"
    with stopped(place, ("run", "request.json", "--workers", "2"), at.exists) as running:
        at.unlink()
        at.mkdir()
        running.send_signal(signal.SIGCONT)
        status, lines = end(running)
    assert status == 6 and lines[-1] == "failed host 1" and at.is_dir() and not parts(place), lines
    return 1


def bash(place, command):
    done = subprocess.run(["bash", "-c", command], cwd=place, capture_output=True, text=True, timeout=60)
    return done.returncode, done.stdout.splitlines()


def streams(place):
    """A document may be a stream, as a shell's `<(..)` is: it is read to its end, or up to the limit."""
    write(place, [job("text", ["word"], [], ["b"])])
    (place / "pegasus").symlink_to(PROGRAM)
    plan = bash(place, "./pegasus plan request.json")
    assert plan[0] == 0 and len(plan[1]) > 10
    assert bash(place, "./pegasus plan <(cat request.json)") == plan
    assert bash(place, "sed 's/workflow.json/\\/dev\\/stdin/' request.json > r.json; ./pegasus plan r.json < workflow.json") == plan
    assert bash(place, "cat workflow.json | ./pegasus plan r.json") == plan
    complete = 0, ["verdict complete", "done"]
    assert bash(place, "./pegasus alone <(cat request.json) > run.txt; ./pegasus audit request.json <(cat run.txt)") == complete
    assert bash(place, "./pegasus audit <(cat request.json) <(sleep 0.1; cat run.txt)") == complete
    # One that gives nothing is no JSON text; one that doesn't end is too long.
    status, lines = bash(place, "./pegasus check <(true)")
    assert (status, lines) == (4, ["refused request syntax"]), lines
    status, lines = bash(place, "./pegasus check <(yes)")
    assert status == 3 and lines[0].startswith("document too long /dev/fd/") and lines[0].endswith(" 33554432"), lines
    return 9


def devices(place):
    """Devices, folders, sockets and files of the system as documents and as replicas."""
    listening = socket.socket(socket.AF_UNIX)
    listening.bind(str(place / "socket"))
    tried = 0
    for name, wanted in (
        ("/dev/null", (4, ["refused request syntax"])),
        ("/dev/zero", (3, ["document too long /dev/zero 33554432"])),
        ("/proc/version", (4, ["refused request syntax"])),
        ("/proc/self/mem", (3, ["document failed /proc/self/mem"])),
        ("/proc/self", (3, ["document failed /proc/self"])),
        (".", (3, ["document failed ."])),
        ("socket", (3, ["document failed socket"])),
    ):
        assert call(place, ("check", name)) == wanted, (name, call(place, ("check", name)))
        tried += 1
    for pfn in ("/dev/null", "/dev/zero", "/proc/self", "/proc/version", ".", "socket"):
        write(place, [delivery("a")], [replica("a", pfn)])
        for words in CALLS:
            assert call(place, words) == (6, ["failed host 0"]) and not files(place), (pfn, words)
            tried += 1
    listening.close()
    return tried


def appended(path, stop):
    """Makes a file longer by a mebibyte of spaces at a time, up to more than a document may have, or until it is told to stop."""
    with open(path, "ab") as out:
        for _ in range(40):
            if stop.is_set():
                break
            out.write(b" " * MEBIBYTE)
            out.flush()


def growing(place):
    """A document that grows while it is read is what of it was there in the end, or too long; the call ends."""
    write(place, [])
    wanted = call(place, CHECK)
    assert wanted[0] == 0
    begun = (place / "workflow.json").read_bytes()
    for _ in range(4):
        (place / "workflow.json").write_bytes(begun)
        stop = threading.Event()
        writer = threading.Thread(target=appended, args=(place / "workflow.json", stop))
        writer.start()
        found = call(place, CHECK)
        stop.set()
        writer.join()
        assert found in (wanted, (3, ["document too long workflow.json 33554432"])), found
    # A stream that gives its second half later is read whole.
    os.mkfifo(place / "pipe")
    write(place, [], workflow="pipe")
    running = begin(place, CHECK)
    with open(place / "pipe", "wb") as out:
        out.write(begun[: len(begun) // 2])
        out.flush()
        time.sleep(0.05)
        out.write(begun[len(begun) // 2:])
    assert end(running) == wanted
    return 6


def second_run(place):
    """While a file stands at a site that it is to use, a second run in the folder ends before its first task, and changes nothing;
    the first is whole."""
    (place / "lines").write_bytes(mixed(MANY))
    write(place, [job("sorted", [], ["lines"], ["x"]), job("count", [], ["x"], ["y"])], [replica("lines", "lines")])
    alone = call(place, ALONE)
    whole = {it: (place / "output" / it).read_bytes() for it in ("x", "y")}
    assert alone[0] == 0
    tried = 0
    for first in CALLS:
        shutil.rmtree(place / "output")
        with stopped(place, first, (place / "sites" / "pool" / "lines").exists) as running:
            before = files(place)
            for second in CALLS:
                assert call(place, second) == (6, ["failed scratch pool"]) and files(place) == before, (first, second)
                tried += 1
            running.send_signal(signal.SIGCONT)
            assert end(running) == alone and files(place) == ["output/x", "output/y"], first
        assert all((place / "output" / name).read_bytes() == data for name, data in whole.items()), first
    return tried


def second_run_before_files(place):
    """Nor does a second run go on before the first has brought a file, or beside one that only delivers: the first to write has
    the folder until it has ended. What writes nothing is done meanwhile."""
    line = hole(place / "zeros")
    tried = 0
    delivered = ([delivery("a")], "failed host 0", (0, [line, "done"]))
    # (zeros are no numbers to add)
    brought = ([job("total", [], ["a"], ["x"])], "failed scratch pool", (6, ["failed declined j0"]))
    for jobs, refused, wanted in (delivered, brought):
        write(place, jobs, [replica("a", "zeros")])
        for first in CALLS:
            with stopped(place, first, lambda: parts(place)) as running:
                before = files(place)
                for second in CALLS:
                    assert call(place, second) == (6, [refused]) and files(place) == before, (first, second)
                    tried += 1
                assert call(place, CHECK)[0] == 0 and call(place, ("plan", "request.json"))[0] == 0
                running.send_signal(signal.SIGCONT)
                found = end(running)
                assert found == wanted, (first, found)
            for top in ("sites", "output"):
                shutil.rmtree(place / top, ignore_errors=True)
    return tried


def resumed_beside(place):
    """A run that failed isn't gone on with beside another one in the folder, and is once that one has ended."""
    write(place, [delivery("a")], [replica("a", "zeros")])
    resume = ("resume", "request.json", "record")
    failed, _ = begin(place, ALONE).communicate(timeout=120)
    (place / "record").write_text(failed)
    line = hole(place / "zeros")
    with stopped(place, ALONE, lambda: parts(place)) as running:
        before = files(place)
        for second in (resume, ("produce", "request.json")):
            assert call(place, second) == (6, ["failed host 0"]) and files(place) == before, second
        running.send_signal(signal.SIGCONT)
        assert end(running) == (0, [line, "done"])
    assert call(place, resume) == (0, [line, "done"])
    return 5


def begun_workflow(place):
    """Jobs that sort some lines each, and files of a megabyte that are delivered, so that an end comes in the middle of one."""
    lines = mixed(10_000)
    (place / "lines").write_bytes(lines)
    (place / "long").write_bytes(lines * 14)
    brought, given = [f"in{it}" for it in range(6)], [f"given{it}" for it in range(6)]
    jobs = [job("sorted", [], [name], [f"of_{name}"]) for name in brought] + [delivery(name) for name in given]
    write(place, jobs, [replica(it, "lines") for it in brought] + [replica(it, "long") for it in given], size=MEBIBYTE)


def is_whole(place, whole):
    """Whether each delivered file is what it has to be."""
    out = place / "output"
    return all(it.read_bytes() == whole[it.name] for it in out.iterdir()) if out.exists() else True


def killed_once(made, whole, words, after):
    """A run that is killed at a moment, and begun again: what the second said, and whether the first was ended."""
    with tempfile.TemporaryDirectory() as work:
        place = pathlib.Path(work, "at")
        shutil.copytree(made, place)
        running = begin(place, words)
        with contextlib.suppress(subprocess.TimeoutExpired):
            running.wait(after)
        running.kill()
        status, _ = end(running)
        assert status in (-signal.SIGKILL, 0) and is_whole(place, whole), (words, after, status)
        again, lines = call(place, words)
        assert (again == 0 and lines[-1] == "done") or (again, lines) == (6, ["failed scratch pool"]), (words, after, again, lines)
        assert is_whole(place, whole), (words, after)
        if again == 6:
            # What a user does then.
            shutil.rmtree(place / "sites")
            anew, lines = call(place, words)
            assert anew == 0 and lines[-1] == "done", (words, after, lines)
        assert files(place) == sorted(f"output/{name}" for name in whole) and is_whole(place, whole), (words, after, files(place))
        return status != 0, again


def killed(place):
    """Sixty runs are killed at moments of a seed, and begun again: the second is done, or says that the site is in use, and no
    delivered file is torn."""
    begun_workflow(place)
    times, rolls = {}, random.Random(60)
    ways = (ALONE, ("run", "request.json", "--workers", "4"), ("run", "request.json", "--workers", "16"))
    for words in ways:
        began = time.monotonic()
        assert call(place, words)[0] == 0
        times[words] = time.monotonic() - began
        whole = {it.name: it.read_bytes() for it in (place / "output").iterdir()}
        for top in ("output", "sites"):
            shutil.rmtree(place / top)
    plan = [(words, rolls.random() * times[words]) for words in ways for _ in range(20)]
    with concurrent.futures.ThreadPoolExecutor(2) as pool:
        found = list(pool.map(lambda it: killed_once(place, whole, *it), plan))
    # Most are ended before they are done, and of these some stood at a site.
    assert sum(is_ended for is_ended, _ in found) >= 20 and any(again == 6 for _, again in found), found
    return 2 * len(found)


def main():
    if not PROGRAM.exists():
        print("hostile-folder: skipped, no program is built")
        return
    subjects = (
        leaving, named_documents, links, forbidden, fills, no_names_left, folders_as_files, exchanged, streams, devices, growing,
        second_run, second_run_before_files, resumed_beside, killed,
    )
    count = 0
    for subject in subjects:
        with tempfile.TemporaryDirectory() as work:
            began = time.monotonic()
            count += subject(pathlib.Path(work))
            if "-v" in sys.argv:
                print(f"{subject.__name__}: {time.monotonic() - began:.1f} s", flush=True)
    print(f"hostile-folder: ok, {count} calls")


main()
