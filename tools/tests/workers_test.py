"""Runs by several workers of the program that the gate built, on a disk: what each delivers, and each record judged by
tools/model over its own plan."""
import concurrent.futures
import dataclasses
import json
import os
import pathlib
import shutil
import subprocess
import sys
import tempfile

sys.dont_write_bytecode = True
sys.path.insert(0, "tools")
import calls_failing_by_chance
import workflows
from model.judge import verdict
from model.plan import plan_of, read_plan
from model.survey import in_folder

RETRIES = 3
PROGRAM = pathlib.Path("crates/pegasus/out/pegasus").absolute()
MAKE = pathlib.Path("examples/montage/make").absolute()


def write(place, jobs, bound):
    """A workflow of jobs, each with its tool, arguments, inputs and output, at one site with a bound."""
    tools = [{"name": name, "sites": [{"name": "pool", "pfn": name, "type": "installed"}]} for name in ("text", "join", "total")]
    listed = []
    for number, (tool, arguments, inputs) in enumerate(jobs):
        uses = [{"lfn": f"f{it}", "type": "input"} for it in inputs] + [{"lfn": f"f{number}", "type": "output"}]
        listed.append({"type": "job", "id": f"j{number}", "name": tool, "arguments": arguments, "uses": uses})
    workflow = {
        "pegasus": "5.0",
        "name": "w",
        "siteCatalog": {"sites": [{"name": "pool"}]},
        "replicaCatalog": {"replicas": []},
        "transformationCatalog": {"transformations": tools},
        "jobs": listed,
    }
    request = {"workflow": "workflow.json", "execute": [{"site": "pool", "bound": bound}], "default_size": 10}
    (place / "workflow.json").write_text(json.dumps(workflow))
    (place / "request.json").write_text(json.dumps(request))


def apart(place):
    """Two hundred jobs, none after another, of which the site holds four files at a time."""
    write(place, [("text", [f"word {number}"], []) for number in range(200)], 40)


def chain(place):
    write(place, [("text", ["word"], [])] + [("join", [], [number]) for number in range(19)], 1000)


def few(place):
    write(place, [("text", [f"word {number}"], []) for number in range(3)], 1000)


def declined(place):
    """Forty jobs, one of which has no numbers to add."""
    write(place, [("text", ["word"], [])] + [("text", ["12"], [])] * 38 + [("total", [], [0])], 1000)


def mosaic(place, images=12):
    subprocess.run([sys.executable, MAKE, str(images), "."], cwd=place, check=True, stdout=subprocess.DEVNULL)


def moving(place, bound):
    """A job that sorts half a million lines, and sixty-four files of four megabytes, each of which is brought for a job of
    its own. By the declared sizes the lines come first."""
    lines = b"".join(b"%06d\n" % (number * 7919 % 999983) for number in range(500_000))
    (place / "lines").write_bytes(lines)
    (place / "piece").write_bytes(lines + bytes(4 * 2**20 - len(lines)))
    names = [f"piece{number}" for number in range(64)]
    jobs = [workflows.job("sorted", [], ["lines"], ["f"])]
    jobs += [workflows.job("digest", [], [name], [f"digest_of_{name}"]) for name in names]
    replicas = [workflows.replica("lines", "lines")] + [workflows.replica(name, "piece") for name in names]
    sizes = {"lines": len(lines), "f": len(lines), **{f"digest_of_{name}": 100 for name in names}}
    workflows.write(place, jobs, replicas, bound=bound, size=4 * 2**20, sizes=sizes)


def wide(place):
    moving(place, 2**40)


def narrow(place):
    """The same where the site holds the lines, what is made of them and seven of the files."""
    moving(place, 36 * 2**20)


def beside(record):
    """How many files arrived while the first job ran."""
    lines = [line.split(" ") for line in record.splitlines()]
    begun = next(k for k, it in enumerate(lines) if it[0] == "grant" and it[2] == "0")
    ended = next(k for k, it in enumerate(lines) if it[0] == "end" and it[2] == "0")
    return sum(it[0] == "arrive" for it in lines[begun:ended])


def called(place, words, surroundings=None):
    """Status and text of a call, in a folder of its own with the same documents; what stands in `output` after it, and what
    else it left: files of sites, and drafts."""
    with tempfile.TemporaryDirectory() as own:
        at = pathlib.Path(own, "at")
        shutil.copytree(place, at)
        done = subprocess.run([PROGRAM, *words], cwd=at, capture_output=True, text=True, timeout=300, env=surroundings)
        out = at / "output"
        files = {it.name: it.read_bytes() for it in out.iterdir()} if out.exists() else {}
        left = sorted(str(it) for it in (at / "sites").rglob("*") if it.is_file())
        left += sorted(str(it) for it in at.glob(".pegasus.part.*"))
    return done.returncode, done.stdout, files, left


def arrived(place, plan, workers, alone):
    """How many files arrived while the first job of a run by so many workers ran, where the run left a complete record and
    delivered what a run by one does; else nothing."""
    status, text, files, left = called(place, ["run", "request.json", "--workers", str(workers)])
    record, rest = text.split("closed\n", 1)
    is_complete = verdict(plan, record + "closed\n", workers) == "complete"
    is_right = status == 0 and is_complete and (rest, files, left) == alone
    return beside(record) if is_right else None


def holds(make, counts, least=0):
    """Runs by so many workers each, in all of which together so many files at least arrive while the first job runs."""
    with tempfile.TemporaryDirectory() as work:
        place = pathlib.Path(work)
        make(place)
        plan = plan_of(in_folder(place, "request.json"))
        status, text, files, left = called(place, ["alone", "request.json"])
        assert status == 0 and files and not left, (make.__name__, status, text[-200:])
        alone = text.split("closed\n", 1)[1], files, left
        with concurrent.futures.ThreadPoolExecutor(os.cpu_count()) as pool:
            found = list(pool.map(lambda workers: arrived(place, plan, workers, alone), counts))
        assert None not in found, (make.__name__, [it for it, count in zip(counts, found) if count is None])
        assert sum(found) >= least, (make.__name__, found)
    return len(counts)


def stops():
    """A job that declines ends the run: its Fail stands in the record, and nothing was begun after it."""
    with tempfile.TemporaryDirectory() as work:
        place = pathlib.Path(work)
        declined(place)
        plan = plan_of(in_folder(place, "request.json"))
        status, text, files, _ = called(place, ["run", "request.json", "--workers", "8"])
        record, rest = text.split("closed\n", 1)
        assert status == 6 and rest.splitlines()[-1] == "failed declined j39", (status, rest)
        assert verdict(plan, record + "closed\n", 8) == "legal" and record.count("\nfail ") == 1, record
        told = {line.split(" ")[1] for line in rest.splitlines()[:-1]}
        assert set(files) == told, (files, rest)
    return 1


@dataclasses.dataclass
class Trial:
    """A run in which calls of the store failed: so many, what it printed and left, and how its entries of them begin."""

    failed: int
    status: int
    record: str
    rest: str
    files: dict
    left: list

    def entries(self, kind):
        return [line for line in self.record.splitlines() if line.startswith(kind + " ")]


class Trials:
    """Runs of a mosaic in which calls of the store fail."""

    def __init__(self, work, images):
        self.work, self.place = work, work / f"mosaic{images}"
        self.place.mkdir()
        mosaic(self.place, images)
        self.library = calls_failing_by_chance.made_in(work)
        request = json.loads((self.place / "request.json").read_text())
        (self.place / "retried.json").write_text(json.dumps({**request, "retries": RETRIES}))
        status, text, files, left = called(self.place, ["alone", "request.json"])
        assert status == 0 and not left, text[-200:]
        self.rest, self.files = text.split("closed\n", 1)[1], files

    def run(self, number, words, **failing):
        log = self.work / f"{self.place.name}.{number}.log"
        around = calls_failing_by_chance.surroundings(self.library, log, **failing)
        status, text, files, left = called(self.place, words, around)
        assert "closed\n" in text, (words, status, text)
        record, rest = text.split("closed\n", 1)
        failed = len(log.read_text().splitlines()) if log.exists() else 0
        return Trial(failed, status, record + "closed\n", rest, files, left)

    def is_whole(self, trial):
        """Whether it delivered what a run without failures does, and left nothing."""
        return (trial.status, trial.rest, trial.files, trial.left) == (0, self.rest, self.files, [])

    def plan(self, request):
        """The plan by the text of the program: tools/model is compared with it elsewhere."""
        status, text, _, _ = called(self.place, ["plan", request])
        assert status == 0, text
        return read_plan(text)


def large_mosaic(work):
    """Sixteen workers, and each fiftieth call that opens a replica, publishes or removes a file fails. As no file does twice,
    each task ends within its retries."""
    trials = Trials(work, 249)
    kinds = ("replica", "publication", "removal")
    trial = trials.run(0, ["run", "retried.json", "--workers", "16"], kinds=kinds, every=50, is_once=True)
    again = trial.entries("again")
    assert trials.is_whole(trial), (trial.status, trial.rest, trial.left)
    assert len(again) == trial.failed >= 40 and not trial.entries("fail"), (len(again), trial.failed)
    assert trial.record.startswith("record 2\n") and all(line.split(" ")[3] == "hostfailed" for line in again), again
    assert verdict(trials.plan("retried.json"), trial.record, 16) == "complete"
    (trials.place / "run.txt").write_text(trial.record)
    assert called(trials.place, ["audit", "retried.json", "run.txt"])[:2] == (0, "verdict complete\ndone\n")
    return 1


def tried(trials, plans, seed):
    """Of runs in which each call of the store fails by chance: whether one by four workers was done after all."""
    by_many = ["run", "retried.json", "--workers", "4"]
    retried = trials.run(f"{seed}.retried", by_many, kinds=calls_failing_by_chance.ALL, every=50, seed=seed)
    many = trials.run(f"{seed}.many", ["run", "request.json", "--workers", "4"], kinds=calls_failing_by_chance.ALL, every=50, seed=seed)
    alone = trials.run(f"{seed}.alone", ["alone", "request.json"], kinds=calls_failing_by_chance.ALL, every=50, seed=seed)
    for trial, request in ((retried, "retried.json"), (many, "request.json"), (alone, "request.json")):
        told = trial.entries("again") + trial.entries("fail")
        assert len(told) == trial.failed and all(line.split(" ")[3] == "hostfailed" for line in told), (seed, request, told)
        assert (trial.status == 0) == (not trial.entries("fail")), (seed, request, trial.status, trial.record)
        if trial.status == 0:
            assert trials.is_whole(trial), (seed, request, trial.rest, trial.left)
        else:
            task = trial.entries("fail")[0].split(" ")[2]
            assert trial.status == 6 and trial.rest.splitlines()[-1] == f"failed host {task}", (seed, request, trial.rest)
        wanted = "legal" if trial.status else "complete"
        assert verdict(plans[request], trial.record, 16) == wanted, (seed, request, trial.record)
    # Where nothing is tried again, the first failure is the end: of a run by one worker the last entry.
    assert not many.entries("again") and not alone.entries("again"), seed
    is_last = alone.status == 0 or alone.record.splitlines()[-2] == alone.entries("fail")[0]
    assert alone.failed <= 1 and is_last, (seed, alone.failed, alone.record)
    return retried.status == 0, len(retried.entries("again"))


def seeds(work, count):
    """So many seeds of failures. Most of the runs are done, and so many attempts failed in all that it means something."""
    trials = Trials(work, 4)
    plans = {request: trials.plan(request) for request in ("request.json", "retried.json")}
    with concurrent.futures.ThreadPoolExecutor(os.cpu_count()) as pool:
        found = list(pool.map(lambda seed: tried(trials, plans, seed), range(1, count + 1)))
    done, again = sum(is_done for is_done, _ in found), sum(attempts for _, attempts in found)
    assert done >= count // 2 and again >= count, (done, again)
    return 3 * count


def failures():
    """Runs of the mosaic whose store fails now and then, where there is a compiler to make it fail."""
    if not calls_failing_by_chance.can_be_made():
        print("workers: skipped, runs in which calls fail, for want of a C compiler")
        return 0
    with tempfile.TemporaryDirectory() as work:
        return large_mosaic(pathlib.Path(work)) + seeds(pathlib.Path(work), 100)


if not PROGRAM.exists():
    print("workers: skipped, no program is built")
    sys.exit()
runs = holds(apart, [16]) + holds(chain, [4]) + holds(few, [16] * 300) + holds(mosaic, [1, 2, 4, 16]) + stops()
runs += holds(wide, [16] * 6, 12) + holds(narrow, [16] * 6, 6) + failures()
print(f"workers: ok, {runs} runs")
