"""Tests of tools/why: what it tells before a run and after one, by small workflows of each kind, whose records and files at sites
come from the second engine; and where the program is built, that what it says of folders is what the program meets."""
import contextlib
import json
import os
import pathlib
import shutil
import subprocess
import sys
import tempfile

sys.dont_write_bytecode = True
sys.path.insert(0, "tools")
import workflows
from model import commands
from model.store import file_name
from model.words import text_of
from workflows import delivery, job, replica

TOP = pathlib.Path.cwd()
PROGRAM = TOP / "crates/pegasus/out/pegasus"
DIGEST = "a948904f2f0f479b8f8197694b30184b0d2ed1c1cd2a1ec0fb85d299a192a447"


def why(place, *words):
    """The status and the lines; the last one is the verdict, and the status is its."""
    done = subprocess.run([sys.executable, TOP / "tools/why", *words], cwd=place, capture_output=True, text=True, check=False)
    assert not done.stderr, (words, done.stderr)
    lines = done.stdout.splitlines()
    if "--json" not in words:
        count = sum(line.startswith("in the way: ") for line in lines)
        wanted = "nothing in the way" if not count else f"{count} thing{'s' * (count != 1)} in the way"
        assert (done.returncode, lines[-1]) == (int(count > 0), wanted), (words, done.returncode, lines)
    return lines


def has(lines, *wanted):
    """Whether these lines stand there, each indented or not, in this order."""
    left = iter(line.strip() for line in lines)
    for it in wanted:
        assert it in left, (it, lines)


def write(place, jobs, replicas=(), **more):
    """A request in a new folder."""
    shutil.rmtree(place, ignore_errors=True)
    place.mkdir(parents=True)
    workflows.write(place, jobs, replicas, **more)


@contextlib.contextmanager
def inside(place):
    before = os.getcwd()
    os.chdir(place)
    try:
        yield
    finally:
        os.chdir(before)


def run(place, name="run.txt"):
    """A run by the second engine, its text in a file, and what it leaves at the sites in the folder."""
    with inside(place):
        world = commands.world_of(".")
        _, lines = commands.answer(["alone", "request.json"], world)
    for (site, file), data in world.store.scratch.items():
        path = place / "sites" / file_name(site) / file_name(file)
        path.parent.mkdir(parents=True, exist_ok=True)
        path.write_bytes(data)
    (place / name).write_text(text_of(lines))
    return lines[-1]


def edit(place, name="request.json", **more):
    found = json.loads((place / name).read_text())
    (place / name).write_text(json.dumps({**found, **more}))


# Before a run


def dropped(place):
    """Each job that isn't run, and why."""
    assert why(TOP, "examples/hello/request.json") == ["workflow hello: 2 jobs and 2 files; 2 jobs to run, in 5 tasks", "nothing in the way"]
    has(why(TOP, "examples/reuse/request.json"), "workflow diamond: 4 jobs and 6 files; 1 job to run, in 7 tasks",
        "not run: ID0000001 (preprocess): f.b1 and f.b2 are not requested, and no job that is run reads them",
        "not run: ID0000002 (findrange): f.c1 is read by ID0000004, and registered at examples/reuse/f.c1")
    jobs = [job("text", ["a"], [], ["x"]), job("count", [], ["x"], [])]
    jobs[0]["uses"][0]["stageOut"] = False
    write(place, jobs)
    has(why(place, "request.json"), "nothing is requested: no output is staged out, so no job is run, other than in Pegasus",
        "not run: j0 (text): x is not requested, and no job that is run reads it", "not run: j1 (count): it makes no file")
    write(place, [delivery("x")], [replica("x", "x")])
    (place / "x").write_text("x\n")
    has(why(place, "request.json"), "not run: j0 (text): x is requested, and registered at x")


def keys(place):
    """Keys that aren't acted on, in groups, and those that may be meant."""
    write(place, [{**job("text", [], [], [f"x{at}"]), "argument": ["a"], "metadata": {}} for at in range(5)])
    found = json.loads((place / "workflow.json").read_text())
    for it in found["jobs"]:
        del it["arguments"]
    (place / "workflow.json").write_text(json.dumps({**found, "dependencies": [], "x-pegasus": {}}))
    has(why(place, "request.json"), "not acted on: workflow /dependencies: jobDependencies?",
        "not acted on: workflow /jobs/*/argument 5 times, first /jobs/0/argument: arguments?",
        "not acted on: workflow /jobs/*/metadata 5 times, first /jobs/0/metadata", "not acted on: workflow /x-pegasus")
    has(why(TOP, "examples/trouble/misspelt.json"), "in the way: refused request unsupported /default_sise default_sise", "default_size?")
    found["job"] = found.pop("jobs")
    (place / "workflow.json").write_text(json.dumps(found))
    has(why(place, "request.json"), "in the way: refused workflow missing /jobs", "workflow.json has a key job there: jobs?")


def documents(place):
    """Documents that aren't there, aren't JSON or are other ones."""
    has(why(TOP / "examples/diamond", "request.json"), "in the way: no document examples/diamond/diamond.json",
        f"diamond.json is there: paths in a request are seen from the folder of the call, which is {TOP / 'examples/diamond'}")
    write(place, [])
    (place / "torn.json").write_text('{"workflow": "workflow.json"\n "execute": []}\n')
    has(why(place, "torn.json"), "in the way: refused request syntax", 'torn.json line 2, column 2: Expecting \',\' delimiter: "execute": []}')
    (place / "w.yml").write_text("pegasus: 5.0\n")
    lines = why(place, "w.yml")
    assert lines[0] == "in the way: refused request syntax" and "if it is YAML, tools/from-pegasus turns it into documents" in lines[1], lines
    has(why(place, "workflow.json"), "workflow.json is a workflow, and a request is wanted, which names it")
    has(why(TOP, "examples/ensemble/ensemble.json"), "examples/ensemble/ensemble.json is an ensemble: tools/join "
        "examples/ensemble/ensemble.json joint writes it as the request joint/request.json")


def planning(place):
    """Jobs without a site, files without a place or a size, unknown tools: all of them at once."""
    jobs = [job("sort", [], ["b"], ["x"]), job("sort", [], ["c"], ["y"]), job("text", [], [], ["z"], site="moon")]
    write(place, jobs, size=9)
    has(why(place, "request.json"), "in the way: refused transformation j0", "no execution site has sort", "wanted by j0 (sort) and j1 (sort)",
        "in the way: refused site j2 moon", "no execution site has text for a job that is pinned to moon", "sorted?")
    write(place, [job("join", [], ["b", "c"], ["x"])])
    has(why(place, "request.json"), "in the way: refused replica b", "neither made nor registered: b and c")
    write(place, [job("text", [], [], ["x", "y"])])
    edit(place, default_size=None)
    has(why(place, "request.json"), "in the way: refused size x", "without a size: x and y")
    write(place, [job("text", [], [], ["x"]), job("join", [], ["x"], ["y"])], size=9)
    edit(place, tools={"text": "texts", "join": "cat"})
    has(why(place, "request.json"), "in the way: the tool texts of text is none of the twelve tools: j0", "text?",
        "in the way: the tool cat of join is none of the twelve tools: j1")


def bounds(place):
    """The job of a task that doesn't fit, with its files, and a bound that is enough; below it there is no order."""
    has(why(TOP, "examples/diamond/tight.json"), "in the way: exceeds condorpool 0 30 29",
        "condorpool would hold 30 bytes with this task, and may hold 29",
        "task 0 runs ID0000001 (preprocess): it reads f.a (10) and makes f.b1 (10) and f.b2 (10)",
        "a bound of 30 for condorpool is enough, and no lesser one is")
    has(why(TOP, "examples/fresh/narrow.json"), "in the way: exceeds % 4 11 10", "task 4 moves t (5) to the output",
        "a bound of 11 for the output is enough, and no lesser one is")
    # Two sites, each of which has too little room: 9 bytes for a, 9 and 9 for b.
    write(place, [job("text", [], [], ["a"], site="one"), job("join", [], ["a"], ["b"], site="two")], sites=("one", "two"), bound=8, size=9)
    lines = why(place, "request.json")
    has(lines, "in the way: exceeds one 0 9 8", "a bound of 9 for one and 18 for two is enough, and no lesser one is")
    tree = json.loads("\n".join(why(place, "request.json", "--json")))
    assert tree["findings"][-1]["bounds"] == [{"site": "one", "bound": 9}, {"site": "two", "bound": 18}], tree
    edit(place, execute=[{"site": "one", "bound": 9}, {"site": "two", "bound": 18}])
    assert why(place, "request.json")[-1] == "nothing in the way"
    # No task needs more than 30 bytes, but the files of the first one wait for the others: with 39 bytes there is no order.
    jobs = [job("text", [], [], ["x", "y", "z"]), *(job("join", [], [it], [f"{it}{it}"]) for it in "xyz")]
    for use in jobs[0]["uses"]:
        use["stageOut"] = False
    write(place, jobs, bound=30, size=10, tools={"text": "deal"})
    has(why(place, "request.json"), "in the way: exceeds pool 1 40 30", "a bound of 40 for pool is enough, the least that was found by halves")
    edit(place, execute=[{"site": "pool", "bound": 39}])
    has(why(place, "request.json"), "in the way: exceeds pool 1 40 39")


def replicas(place):
    """All that is wrong with replicas, at once."""
    names = ("gone", "far", "long", "other", "folder", "right")
    entries = [replica(it, f"http://host/{it}" if it == "far" else f"file://{it}", DIGEST if it == "other" else None) for it in names]
    write(place, [job("join", [], [it], [f"of {it}"]) for it in names], entries, size=6)
    for name, text in (("long", "1234567"), ("other", "1234"), ("right", "1234")):
        (place / name).write_text(text)
    (place / "folder").mkdir()
    lines = why(place, "request.json")
    has(lines, "in the way: replica gone: gone: No such file or directory", "task 6 brings it, for j0 (join)",
        "in the way: replica far: http://host/far: a place with another scheme than file:// is never there",
        "in the way: replica long: long has 7 bytes, and 6 are declared",
        "in the way: replica other: other has the SHA-256 03ac674216f3e15c761ee1a5e255f067953623c8b388b4459e13f978d7c846f4, "
        f"and {DIGEST} is registered", "in the way: replica folder: folder is no file", "5 things in the way")
    found = json.loads("\n".join(why(place, "--json", "request.json")))
    lines = [it["line"] for it in found["findings"] if it["kind"] == "replica"]
    assert lines[0] == "failed absent gone file://gone" and lines[2] == "failed replica long 6 7" and lines[4].startswith("failed host "), lines
    assert found["verdict"] == "5 things in the way" and all(it["in_the_way"] for it in found["findings"][-5:]), found


def at_places(place):
    """Sites that aren't empty, what stands where a folder or a file is to stand, and names that no file can have: why says it, and
    the program meets it."""
    jobs = [job("text", ["a"], [], ["x"])]

    def left(name):
        (place / "sites" / "pool").mkdir(parents=True)
        (place / "sites" / "pool" / name).write_text("")

    for prepare, told in (
            (lambda: left("old"), "in the way: sites/pool isn't empty: old"),
            (lambda: (place / "sites").write_text(""), "in the way: sites is a file, where a folder is to stand"),
            (lambda: (place / "sites").symlink_to("."), "in the way: sites is something else than a file or a folder, where a folder is to stand"),
            (lambda: ((place / "sites").mkdir(), (place / "sites/pool").write_text("")), "in the way: sites/pool is a file, where a folder is to stand"),
            (lambda: (place / "output").write_text(""), "in the way: output is a file, where a folder is to stand"),
            (lambda: (place / "output/x").mkdir(parents=True), "in the way: output/x is a folder, where a file is to be delivered"),
            (lambda: (place / ".pegasus.part.1").mkdir(), "in the way: .pegasus.part.1 is a folder, where a file is to be written before it gets its name"),
            (lambda: workflows.write(place, [job("text", ["a"], [], ["n" * 256])]), f"in the way: no file can be called {'n' * 58}..: 256 bytes, and 255 are the most"),
            (lambda: workflows.write(place, jobs, sites=("%" * 86,)), f"in the way: no folder of a site can be called {'%' * 58}..: 258 bytes, and 255 are the most"),
            (lambda: (place / "sites/pool").mkdir(parents=True), None), (lambda: (place / "sites/desk").mkdir(parents=True), None),
            (lambda: workflows.write(place, [job("text", ["a"], [], ["n" * 255])]), None)):
        write(place, jobs)
        prepare()
        lines = why(place, "request.json")
        assert lines[1:-1:2] == ([told] if told else []) or lines[1:-1] == [told], (told, lines)
        if PROGRAM.exists():
            ended = subprocess.run([PROGRAM, "alone", "request.json"], cwd=place, capture_output=True, text=True, check=False)
            assert (ended.returncode == 6) == bool(told), (told, ended.stdout)
    shutil.rmtree(place)


# After a run


def after(place):
    """Of each failure the task, its inputs, its cause as it is now, and how to go on."""
    write(place, [job("text", ["12", "apples"], [], ["b"]), job("total", [], ["b"], ["t"])])
    assert run(place) == "failed declined j1"
    lines = why(place, "request.json", "run.txt")
    has(lines, "2 of 6 tasks ended, and 1 file was delivered; the record is legal", "in the way: failed declined j1",
        "entry 6, fail 0 1 declined 1: task 1, by worker 0", "job j1 (total), by the tool total, without arguments",
        "reads b: sites/pool/b, 10 bytes: 12 apples", "total declines line 1: 12 apples",
        "to go on once that is mended: ./pegasus resume request.json run.txt")
    edit(place, tools={"total": "count"})
    has(why(place, "request.json", "run.txt"), "failed declined j1", "it makes something of them now", "to go on: ./pegasus resume request.json run.txt")
    (place / "sites/pool/b").write_text("12 pears and more\n")
    has(why(place, "request.json", "run.txt"), "in the way: failed length pool b 10 18", "by the record it has 10 bytes, and sites/pool/b has 18 bytes")
    shutil.rmtree(place / "sites")
    has(why(place, "request.json", "run.txt"), "in the way: failed pair pool b", "by the record it has 10 bytes, and sites/pool/b isn't there")


def declined(place):
    """What a tool makes nothing of."""
    base = [replica("b", "b")]
    for wanted, tool, words, inputs, outputs in (
            ("take needs an argument, and the job has none", "take", [], ["b"], ["x"]),
            ("take needs another first argument than x", "take", ["x"], ["b"], ["x"]),
            ("text takes no input, and the job has 1", "text", [], ["b"], ["x"]),
            ("join has one output, and the job has 2", "join", [], ["b"], ["x", "y"]),
            ("total declines line 2: 3 x", "total", [], ["b"], ["x"])):
        write(place, [job(tool, words, inputs, outputs)], base)
        (place / "b").write_text("1\n3 x\n")
        assert run(place) == "failed declined j0"
        has(why(place, "request.json", "run.txt"), "in the way: failed declined j0", wanted)
    # The second job of a cluster reads what the first one makes, which stands nowhere.
    write(place, [job("text", ["7", "up"], [], ["b"]), job("total", [], ["b"], ["x"])])
    found = json.loads((place / "workflow.json").read_text())
    for it in found["jobs"]:
        it["profiles"] = {"pegasus": {"label": "one"}}
    (place / "workflow.json").write_text(json.dumps(found))
    edit(place, cluster="label")
    assert run(place) == "failed declined j1"
    has(why(place, "request.json", "run.txt"), "job j1 (total), by the tool total, without arguments", "total declines line 1: 7 up")


def sizes(place):
    """A file that is too long, what a greater size asks for, and the record under it."""
    write(place, [job("text", ["a"], [], ["a"]), job("digest", [], ["a"], ["d"])], size=10, bound=20)
    assert run(place) == "failed oversize j1 d 10 65"
    cut = ["sed '/^fail /d' run.txt > cut.txt", "./pegasus resume request.json cut.txt"]
    lines = why(place, "request.json", "run.txt")
    has(lines, "in the way: failed oversize j1 d 10 65", "makes d with 65 bytes, and 10 are declared, by default_size of the request",
        'a size that is enough: "sizes": {"d": 65} in the request', "its plan doesn't keep the bounds as they are: a bound of 75 for pool is "
        "enough, and no lesser one is", "by that plan the record is allowed, without its lines of failures",
        f"to go on once that is mended: {'; '.join(cut)}")
    edit(place, sizes={"d": 65}, execute=[{"site": "pool", "bound": 75}])
    has(why(place, "request.json", "run.txt"), "illegal record 6", "the documents have changed since it failed; without its lines of failures it is allowed",
        f"to go on: {'; '.join(cut)}", "nothing in the way")
    write(place, [job("join", [], ["b"], ["x"])], [replica("b", "b")], size=3)
    (place / "b").write_text("1234\n")
    assert run(place) == "failed replica b 3 5"
    has(why(place, "request.json", "run.txt"), "replica b: b has 5 bytes, and 3 are declared", "to go on once that is mended: " + "; ".join(cut))


def others(place):
    """A replica that is there again, a disk's failure, texts that are no record, and records of another request."""
    write(place, [job("join", [], ["b", "c"], ["x"])], [replica("b", "b"), replica("c", "c")], size=1000)
    assert run(place) == "failed absent b b"
    lines = why(place, "request.json", "run.txt")
    has(lines, "in the way: failed absent b b", "replica b: b: No such file or directory", "in the way: replica c: c: No such file or directory")
    for name in "bc":
        (place / name).write_text("1\n")
    has(why(place, "request.json", "run.txt"), "failed absent b b", "the replica is as it should be now", "to go on: ./pegasus resume request.json run.txt")
    (place / "b").unlink()
    (place / "b").mkdir()
    assert run(place) == "failed host 1"
    has(why(place, "request.json", "run.txt"), "in the way: failed host 1", "reads b: b: Is a directory", "writes b: sites/pool/b: nothing is wrong with it now")
    # What couldn't be read is a file now, but a longer one; and then as it should be.
    (place / "b").rmdir()
    (place / "b").write_bytes(bytes(1001))
    has(why(place, "request.json", "run.txt"), "in the way: failed host 1", "replica b: b has 1001 bytes, and 1000 are declared",
        "to go on once that is mended: ./pegasus resume request.json run.txt")
    (place / "b").write_text("1\n")
    has(why(place, "request.json", "run.txt"), "failed host 1", "to go on: ./pegasus resume request.json run.txt", "nothing in the way")
    for text, told in (("refused size x\n", "the call ended before a run: refused size x"),
                       ("record 1\ngrant 0 1\n", "in the way: bad record 3"), ("no text\n", "in the way: bad record 1"),
                       ("record 1\nclosed\nfailed scratch pool\n", "the call ended with failed scratch pool, and nothing was done"),
                       ("record 1\nclean 0 3\nclosed\n", "in the way: illegal record 1")):
        (place / "run.txt").write_text(text)
        has(why(place, "request.json", "run.txt"), told)
    has(why(place, "request.json", "run.txt"), "most likely it is the record of another request, or the documents have changed")
    write(place, [job("text", ["a"], [], ["x"])])
    assert run(place) == "done"
    has(why(place, "request.json", "run.txt"), "3 of 3 tasks ended, and 1 file was delivered; the record is complete")


def main():
    with tempfile.TemporaryDirectory() as work:
        looks = (dropped, keys, documents, planning, bounds, replicas, at_places, after, declined, sizes, others)
        for look in looks:
            look(pathlib.Path(work, look.__name__))
    missing = subprocess.run([sys.executable, "tools/why", "examples/hello/request.json", "nowhere.txt"], capture_output=True, text=True, check=False)
    assert missing.returncode == 2 and missing.stderr == "why: nowhere.txt: No such file or directory\n", missing
    print(f"why: ok, {len(looks)} looks" + (", by the program too" if PROGRAM.exists() else ""))


main()
