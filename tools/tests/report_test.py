"""Tests of tools/report: pages of plans and of runs by the model, and by the program where it is built, which are the same."""
import pathlib
import shutil
import subprocess
import sys
import xml.etree.ElementTree as tree

sys.dont_write_bytecode = True
sys.path.insert(0, "tools")
import together

work = pathlib.Path(sys.argv[1])
PROGRAM = pathlib.Path("crates/pegasus/out/pegasus").absolute()
MODEL = pathlib.Path("tools/model/__main__.py").absolute()
TOOLS = pathlib.Path("tools").absolute()
EXAMPLES = pathlib.Path("examples").absolute()
SVG = "{http://www.w3.org/2000/svg}"
DIGEST = "5262f5aa6a2519b3fd6ea80bf94571a32518ccab8dbcce33edb5b99a6070b20f"


def folder(name, program):
    place = work / name
    place.mkdir(parents=True)
    for link, target in (("examples", EXAMPLES), ("tools", TOOLS), ("pegasus", program)):
        (place / link).symlink_to(target)
    return place


def call(place, *words):
    return subprocess.run(words, cwd=place, capture_output=True, text=True, check=False)


models = folder("models", MODEL)
program = folder("program", PROGRAM) if PROGRAM.exists() else None


def page(*words):
    """The page, which stands alone and is one tree."""
    made = call(models, "tools/report", *words)
    assert made.returncode == 0 and not made.stderr, (words, made.stderr)
    for far in ("<script", "<link", "<img", "@import", "src=", "href="):
        assert far not in made.stdout, far
    assert made.stdout.count("url(") == made.stdout.count("url(#stripes)")
    assert made.stdout.replace("http://www.w3.org/2000/svg", "").count("://") == made.stdout.count("file://")
    if program is not None:
        assert call(program, "tools/report", *words).stdout == made.stdout, words
    return tree.fromstring(made.stdout)


def record(name, request):
    """Keeps what a run prints where both can read it."""
    text = call(models, "./pegasus", "alone", request).stdout
    for place in filter(None, (models, program)):
        (place / name).write_text(text, encoding="utf-8")
    return text.splitlines()


def texts(found):
    return ["".join(it.itertext()) for it in found.iter() if it.tag in ("td", "p", "h1", "h2", "figcaption")]


def rows(found, caption):
    """The cells of the table whose caption begins so."""
    table = next(it for it in found.iter("figure") if it.find("figcaption").text.startswith(caption))
    return [["".join(cell.itertext()) for cell in row] for row in table.iter("tr")]


def count(found, *names):
    return sum(set(names) <= set(part.get("class", "").split()) for part in found.iter())


plan = page("examples/report/request.json")
assert [it.text for it in plan.iter("h2")] == [
    "The plan", "Storage against bounds", "Statistics", "To be delivered", "Jobs that are not run", "Keys that are ignored"]
assert "Each key of the documents is acted on." in texts(page("examples/hello/request.json"))
assert rows(plan, "Keys")[1:] == [["workflow", "/jobs/0/nodeLabel", "1", "/jobs/0/nodeLabel"],
                                  ["workflow", "/x-pegasus", "1", "/x-pegasus"], ["sites", "/sites/0/arch", "1", "/sites/0/arch"]]

record("two.txt", "examples/two_sites/request.json")
two = page("examples/two_sites/request.json", "two.txt")
assert rows(two, "What was done")[1:] == [
    ["near", "7", "2", "1", "4", "8", "12", "0", "28", "30", "93.3 %"],
    ["far", "8", "2", "2", "4", "8", "12", "0", "18", "30", "60.0 %"], ["output", "1", "0", "1", "0", "8", "0", "0", "", "", ""]]
assert rows(two, "What each worker")[1:] == [["worker 0", "16", "4", "4", "8", "24", "24", "0"]]
assert rows(two, "What was requested")[1:] == [["f.d", "10", "8", DIGEST]]
assert "No attempt failed." in texts(two)
assert len(list(two.iter(SVG + "svg"))) + len(list(two.iter("svg"))) == 4 and count(two, "bar") == 8

failed = record("failed.txt", "examples/trouble/oversize.json")
broken = page("examples/trouble/oversize.json", "failed.txt")
assert rows(broken, "Attempts")[1:] == [["7", "0", "task 1: run findrange ID0000002", "oversize 1 3 65",
                                         "findrange ID0000002 made f.c1 with 65 bytes, and 10 are declared", "for good"]]
# The task that failed is marked in the picture of the plan too, with its cause in words, and what to do is told.
titles = [it.text for it in broken.iter(SVG + "title")]
assert "task 1: run findrange ID0000002, failed: findrange ID0000002 made f.c1 with 65 bytes, and 10 are declared" in titles, titles
assert count(broken, "marked") == 1 and count(two, "marked") == 0
assert any(": a greater size in the request" in it for it in texts(broken)), texts(broken)
assert rows(broken, "What was requested")[1:] == [["f.d", "10", "", "not told as delivered"]]
assert any(it.startswith(f"The call ended with {failed[-1]}. ") for it in texts(broken)) and count(broken, "failed") == 4
assert "The run is not complete: a task failed." in texts(broken) and not any("not complete" in it for it in texts(two))

# Attempts that were followed by another one; and what the policy allows, which most plans say nothing of.
record("again.txt", "examples/trouble/unreadable.json")
again = page("examples/trouble/unreadable.json", "again.txt")
assert rows(again, "Attempts")[1:] == [[entry, "0", "task 4: transfer f.a", "hostfailed", "a file couldn't be read, written or removed", ended] for entry, ended in (
    ("2", "tried again"), ("4", "tried again"), ("6", "for good"))]
assert "A task for which a store or a tool failed is tried again, 2 times at most." in texts(again)
assert not any("tried again" in it for it in texts(two)), texts(two)
fresh = page("examples/fresh/request.json", "examples/fresh/run.txt")
assert "Where no task may begin by the order, a new one may be made." in texts(fresh) and count(fresh, "bar") == 5

# An illegal record is shown up to its first entry that isn't allowed.
for place in filter(None, (models, program)):
    (place / "swapped.txt").write_text("record 1\ngrant 0 4\narrive 0 4 8\ngrant 1 99\nclosed\n", encoding="utf-8")
    (place / "cut.txt").write_text("record 1\ngrant 0 4\n", encoding="utf-8")
    (place / "part.txt").write_text("record 1\ngrant 0 4\narrive 0 4 8\nclosed\n", encoding="utf-8")
illegal = page("examples/diamond/request.json", "swapped.txt")
assert any("The record is illegal 3: 2 entries" in it for it in texts(illegal)) and count(illegal, "bar") == 1
assert any(it.startswith("What is shown of it ends before its first entry that isn't allowed: most likely it is the record of another "
                         "request") for it in texts(illegal))
assert "The run is not complete: it was broken off." in texts(page("examples/diamond/request.json", "part.txt"))

# Jobs that aren't run, each with the reason; and that nothing is requested.
reuse = page("examples/reuse/request.json")
assert rows(reuse, "Jobs that are not run")[1:] == [
    ["0", "ID0000001", "preprocess", "f.b1 and f.b2 are not requested, and no job that is run reads them"],
    ["1", "ID0000002", "findrange", "f.c1 is read by ID0000004, and registered at examples/reuse/f.c1"],
    ["2", "ID0000003", "findrange", "f.c2 is read by ID0000004, and registered at examples/reuse/f.c2"]], rows(reuse, "Jobs that")
assert "7 tasks of 4 jobs and 6 files, at 1 site, 3 jobs not run." in texts(reuse) and "Each job is run." in texts(two)
hello = pathlib.Path("examples/hello")
for place in filter(None, (models, program)):
    text = (hello / "workflow.json").read_text(encoding="utf-8")
    (place / "unwanted.json").write_text(text.replace('{"lfn": "b.txt", "type": "output"}', '{"lfn": "b.txt", "type": "output", "stageOut": false}'))
    (place / "nothing.json").write_text((hello / "request.json").read_text().replace("examples/hello/workflow.json", "unwanted.json"))
assert any(it.startswith("Nothing is requested: ") for it in texts(page("nothing.json"))) and not any("Nothing is" in it for it in texts(two))

# Of what the page is stands in its head, and the schedule where the request says how long jobs take, with the sites' names.
assert two.find("head/title").text == "diamond: a run of examples/two_sites/request.json"
opening = texts(two)[1]
assert opening.startswith("Request examples/two_sites/request.json, record two.txt by 1 worker; made on 20") and ", by the program of commit " in opening, opening
heft = page("examples/two_sites/heft.json")
assert "4 jobs by a list schedule, 57 seconds in all" in texts(heft), texts(heft)
assert "job 1 findrange ID0000002, far, from 12 to 32" in [it.text for it in heft.iter(SVG + "title")]
assert not any("list schedule" in it for it in texts(two))

# Each table as a file, which isn't written over another one.
tables = models / "tables"
for _ in range(2):
    made = call(models, "tools/report", "--tsv", "tables", "examples/trouble/oversize.json", "failed.txt")
    assert made.returncode == 0 and not made.stderr
assert sorted(it.name for it in tables.iterdir()) == [f"{it}.tsv" for it in (
    "delivered", "failed", "ignored", "kinds", "places", "planned", "workers")]
assert (tables / "failed.tsv").read_text() == (
    "entry\tworker\ttask\tcause\tin words\t\n7\t0\ttask 1: run findrange ID0000002\toversize 1 3 65\t"
    "findrange ID0000002 made f.c1 with 65 bytes, and 10 are declared\tfor good\n")
(tables / "failed.tsv").write_text("mine\n")
kept = call(models, "tools/report", "--tsv", "tables", "examples/trouble/oversize.json", "failed.txt")
assert kept.stdout == made.stdout and "kept tables/failed.tsv, " in kept.stderr and (tables / "failed.tsv").read_text() == "mine\n", kept.stderr

# Above 300 tasks those of one kind are one box.
for place in filter(None, (models, program)):
    assert call(place, "examples/montage/make", "38", "mine").returncode == 0
record("montage.txt", "mine/request.json")
large = page("mine/request.json", "montage.txt")
boxes = [it.text for it in large.iter(SVG + "text")]
for label in ("replicas × 38", "mProject × 38", "mDiffFit × 37", "mAdd_0000", "runs of mProject: 38, entries 4 to 189", "runs of mAdd: 1, entry 423"):
    assert label in boxes, (label, boxes)
assert ["runs of mBackground", "38", "3 078".replace(" ", "\u202f"), "38"] in [row[:4] for row in rows(large, "Each kind")]


def drawn_together(name_of, after_of, count=500):
    """The labels of the boxes of a plan by hand, of so many runs."""
    lines = ["plan 1", "workflow hand", "site 0 here 1000", *(f"file {at} f{at} 1" for at in range(count)),
             *(f"job {at} J{at} site 0" for at in range(count)),
             *(f"task {at} run 0 jobs {at} reads - writes {at} after {after_of(at)}" for at in range(count)),
             "order " + " ".join(map(str, range(count))), "peak 0 500", "closed"]
    plan = together.draw.read_plan("\n".join(lines))
    return [task.named() for task in together.groups_of(plan, [name_of(at) for at in range(count)]).tasks]


# A long chain has few columns, and of many kinds there is one box.
assert drawn_together(lambda at: "step", lambda at: at - 1 if at else "-") == ["step × 21"] * 23 + ["step × 17"]
assert drawn_together(lambda at: f"own{at}", lambda at: "-") == ["jobs × 500"]
assert len(drawn_together(lambda at: f"t{at % 200}", lambda at: "-")) == 200

for words in (["nowhere.json"], ["examples/diamond/tight.json"], ["examples/diamond/request.json", "nowhere.txt"],
              ["examples/diamond/request.json", "cut.txt"], ["--program", "./nothing", "examples/diamond/request.json"]):
    refused = call(models, "tools/report", *words)
    assert refused.returncode == 1 and not refused.stdout and "report: " in refused.stderr, (words, refused)
assert call(models, "tools/report").returncode == 2

# In a folder that has no program it is the one beside the tools.
shutil.copytree(TOOLS, work / "top/tools")
(work / "top/pegasus").symlink_to(MODEL)
(work / "user").mkdir()
(work / "user/examples").symlink_to(EXAMPLES)
made = call(work / "user", str(work / "top/tools/report"), "examples/hello/request.json")
assert made.returncode == 0 and f"{work / 'top/pegasus'} plan" in made.stdout, made

# The script of a checkout without a program isn't called, since it would build one.
(work / "top/crates/pegasus").mkdir(parents=True)
(work / "top/pegasus").unlink()
shutil.copy("pegasus", work / "top/pegasus")
for place, script in ((work / "user", str(work / "top/pegasus")), (work / "top", "./pegasus")):
    unbuilt = call(place, str(work / "top/tools/report"), "r.json")
    assert unbuilt.returncode == 1 and unbuilt.stderr == (
        f"report: the program isn't built yet: {script} check r.json builds it, and --program names another one\n"), unbuilt
print("report: ok" + (", by the program too" if program else ""))
