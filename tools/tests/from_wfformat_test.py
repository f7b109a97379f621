"""Tests of tools/from-wfformat: the example and small instances of the shapes of Montage, CyberShake and 1000Genome are
planned and run by the model, and instances with faults are refused."""
import json
import pathlib
import subprocess
import sys

sys.dont_write_bytecode = True
sys.path.insert(0, "tools")
from model import commands

work = pathlib.Path(sys.argv[1])
work.mkdir(parents=True, exist_ok=True)
EXAMPLE = "examples/wfformat/epigenomics.json"
# A task in a row: its name, what it reads, and what it makes.
MONTAGE = [
    ("mProject_1", "raw_1 region", "proj_1 area_1"), ("mProject_2", "raw_2 region", "proj_2 area_2"),
    ("mDiffFit_3", "proj_1 area_1 proj_2 area_2 region", "fit_1"), ("mConcatFit_4", "fit_1 tables", "fits"),
    ("mBgModel_5", "fits images", "model"), ("mBackground_6", "proj_1 area_1 model", "bg_1 bg_area_1"),
    ("mBackground_7", "proj_2 area_2 model", "bg_2 bg_area_2"), ("mImgtbl_8", "bg_1 bg_2", "table"),
    ("mAdd_9", "bg_1 bg_2 bg_area_1 bg_area_2 table region", "mosaic mosaic_area"), ("mViewer_10", "mosaic", "picture"),
]
CYBERSHAKE = [
    ("ExtractSGT_ID1", "strain_x strain_y variation_1", "sgt_x_1 sgt_y_1"),
    ("ExtractSGT_ID2", "strain_x strain_y variation_2", "sgt_x_2 sgt_y_2"),
    *((f"SeismogramSynthesis_ID{n}", f"sgt_x_{1 + n % 2} sgt_y_{1 + n % 2} rupture_{n}", f"seismogram_{n}") for n in range(3, 7)),
    *((f"PeakValCalcOkaya_ID{n + 4}", f"seismogram_{n}", f"peak_{n}") for n in range(3, 7)),
    ("ZipSeis_ID11", "seismogram_3 seismogram_4 seismogram_5 seismogram_6", "seismograms.zip"),
    ("ZipPSA_ID12", "peak_3 peak_4 peak_5 peak_6", "peaks.zip"),
]
GENOME = [
    *((f"individuals_ID{n}", "chr21.vcf columns.txt", f"chr21n-{n}.tar.gz") for n in (1, 2, 3)),
    ("individuals_merge_ID4", "chr21n-1.tar.gz chr21n-2.tar.gz chr21n-3.tar.gz", "chr21n.tar.gz"),
    ("sifting_ID5", "chr21.annotation.vcf", "sifted.SIFT.chr21.txt"),
    *((f"mutation_overlap_ID{n}", f"chr21n.tar.gz sifted.SIFT.chr21.txt {group} columns.txt", f"chr21-{group}.tar.gz")
      for n, group in ((6, "EUR"), (7, "AFR"))),
    *((f"frequency_ID{n}", f"chr21n.tar.gz sifted.SIFT.chr21.txt {group} columns.txt", f"chr21-{group}-freq.tar.gz")
      for n, group in ((8, "EUR"), (9, "AFR"))),
]


def turn(*words):
    return subprocess.run([sys.executable, "tools/from-wfformat", *words], capture_output=True, text=True, check=False)


def model(command, request):
    status, lines = commands.answer([command, str(request)], commands.world_of("."))
    assert status == 0, (request, lines)
    return lines


def instance(name, rows, size=4096):
    """An instance of rows, in which parents alone tell what comes after what."""
    makers = {file: task for task, _, made in rows for file in made.split()}
    files = dict.fromkeys(file for _, read, made in rows for file in (read + " " + made).split())
    tasks = [{"name": task, "id": task, "inputFiles": read.split(), "outputFiles": made.split(), "children": [],
              "parents": sorted({makers[file] for file in read.split() if makers.get(file, task) != task})} for task, read, made in rows]
    return {"name": name, "schemaVersion": "1.5", "workflow": {"specification": {
        "tasks": tasks, "files": [{"id": file, "sizeInBytes": size} for file in files]}}}


def written(name, found):
    path = work / f"{name}.json"
    path.write_text(json.dumps(found), encoding="utf-8")
    return str(path)


out = work / "epigenomics"
example = turn(EXAMPLE, str(out))
assert example.returncode == 0 and example.stdout.startswith("made up: "), example
request, workflow = (json.loads((out / f"{name}.json").read_text(encoding="utf-8")) for name in ("request", "workflow"))
source = json.loads(pathlib.Path(EXAMPLE).read_text(encoding="utf-8"))["workflow"]
sizes = {it["id"]: it["sizeInBytes"] for it in source["specification"]["files"]}
assert all(use["size"] == sizes[use["lfn"]] for job in workflow["jobs"] for use in job["uses"])
runtimes = {it["id"]: it["runtimeInSeconds"] for it in source["execution"]["tasks"]}
assert {job["id"]: float(job["profiles"]["pegasus"]["runtime"]) for job in workflow["jobs"]} == runtimes
# (204.75 seconds of map, the mean of its three tasks, are 205)
seconds = dict(fastqSplit=35, filterContams=2, sol2sanger=1, fastq2bfq=2, map=205, mapMerge=7, maqIndex=3, pileup=56)
assert request["runtimes"] == [{"transformation": name, "site": "pool", "seconds": it} for name, it in seconds.items()]
assert request["execute"] == [{"site": "pool", "bound": sum(sizes.values())}] and request["tools"]["fastqSplit"] == "deal"
wanted = [use["lfn"] for job in workflow["jobs"] for use in job["uses"] if use.get("stageOut")]
assert wanted == ["reads.pileup"]
assert model("alone", out / "request.json")[-1] == "done"

for name, rows, delivered in (("montage", MONTAGE, 2), ("cybershake", CYBERSHAKE, 2), ("genome", GENOME, 4)):
    folder = work / name
    done = turn("--site", "cluster", written(name, instance(name, rows)), str(folder))
    assert done.returncode == 0 and "enlarged" not in done.stdout, done
    ran = model("alone", folder / "request.json")
    assert ran[-1] == "done" and sum(line.startswith("delivered ") for line in ran) == delivered, ran
    assert sum(" run 0 " in line for line in model("plan", folder / "request.json")) == len(rows), name

# What Nextflow writes in parentheses is a sample, and no part of the transformation; elsewhere it is.
samples = instance("samples", [("CORE:FASTQC (S 1)", "a", "b"), ("CORE:FASTQC (S2)", "c", "d"), ("f(x) y", "b d", "e"), ("(z)", "e", "g")])
done = turn(written("samples", samples), str(work / "samples"))
assert [line for line in done.stdout.splitlines() if line.startswith("tool ")] == [
    "tool CORE:FASTQC digest", "tool f(x) y digest", "tool (z) digest"], done.stdout

# Sizes that are too small for what is made up, a runtime, a task without outputs, files twice, and one read and made.
small = instance("small", [("split_1", "a b a", "c d"), ("cut_2", "c", "e"), ("look_3", "e e", ""), ("turn_4", "f e", "f")], 12)
small["workflow"]["execution"] = {"tasks": [{"id": "cut_2", "runtimeInSeconds": 1e-3, "command": {"arguments": ["-n", 7]}}]}
done = turn("--bound", "500", written("small", small), str(work / "small"))
assert done.returncode == 0, done
told = done.stdout.splitlines()
assert "tool cut take" in told and "makes no file, so planning drops it: look_3" in told, told
assert sum(line.startswith("left out ") for line in told) == 3, told
jobs = json.loads((work / "small" / "workflow.json").read_text(encoding="utf-8"))["jobs"]
assert jobs[1]["profiles"] == {"pegasus": {"runtime": "0.001"}} and jobs[1]["arguments"] == ["0"]
request = json.loads((work / "small" / "request.json").read_text(encoding="utf-8"))
assert request["runtimes"] == [{"transformation": "cut", "site": "pool", "seconds": 1}]
assert model("alone", work / "small" / "request.json")[-1] == "done"
tight = turn(written("tight", instance("tight", [("deal_1", "a b c", "d e"), ("deal_2", "d e", "f g")], 12)), str(work / "tight"))
assert "enlarged d from 12 to 24 bytes, for what is made up" in tight.stdout, tight.stdout
assert model("alone", work / "tight" / "request.json")[-1] == "done"


def changed(change):
    found = instance("bad", GENOME)
    specification = found["workflow"]["specification"]
    change(found, specification["tasks"], specification["files"])
    return found


# The same instance as the earlier versions have it: files and runtimes in the tasks, which name each other by names or ids.
KEYS = {"1.4": ("tasks", "name", "sizeInBytes", "runtimeInSeconds"), "1.3": ("tasks", "name", "size", "runtime"),
        "1.2": ("jobs", "id", "size", "runtime")}


def earlier(version, found):
    key, naming, length, seconds = KEYS[version]
    specification, runs = found["workflow"]["specification"], {it["id"]: it for it in found["workflow"]["execution"]["tasks"]}
    sizes = {it["id"]: it["sizeInBytes"] for it in specification["files"]}
    short = {it["id"]: f"ID{place}" for place, it in enumerate(specification["tasks"])}
    tasks = []
    for it in specification["tasks"]:
        files = [{"link": link, naming: file, length: sizes[file]} for link in ("input", "output") for file in it[f"{link}Files"]]
        around = {side: [short[other] if version == "1.4" else other for other in it[side]] for side in ("parents", "children")}
        run = runs[it["id"]]
        tasks.append({"name": it["id"], "id": short[it["id"]], **({"category": it["name"]} if version == "1.4" else {}), "files": files, **around,
                      seconds: run["runtimeInSeconds"], "command": run.get("command", {})})
    return {"name": found["name"], "schemaVersion": version, "workflow": {key: tasks}}


def documents(folder):
    """What was written, under the folder's name."""
    return {it.name: it.read_text(encoding="utf-8").replace(str(folder), "FOLDER") for it in folder.iterdir() if it.is_file()}


whole = json.loads(pathlib.Path(EXAMPLE).read_text(encoding="utf-8"))
for version in KEYS:
    done = turn(written(f"earlier {version}", earlier(version, whole)), str(work / version))
    assert done.returncode == 0 and documents(work / version) == documents(out), (version, done)
for name, change, told in (
        ("link", lambda task: task["files"][0].update(link="both"), "/workflow/tasks/1/files/0/link: both, and input or output is wanted"),
        ("nameless", lambda task: task.pop("name"), "/workflow/tasks/1/name: is missing"),
        ("stranger", lambda task: task.update(parents=["nobody"]), "/workflow/tasks/1: no task nobody"),
        ("half", lambda task: task["files"][0].update(sizeInBytes=1.5), "/workflow/tasks/1/files/0/sizeInBytes: a whole number up to 1099511627776 is wanted"),
        ("list", lambda task: task.update(files={}), "/workflow/tasks/1/files: another kind of value is wanted")):
    torn = earlier("1.4", whole)
    change(torn["workflow"]["tasks"][1])
    refused = turn(written(name, torn), str(work / "nothing"))
    assert (refused.returncode, refused.stderr) == (1, f"from-wfformat: {told}\n"), (name, refused)

BAD = {
    "version": lambda found, tasks, files: found.update(schemaVersion="1.1"),
    "none": lambda found, tasks, files: found.pop("workflow"),
    "no_size": lambda found, tasks, files: files[0].pop("sizeInBytes"),
    "fraction": lambda found, tasks, files: files[0].update(sizeInBytes=1.5),
    "endless": lambda found, tasks, files: files[0].update(sizeInBytes=float("inf")),
    "nothing": lambda found, tasks, files: files[0].update(sizeInBytes=float("nan")),
    "surrogate": lambda found, tasks, files: tasks[0].update(name="\ud800"),
    "no_file": lambda found, tasks, files: files.pop(0),
    "id": lambda found, tasks, files: tasks[0].update(id=7),
    "twice": lambda found, tasks, files: tasks[0].update(id=tasks[1]["id"]),
    "parent": lambda found, tasks, files: tasks[0].update(parents=["nobody"]),
    "makers": lambda found, tasks, files: tasks[0].update(outputFiles=tasks[1]["outputFiles"]),
    "cycle": lambda found, tasks, files: tasks[0].update(inputFiles=["chr21-EUR.tar.gz"]),
    "waits": lambda found, tasks, files: tasks[0].update(parents=[tasks[3]["id"]]),
    "ran": lambda found, tasks, files: found["workflow"].update(execution={"tasks": [{"id": "nobody"}]}),
}
for name, change in BAD.items():
    refused = turn(written(name, changed(change)), str(work / "nothing"))
    assert refused.returncode == 1 and refused.stderr.startswith("from-wfformat: ") and not refused.stdout, (name, refused)
for words in ((str(work / "nowhere.json"),), ("--bound", "-1", EXAMPLE)):
    assert turn(*words, str(work / "nothing")).returncode in (1, 2), words
assert not (work / "nothing").exists()
print(f"from-wfformat: ok, {len(BAD)} refusals")
