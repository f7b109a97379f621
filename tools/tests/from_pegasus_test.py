"""Tests of tools/from-pegasus: the example, texts that YAML would read as something else, and what the program refuses, told
with its place or taken out."""
import json
import pathlib
import shutil
import subprocess
import sys

sys.dont_write_bytecode = True
sys.path.insert(0, "tools")
import beside
from model import commands

work = pathlib.Path(sys.argv[1])


def turn(*words):
    return subprocess.run([sys.executable, "tools/from-pegasus", *words], capture_output=True, text=True, check=False)


def read(folder, name):
    return json.loads((folder / f"{name}.json").read_text(encoding="utf-8"))


out = work / "diamond"
example = turn(
    "--sites", "examples/pegasus/sites.yml", "--replicas", "examples/pegasus/replicas.yml",
    "--transformations", "examples/pegasus/transformations.yml", "--bound", "4096", "--size", "1024",
    "--tool", "preprocess=deal", "examples/pegasus/workflow.yml", str(out),
)
assert example.returncode == 0, example.stderr
lines = example.stdout.splitlines()
assert "not acted on workflow /jobs/0/stdin" in lines and "not acted on sites /sites/1/profiles" in lines
assert not any("arguments" in line or "clusters" in line for line in lines)
workflow = read(out, "workflow")
assert workflow["pegasus"] == "5.0.4" and len(workflow["jobs"]) == 4 and "x-pegasus" in workflow
assert workflow["jobs"][0]["arguments"][-1] == "60"
assert workflow["jobs"][0]["uses"][1] == {"lfn": "f.b1", "type": "output", "stageOut": False, "registerReplica": False}
request = read(out, "request")
assert request["execute"] == [{"site": "condorpool", "bound": 4096}] and request["default_size"] == 1024
assert request["tools"] == {"preprocess": "deal"} and request["replicas"] == str(out / "replicas.json")

plain = work / "plain.yml"
plain.write_text(
    "pegasus: 5.0\nname: 007\nsiteCatalog: {sites: [{name: local}]}\ntransformationCatalog: {transformations: [{name: yes, version: 4.0, "
    "sites: [{name: local, pfn: yes, type: installed}]}]}\njobs:\n- {type: job, id: 1, name: yes, version: 4.0, arguments: [010, on, 2026-01-02],\n"
    "   uses: [{lfn: 1.50, type: output, stageOut: no, size: 12, color/x: red}]}\n",
    encoding="utf-8",
)
TOOLS = ("the tools are text, join, take, drop, deal, sorted, distinct, count, holds, column, total, digest; "
         "--tools made-up chooses some")
assert turn(str(plain), str(work / "plain")).stdout.splitlines() == [
    "no tool yes:4.0: name one with --tool yes:4.0=TOOL, or in the request's tools", TOOLS,
    "nothing is requested: no output has stageOut true, so no job will run, other than in Pegasus",
    "not acted on workflow /jobs/0/uses/0/color~1x", f"written {work / 'plain' / 'request.json'}"]
job = read(work / "plain", "workflow")["jobs"][0]
assert (job["id"], job["name"], job["version"], job["arguments"]) == ("1", "yes", "4.0", ["010", "on", "2026-01-02"])
assert job["uses"][0]["lfn"] == "1.50" and job["uses"][0]["stageOut"] is False and job["uses"][0]["size"] == 12

(work / "list.yml").write_text("- a\n", encoding="utf-8")
(work / "torn.yml").write_text("a: [\n", encoding="utf-8")
for name in ("list.yml", "torn.yml", "none.yml"):
    refused = turn(str(work / name), str(work / "nothing"))
    assert refused.returncode == 1 and refused.stderr.startswith("from-pegasus: "), name

# All that the program refuses, with profiles in every place, grids, and inlined catalogues.
FULL = """
x-pegasus: {apiLang: python}
pegasus: 5.0.4
name: full
hooks: {shell: [{_on: end, cmd: /bin/date}]}
profiles: {env: {A: 1}, pegasus: {style: condor}}
siteCatalog:
  sites:
  - {name: local, directories: []}
  - name: condorpool
    grids: [{type: batch, contact: pool, scheduler: slurm, jobtype: compute}]
    directories: [{type: sharedScratch, path: /work, fileServers: [{operation: all, url: 'file:///work'}]}]
    profiles: {env: {PATH: /bin}, condor: {universe: vanilla}}
replicaCatalog:
  replicas:
  - {lfn: f.a, pfns: [{site: local, pfn: examples/diamond/f.a}], checksum: {sha256: SHA}}
  - {lfn: 'f.*', pfns: [{site: local, pfn: /data/}], checksum: {sha256: 991234}, regex: true}
  - {lfn: other, pfns: [{site: local, pfn: /data/other}], checksum: {sha256: 991234}, metadata: {owner: astronomer}}
transformationCatalog:
  transformations:
  - namespace: diamond
    name: make
    version: 4.0
    requires: ['diamond::lib:1.0']
    profiles: {pegasus: {clusters.size: 3}, globus: {maxwalltime: 2}}
    sites:
    - {name: condorpool, pfn: /usr/bin/make, type: installed, container: box, profiles: {env: {B: 2}}}
    - {name: condorpool, pfn: /usr/bin/make, type: static_binary, container: box}
  - {name: make, sites: [{name: condorpool, pfn: /bin/make, type: stageable, bypass: true}]}
  containers:
  - {name: box, type: singularity, image: 'library://box', mounts: ['/a:/b:ro'], profiles: {env: {C: 3}}}
jobs:
- {type: job, id: one, namespace: diamond, name: make, version: 4.0, uses: [{lfn: f.a, type: input},
   {lfn: saved, type: checkpoint, stageOut: true}, {lfn: part, type: output}], profiles: {pegasus: {runtime: 3}, dagman: {retry: 2}}}
- {type: pegasusWorkflow, id: sub, file: sub.yml, arguments: ['--sites', condorpool], uses: [{lfn: sub.yml, type: input},
   {lfn: inner, type: output}]}
- {type: job, id: two, name: make, uses: [{lfn: part, type: input}, {lfn: both, type: inout}, {lfn: inner, type: input},
   {lfn: whole, type: output}]}
jobDependencies:
- {id: one, children: [sub]}
- {id: sub, children: [two]}
""".replace("SHA", "aaa25abfbb97e1f9ed2074418d888dd216b4373ffdb5eb68a892edded2299b05")
REFUSED = {
    "subworkflows": ["/jobs/1"], "checkpoints": ["/jobs/0/uses/1"], "uses": ["/jobs/2/uses/1"],
    "patterns": ["/replicaCatalog/replicas/1"], "checksums": [f"/replicaCatalog/replicas/{at}/checksum" for at in (1, 2)], "requires": ["/transformationCatalog/transformations/0/requires"],
    "types": ["/transformationCatalog/transformations/0/sites/1"],
    "containers": ["/transformationCatalog/containers", *(
        f"/transformationCatalog/transformations/0/sites/{at}/container" for at in (0, 1))],
}
(work / "full.yml").write_text(FULL, encoding="utf-8")
refused = turn(str(work / "full.yml"), str(work / "nothing"))
assert refused.returncode == 4 and not refused.stdout, refused
told = refused.stderr.splitlines()
for kind, paths in REFUSED.items():
    found = [line for line in told if line.endswith(f"; --drop {kind} takes it out")]
    assert [line.split(" ")[3] for line in found] == sorted(paths), (kind, found)
assert told[-1].startswith("from-pegasus: nothing was written; all is taken out by --drop ") and len(told) == 1 + sum(map(len, REFUSED.values())), told
advised = told[-1].split(" by ")[1].split(" ")
assert sorted(advised) == sorted(word for kind in REFUSED for word in ("--drop", kind)), told
some = turn("--drop", "containers", "--drop", "uses", str(work / "full.yml"), str(work / "nothing"))
told = some.stderr.splitlines()
assert some.returncode == 4 and not any("container" in line for line in told[:-1]) and "checkpoint" in told[0], some.stderr
assert " by --drop containers --drop uses --drop " in told[-1] and told[-1].count("--drop ") == len(REFUSED), told

drops = advised
tools = ["--tool", "diamond::make:4.0=sorted", "--tool", "make=join"]
done = turn(*drops, *tools, str(work / "full.yml"), str(work / "full"))
assert done.returncode == 0, done.stderr
lines = done.stdout.splitlines()
assert sorted(line.split(" ")[2] for line in lines if line.startswith("dropped ")) == sorted(sum(REFUSED.values(), []))
for line in ("made by no job any more workflow /jobs/1/uses/1 inner", "not acted on workflow /siteCatalog/sites/1/grids",
             "not acted on workflow /profiles", "not acted on workflow /jobs/0/profiles/dagman",
             "not acted on workflow /transformationCatalog/transformations/0/profiles/globus"):
    assert line in lines, (line, lines)
workflow, request = read(work / "full", "workflow"), read(work / "full", "request")
assert [job["name"] for job in workflow["jobs"]] == ["diamond::make:4.0", "make"]
assert workflow["jobDependencies"] == [{"id": "one", "children": ["two"]}]
assert request["tools"] == {"diamond::make:4.0": "sorted", "make": "join"}
assert [site["site"] for site in request["execute"]] == ["condorpool"]
# Once `inner` is registered, it is planned and run.
workflow["replicaCatalog"]["replicas"].append({"lfn": "inner", "pfns": [{"site": "local", "pfn": "examples/diamond/f.a"}]})
(work / "full" / "workflow.json").write_text(json.dumps(workflow), encoding="utf-8")
(work / "full" / "request.json").write_text(json.dumps({**request, "workflow": str(work / "full" / "workflow.json")}), encoding="utf-8")
ran = commands.text("alone", str(work / "full" / "request.json"))
assert ran.splitlines()[-1] == "done" and "delivered whole 16 " in ran, ran

# An inlined catalogue isn't looked at where a document stands in its place, and one that is missing is told.
(work / "catalogue.yml").write_text(
    "pegasus: 5.0\ntransformations: [{name: make, sites: [{name: condorpool, pfn: /bin/make, type: installed}]},\n"
    " {namespace: diamond, name: make, version: 4.0, sites: [{name: elsewhere, pfn: /bin/make, type: stageable}]}]\n", encoding="utf-8")
left = turn("--transformations", str(work / "catalogue.yml"), "--drop", "subworkflows", "--drop", "uses", "--drop", "checkpoints",
            "--drop", "patterns", "--drop", "checksums", str(work / "full.yml"), str(work / "other"))
assert left.returncode == 0 and "/transformationCatalog" not in left.stdout, left
(work / "bare.yml").write_text("pegasus: 4.9\nname: bare\njobs: []\n", encoding="utf-8")
bare = turn(str(work / "bare.yml"), str(work / "nothing"))
assert bare.returncode == 4 and "/pegasus 4.9" in bare.stderr, bare.stderr
for catalogue in ("sites", "transformations"):
    assert f"no catalogue of {catalogue}: name its document with --{catalogue}\n" in bare.stderr, bare.stderr
assert bare.stderr.endswith("from-pegasus: nothing was written\n"), bare.stderr
(work / "half.yml").write_text("pegasus: 5.0\nname: half\njobs: [{type: job, id: a, name: b, uses: [{lfn: c, type: checkpoint}]}]\n", encoding="utf-8")
assert turn(str(work / "half.yml"), str(work / "nothing")).stderr.endswith("nothing was written; all that can be is taken out by --drop checkpoints\n")

# More than three keys that differ in their numbers alone are one line, and fewer are a line each.
for count, told in ((3, [f"not acted on workflow /jobs/{at}/metadata" for at in range(3)]),
                    (4, ["not acted on workflow /jobs/*/metadata 4 times, first /jobs/0/metadata"])):
    (work / "many.yml").write_text(
        "pegasus: 5.0\nname: many\nsiteCatalog: {sites: [{name: local}]}\njobs:\n" + "".join(
            f"- {{type: job, id: j{at}, name: text, metadata: {{a: b}}, uses: [{{lfn: f{at}, type: output}}]}}\n" for at in range(count))
        + "transformationCatalog: {transformations: [{name: text, sites: [{name: local, pfn: text, type: installed}]}]}\n", encoding="utf-8")
    assert turn(str(work / "many.yml"), str(work / f"many{count}")).stdout.splitlines()[:-1] == told, count

# A job that no site can run, or that is pinned elsewhere, is told, and `local` runs jobs where none of the others can.
PLACES = """
pegasus: 5.0
name: places
siteCatalog: {sites: [{name: local}, {name: pool}]}
transformationCatalog: {transformations: [{name: cat, sites: [{name: AT, pfn: /bin/cat, type: TYPE}]}]}
jobs:
- {type: job, id: one, name: NAME, uses: [{lfn: f.a, type: input}, {lfn: f.b, type: output}], profiles: {selector: {execution.site: PIN}}}
- {type: job, id: two, name: cat, uses: [{lfn: f.a, type: input}, {lfn: f.b, type: input}, {lfn: f.c, type: output}]}
"""


def placed(at="pool", kind="installed", name="cat", pin="pool"):
    text = PLACES.replace("AT", at).replace("TYPE", kind).replace("NAME", name).replace("PIN", pin)
    (work / "places.yml").write_text(text, encoding="utf-8")
    shutil.rmtree(work / "places", ignore_errors=True)
    return turn(str(work / "places.yml"), str(work / "places"))


for how, told in (
        ({"name": "dog"}, "unsupported workflow /jobs/0 a job of dog, which no site has: add it"),
        ({"at": "moon"}, "unsupported workflow /jobs/1 a job of cat, which no site has: add it"),
        ({"pin": "moon"}, "unsupported workflow /jobs/0 a job that is pinned to moon: name one"),
        ({"pin": "local"}, "unsupported workflow /jobs/0 a job that is pinned to local: name one")):
    refused = placed(**how)
    assert refused.returncode == 4 and told in refused.stderr and not (work / "places").exists(), (how, refused)
for how, sites in (({}, ["pool"]), ({"kind": "stageable", "pin": "local"}, ["local", "pool"]), ({"at": "moon", "kind": "stageable"}, ["pool"]),
                   ({"at": "local", "pin": "local"}, ["local", "pool"])):
    done = placed(**how)
    assert done.returncode == 0 and done.stdout.splitlines()[:3] == [
        "registered nowhere workflow /jobs/0/uses/0 f.a: add it to a catalogue of replicas",
        "no tool cat: name one with --tool cat=TOOL, or in the request's tools", TOOLS], (how, done)
    assert [it["site"] for it in read(work / "places", "request")["execute"]] == sites, how

# Of a workflow as Pegasus writes one, with its catalogues beside it, tools and files are made up, so that it can be seen to run.
MINE = """
pegasus: 5.0
name: mine
jobs:
- {type: job, id: one, name: cut, arguments: [-l], profiles: {pegasus: {runtime: 90.5}},
   uses: [{lfn: far.fits, type: input, size: 70}, {lfn: a, type: output, stageOut: false, size: 9}, {lfn: b, type: output, stageOut: false, size: 9}]}
- {type: job, id: two, name: cut, profiles: {pegasus: {runtime: '20'}}, uses: [{lfn: here, type: input}, {lfn: c, type: output, stageOut: false}]}
- {type: job, id: three, name: mAdd, arguments: [-x], uses: [{lfn: a, type: input}, {lfn: b, type: input}, {lfn: c, type: input},
   {lfn: nowhere, type: input}, {lfn: d, type: output, stageOut: WANTED}]}
jobDependencies: [{id: one, children: [three]}]
"""
mine = work / "mine"
mine.mkdir()
(mine / "workflow.yml").write_text(MINE.replace("WANTED", "true"), encoding="utf-8")
(mine / "sites.yml").write_text("pegasus: 5.0\nsites: [{name: local}, {name: pool}, {name: desk}]\n", encoding="utf-8")
(mine / "here.txt").write_text("my own lines\n", encoding="utf-8")
(mine / "replicas.yml").write_text(
    "pegasus: 5.0\nreplicas:\n- {lfn: far.fits, pfns: [{site: ipac, pfn: 'http://ipac/far.fits'}], checksum: {sha256: SHA}}\n"
    f"- {{lfn: nowhere, pfns: [{{site: local, pfn: {mine / 'moved'}}}]}}\n"
    f"- {{lfn: here, pfns: [{{site: local, pfn: 'file://{mine / 'here.txt'}'}}]}}\n".replace("SHA", "0" * 64), encoding="utf-8")
(mine / "transformations.yml").write_text(
    "pegasus: 5.0\ntransformations:\n- {name: cut, sites: [{name: pool, pfn: /bin/cut, type: stageable}]}\n"
    "- {name: mAdd, sites: [{name: pool, pfn: /bin/mAdd, type: installed}], profiles: {pegasus: {runtime: 7}}}\n", encoding="utf-8")
plain = turn("--size", "100", str(mine / "workflow.yml"), str(mine / "plain"))
lines = plain.stdout.splitlines()
assert plain.returncode == 0 and lines[:3] == [f"taken {mine / it}.yml" for it in ("sites", "replicas", "transformations")], plain
assert [it for it in lines if it.startswith("no tool ")][0].startswith("no tool cut: ") and TOOLS in lines, lines
request = read(mine / "plain", "request")
# (far.fits has 70 bytes, a and b have 9, and four files have 100)
assert request["execute"] == [{"site": it, "bound": 488} for it in ("pool", "desk")] and "tools" not in request, request
assert request["runtimes"] == [{"transformation": name, "site": site, "seconds": seconds}
                               for site in ("pool", "desk") for name, seconds in (("cut", 56), ("mAdd", 7))], request
made = turn("--size", "100", "--tools", "made-up", str(mine / "workflow.yml"), str(mine / "made"))
lines = made.stdout.splitlines()
assert made.returncode == 0 and "tool cut deal: made up" in lines and "tool mAdd digest: made up" in lines, made
assert f"made up 2 files in {mine / 'made' / 'files'}: far.fits and nowhere" in lines, lines
assert not any("registered nowhere" in it for it in lines), lines
request, replicas = read(mine / "made", "request"), read(mine / "made", "replicas")["replicas"]
assert request["tools"] == {"cut": "deal", "mAdd": "digest"}
# (what is made up for far.fits is a line of 21 letters, which is dealt to a)
assert request["sizes"] == {"a": 21} and "enlarged a from 9 to 21 bytes, for what is made up" in lines, (request, lines)
assert {it["lfn"]: it["pfns"][0]["pfn"] for it in replicas}["here"] == f"file://{mine / 'here.txt'}"
assert not any("checksum" in it for it in replicas) and len(replicas) == 3, replicas
ran = commands.text("alone", str(mine / "made" / "request.json"))
assert ran.splitlines()[-1] == "done" and "delivered d 65 " in ran, ran
# A tool that is named stays; the files that were made up stay too where their texts are others.
(mine / "made" / "files" / "00000.txt").write_text("others\n", encoding="utf-8")
again = turn("--size", "100", "--tools", "made-up", "--tool", "mAdd=join", str(mine / "workflow.yml"), str(mine / "made"))
assert again.returncode == 0 and f"written {mine / 'made' / 'request.new.json'}" in again.stdout, again.stdout
assert json.loads((mine / "made" / "request.new.json").read_text())["tools"] == {"mAdd": "join", "cut": "deal"}
assert (mine / "made" / "files" / "00000.txt").read_text() == "others\n"
# Where nothing is requested that is told.
told = "nothing is requested: no output has stageOut true, so no job will run, other than in Pegasus"
(mine / "unwanted.yml").write_text(MINE.replace("WANTED", "false"), encoding="utf-8")
assert told in turn(str(mine / "unwanted.yml"), str(mine / "unwanted")).stdout.splitlines() and told not in plain.stdout

# More than three places of one kind are told together.
(work / "checked.yml").write_text(
    "pegasus: 5.0\nname: checked\nsiteCatalog: {sites: [{name: local}]}\njobs:\n" + "".join(
        f"- {{type: job, id: j{at}, name: text, uses: [{{lfn: f{at}, type: output}}, {{lfn: c{at}, type: checkpoint}}, {{lfn: n{at}, type: input}}]}}\n" for at in range(9))
    + "transformationCatalog: {transformations: [{name: text, sites: [{name: local, pfn: text, type: installed}]}]}\n", encoding="utf-8")
refused = turn(str(work / "checked.yml"), str(work / "checked"))
told = refused.stderr.splitlines()
assert refused.returncode == 4 and len(told) == 5 and told[2].startswith("from-pegasus: unsupported workflow /jobs/2/uses/1 "), told
assert told[3:] == ["from-pegasus: and 6 more such places", "from-pegasus: nothing was written; all is taken out by --drop checkpoints"], told
lines = turn("--drop", "checkpoints", str(work / "checked.yml"), str(work / "checked")).stdout.splitlines()
assert lines[2:4] == ["dropped workflow /jobs/2/uses/1 a use of type checkpoint", "and 6 more such places"] and lines[6:8] == [
    "registered nowhere workflow /jobs/2/uses/1 n2: add it to a catalogue of replicas", "and 6 more such places"], lines

# The quick reader of YAML, where there is one, reads the same as the slow one.
import yaml  # noqa: E402
tool = beside.load("from-pegasus")
assert issubclass(tool.Plain, getattr(yaml, "CSafeLoader", yaml.SafeLoader))


class Slow(yaml.SafeLoader):
    """The reader that is always there, with the same texts as they are."""


Slow.yaml_implicit_resolvers = tool.Plain.yaml_implicit_resolvers
for path in (*work.glob("*.yml"), *mine.glob("*.yml"), *pathlib.Path("examples/pegasus").glob("*.yml")):
    if path.name not in ("torn.yml", "list.yml"):
        text = path.read_text(encoding="utf-8")
        assert yaml.load(text, Loader=tool.Plain) == yaml.load(text, Loader=Slow), path

for words in (["--tool", "nobody=join"], ["--tool", "diamond::make:5.0=join"]):
    assert turn(*drops, *words, str(work / "full.yml"), str(work / "nothing")).returncode == 1, words
for words in (["--tool", "make"], ["--tool", "make=cat"], ["--drop", "jobs"], ["--size", "many"]):
    assert turn(*words, str(work / "full.yml"), str(work / "nothing")).returncode == 2, words
assert not (work / "nothing").exists()
print("from-pegasus: ok")
