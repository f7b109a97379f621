"""Tests of tools/preview, with a stand-in for rt on the path: what is handed over, and how it ends."""
import os
import pathlib
import subprocess
import sys
import time

work = pathlib.Path(sys.argv[1])
TOP = pathlib.Path.cwd()
RT = """#!/usr/bin/env bash
[ "$1" = try ] && [ -f src/main.rt ] && [ ! -e data ] && [ ! -e out ] || exit 9
shift
for word in "$@"; do echo "$word"; done
. "$HOW"
"""
ENDS = "echo 'checked: ended' >&2; echo 'run=ended status=5 runners=1 races=unchecked proved=no' >&2; exit 5\n"


def call(folder, *words, ends=ENDS):
    (work / "how").write_text(ends)
    env = {**os.environ, "PATH": f"{work / 'bin'}:{os.environ['PATH']}", "HOW": str(work / "how"), "TMPDIR": str(work / "tmp")}
    ran = subprocess.run([sys.executable, str(TOP / "tools/preview"), *words], cwd=folder, capture_output=True, text=True, check=False, env=env)
    assert not list((work / "tmp").iterdir())
    return ran.returncode, ran.stdout.splitlines(), ran.stderr.splitlines()


def handed(lines):
    """The names handed over and the words of the call."""
    place = lines.index("--")
    assert lines[:place:2] == ["--data"] * (place // 2)
    return [it.split("=", 1)[0] for it in lines[1:place:2]], lines[place + 1 :]


for folder in ("bin", "tmp", "mine/data", "mine/inner"):
    (work / folder).mkdir(parents=True)
(work / "bin/rt").write_text(RT)
(work / "bin/rt").chmod(0o755)

status, lines, told = call(TOP, "examples/diamond/request.json")
assert status == 5 and "not proved, and slower" in told[0] and "nothing is left behind" in told[0], (status, told)
documents = [f"examples/diamond/{it}" for it in ("request.json", "diamond.json", "sites.json", "replicas.json", "transformations.json", "f.a")]
assert handed(lines) == (documents, ["alone", "examples/diamond/request.json"]), lines

# Replicas that the workflow lists; names that can't be handed over, and what isn't there or is no JSON.
mine = work / "mine"
workflow = '{"replicaCatalog": {"replicas": [{"lfn": "a", "pfns": [{"pfn": "data/a"}, {"pfn": "file://data/../data/b"}, {"pfn": "http://x/y"}, {"pfn": "../c"}, 7]}, 3]}}'
(mine / "w.json").write_text(workflow)
(mine / "r.json").write_text('{"workflow": "./w.json", "sites": "stdin", "transformations": "none.json", "replicas": null}')
for name in ("data/a", "data/b", "stdin", "../c"):
    (mine / name).write_text("x\n")
status, lines, told = call(mine, "r.json", "run", "--workers", "4")
assert handed(lines) == (["r.json", "w.json", "data/a", "data/b"], ["run", "r.json", "--workers", "4"]), lines
assert sorted(it for it in told if "can't be handed over" in it) == [f"preview: {it} can't be handed over, so the program won't find it" for it in ("../c", "stdin")], told
(mine / "torn.json").write_text("{")
assert handed(call(mine, "torn.json", "plan")[1]) == (["torn.json"], ["plan", "torn.json"])
assert handed(call(mine, "torn.json", "stat", "data/a")[1]) == (["torn.json", "data/a"], ["stat", "torn.json", "data/a"])
# The program's own order of words is taken too.
for words in (("run", "r.json", "--workers", "4"), ("run", "--workers", "4", "r.json")):
    assert handed(call(mine, *words)[1])[1] == ["run", "r.json", "--workers", "4"], words
assert handed(call(mine, "run", "--workers=4", "r.json")[1]) == (["r.json", "w.json", "data/a", "data/b"], ["run", "r.json", "--workers=4"])
assert handed(call(mine, "stat", "torn.json", "data/a")[1]) == (["torn.json", "data/a"], ["stat", "torn.json", "data/a"])
assert handed(call(mine, "alone", "r.json")[1])[1] == ["alone", "r.json"]
# What is wrong at first sight is told before two minutes are spent.
told = call(mine, "torn.json")[2]
assert told[1].startswith("preview: torn.json is no JSON text: ") and "compiled first" in told[2], told
# Words that are no call, and a document that isn't there, are answered at once.
usage = next(line.strip() for line in (TOP / "docs/COMMANDS.md").read_text(encoding="utf-8").splitlines() if line.startswith("    usage: "))
for words in (("r.json", "chek"), ("r.json", "run"), ("r.json", "run", "--workers", "99"), ("r.json", "audit"), ("1", "rehearse"), ("rehearse", "1"),
              ("alone",), ("alone", "r.json", "r.json"), ("run", "r.json"), ("r.json", "alone", "r.json")):
    assert call(mine, *words) == (2, [usage], []), (words, call(mine, *words))
for words in (("nowhere.json",), ("alone", "nowhere.json"), ("torn.json", "audit", "nowhere.json"), ("run", "--workers", "4", "nowhere.json")):
    assert call(mine, *words) == (3, ["no document nowhere.json"], []), (words, call(mine, *words))
assert call(mine, "data", "plan") == (3, ["document failed data"], [])
told = call(mine, "r.json")[2]
assert [it for it in told if "none.json" in it] == ["preview: none.json: No such file or directory"] and not any("r.json" in it for it in told), told
assert len(call(TOP, "examples/diamond/request.json")[2]) == len(call(mine, "20", "rehearse")[2]), told

# The record and the sites of a run that is gone on with; the members of an ensemble; and a rehearsal, which reads nothing.
(mine / "sites/pool").mkdir(parents=True)
(mine / "sites/pool/f.a").write_text("x\n")
assert handed(call(mine, "torn.json", "resume", "data/a")[1])[0] == ["torn.json", "data/a", "sites/pool/f.a"]
assert handed(call(mine, "torn.json", "alone")[1])[0] == ["torn.json"]
joint = call(TOP, "examples/ensemble/ensemble.json", "ensemble", "--workers", "4")[1]
assert set(handed(joint)[0]) == {"examples/ensemble/ensemble.json", *documents, *(
    f"examples/ensemble/{it}.json" for it in ("words-request", "words", "lines-request", "lines"))}, joint
assert handed(joint)[1] == ["ensemble", "examples/ensemble/ensemble.json", "--workers", "4"], joint
(mine / "joint.json").write_text('{"members": [{"request": "r.json"}, {"name": "b"}, 7, {"request": 8}]}')
assert handed(call(mine, "joint.json", "ensemble")[1])[0] == ["joint.json", "r.json", "w.json", "data/a", "data/b"]
for words in (("20", "rehearse"), ("rehearse", "20")):
    assert handed(call(mine, *words)[1]) == ([], ["rehearse", "20"])

status, _, told = call(mine, "r.json", ends="echo 'error: a fault' >&2; echo 'run=none proved=no' >&2; exit 4\n")
assert status == 70 and told[-2:] == ["error: a fault", "run=none proved=no"], (status, told)
assert call(mine)[0] == 2

# Told to stop, it has rt end as by Ctrl-C, so that what rt has started is ended too.
(work / "how").write_text(f"trap 'echo ended >{work}/ended; exit 130' INT; echo begun >{work}/begun; while :; do sleep 0.1; done\n")
env = {**os.environ, "PATH": f"{work / 'bin'}:{os.environ['PATH']}", "HOW": str(work / "how"), "TMPDIR": str(work / "tmp")}
going = subprocess.Popen([sys.executable, str(TOP / "tools/preview"), "r.json"], cwd=mine, env=env, stdout=subprocess.DEVNULL, stderr=subprocess.PIPE)
while not (work / "begun").exists():
    time.sleep(0.05)
going.terminate()
going.communicate()
assert going.returncode == 143 and (work / "ended").exists() and not list((work / "tmp").iterdir()), going.returncode
print("preview: ok")
