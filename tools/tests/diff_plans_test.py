"""Tests of tools/diff-plans: the plans of the examples, told by names, and requests that have none."""
import json
import pathlib
import subprocess
import sys
import tempfile

TOP = pathlib.Path.cwd()


def diff(first, second, place=TOP):
    done = subprocess.run([sys.executable, TOP / "tools/diff-plans", first, second], cwd=place, capture_output=True, text=True, check=False)
    return done.returncode, done.stdout.splitlines(), done.stderr


def differs(first, second, *wanted, place=TOP):
    """What is told behind the two lines of counts."""
    status, lines, told = diff(first, second, place)
    last = f"{len(wanted)} difference{'s' * (len(wanted) != 1)}" if wanted else "no difference"
    assert (status, lines[2:], told) == (int(bool(wanted)), [*wanted, last], ""), (first, second, lines)
    return lines[:2]


two = "examples/two_sites/"
counts = differs(f"{two}request.json", f"{two}heft.json", "job ID0000003 (findrange): at near, and at far", "- transfer f.c2 from near to far",
                 "+ transfer f.b2 from near to far", "- removal f.c2 at near", "+ removal f.b2 at far")
assert counts == [f"{two}{it}.json: 4 runs, 3 transfers, 1 delivery, 8 removals" for it in ("request", "heft")], counts
# Turns and pins give the same sites, in another workflow document.
differs(f"{two}request.json", f"{two}turns.json")
differs("examples/clusters/by_size.json", "examples/clusters/by_num.json",
        "- cluster sort1, sort2, sort3", "+ cluster sort1, sort2", "+ cluster sort3, sort4")
differs("examples/diamond/request.json", "examples/reuse/request.json",
        *(f"job ID000000{at} ({name}): at condorpool, and not run" for at, name in ((1, "preprocess"), (2, "findrange"), (3, "findrange"))),
        "- transfer f.a from file://examples/diamond/f.a to condorpool",
        "+ transfer f.c1 from examples/reuse/f.c1 to condorpool", "+ transfer f.c2 from examples/reuse/f.c2 to condorpool",
        *(f"- removal {file} at condorpool" for file in ("f.a", "f.b1", "f.b2")))
with tempfile.TemporaryDirectory() as work:
    place = pathlib.Path(work)
    (place / "examples").symlink_to(TOP / "examples")
    request = json.loads((TOP / "examples/diamond/request.json").read_text())

    def write(name, **more):
        (place / name).write_text(json.dumps({**request, **more}))

    write("wide.json", execute=[{"site": "condorpool", "bound": 40}], sizes={"f.d": 12}, output_bound=20)
    differs("examples/diamond/request.json", "wide.json", "bound of condorpool: 30, and 40", "+ bound of the output: 20", "size of f.d: 10, and 12",
            "peak of condorpool: 30, and 32", "+ peak of the output: 12", place=place)
    workflow = json.loads((TOP / "examples/diamond/diamond.json").read_text())
    workflow["jobs"][3]["id"] = "last"
    workflow["jobDependencies"] = []
    (place / "w.json").write_text(json.dumps(workflow))
    write("other.json", workflow="w.json", cleanup="none", execute=[{"site": "condorpool", "bound": 60}])
    lines = diff("examples/diamond/request.json", "other.json", place)[1]
    assert "- job ID0000004 (analyze): at condorpool" in lines and "+ job last (analyze): at condorpool" in lines, lines
    assert sum(it.startswith("- removal ") for it in lines) == 6 and "other.json: 4 runs, 1 transfer, 1 delivery, 0 removals" in lines, lines
for other, told in (("examples/diamond/tight.json", "exceeds condorpool 0 30 29"), ("nowhere.json", "no document nowhere.json")):
    assert diff("examples/diamond/request.json", other) == (2, [], f"diff-plans: {other}: {told}; tools/why {other} says more\n"), other
print("diff-plans: ok")
