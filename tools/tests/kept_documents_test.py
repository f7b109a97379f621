"""Tests of what tools/from-pegasus, from-wfformat and join write where something stands already: what a user edited stays, and
what would stand there is written beside it and told."""
import json
import pathlib
import subprocess
import sys

work = pathlib.Path(sys.argv[1])
work.mkdir(parents=True, exist_ok=True)
PEGASUS = ["--sites", "examples/pegasus/sites.yml", "--replicas", "examples/pegasus/replicas.yml",
           "--transformations", "examples/pegasus/transformations.yml", "examples/pegasus/workflow.yml"]
CALLS = {
    "from-wfformat": ["examples/wfformat/epigenomics.json"],
    "join": ["examples/ensemble/ensemble.json"],
    **({"from-pegasus": PEGASUS} if subprocess.run([sys.executable, "-c", "import yaml"], capture_output=True).returncode == 0 else {}),
}
EDITED = {"execute": [{"site": "mine", "bound": 7}]}


def call(tool, place):
    done = subprocess.run([sys.executable, f"tools/{tool}", *CALLS[tool], str(place)], capture_output=True, text=True, check=False)
    assert done.returncode == 0, (tool, done.stderr)
    return done.stdout.splitlines()


def contents(place):
    return {str(it.relative_to(place)): it.read_bytes() for it in sorted(place.rglob("*")) if it.is_file()}


def kept(lines):
    return [line for line in lines if line.startswith("kept ")]


def told(path, beside):
    return f"kept {path}, which holds something else; {beside} is what would stand there"


for tool in CALLS:
    place = work / tool
    first, whole = call(tool, place), contents(place)
    assert not kept(first) and "request.json" in whole, (tool, first)
    # The same once more is the same, and nothing is said to be kept.
    assert call(tool, place) == first and contents(place) == whole, tool
    request, new, second = (place / it for it in ("request.json", "request.new.json", "request.new-2.json"))
    request.write_text(json.dumps(EDITED))
    for _ in range(2):
        lines = call(tool, place)
        assert kept(lines) == [told(request, new)], (tool, lines)
        assert json.loads(request.read_text()) == EDITED and new.read_bytes() == whole["request.json"], tool
    assert not second.exists(), tool
    assert tool == "join" or lines[-1] == f"written {new}", (tool, lines)
    # What stands beside it stays too, be it a link that leads nowhere.
    new.write_text("edited as well\n")
    assert kept(call(tool, place)) == [told(request, second)] and new.read_text() == "edited as well\n", tool
    (place / "workflow.json").unlink()
    (place / "workflow.json").symlink_to("nowhere")
    call(tool, place)
    assert (place / "workflow.new.json").read_bytes() == whole["workflow.json"] and not (place / "nowhere").exists(), tool

# A made-up file that has become another one stays.
place = work / "from-wfformat"
mine = next(it for it in sorted((place / "files").iterdir()))
made = mine.read_bytes()
mine.write_text("my own reads\n")
assert told(mine, mine.with_name(f"{mine.stem}.new.txt")) in call("from-wfformat", place)
assert mine.read_text() == "my own reads\n" and mine.with_name(f"{mine.stem}.new.txt").read_bytes() == made
print("kept documents: ok")
