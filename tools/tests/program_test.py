"""The program that the gate built: the commands of each page, one after the other as a reader types them, with the texts
printed below them, and a call for each other status but want of memory, which refused_memory_test.py shows."""
import os
import pathlib
import re
import shutil
import subprocess
import sys
import tempfile

import pages

PROGRAM = pathlib.Path("crates/pegasus/out/pegasus").absolute()
TOOLS = pathlib.Path("tools").absolute()
EXAMPLES = pathlib.Path("examples").absolute()
CRATES = pathlib.Path("crates").absolute()
STATUS = {"done": 0, "usage:": 2, "no": 3, "document": 3, "refused": 4, "exceeds": 5, "failed": 6, "bad": 8, "illegal": 8}
# So many commands at least stand on each page.
LEAST = {"README.md": 1, "docs/COMMANDS.md": 25, "docs/GUIDE.md": 40}
# Tools that end with 1 where they find something.
LOOKS = ("tools/why ", "tools/diff-plans ")
CYCLE = """{
  "pegasus": "5.0", "name": "wait for each other",
  "siteCatalog": {"sites": [{"name": "local"}]},
  "replicaCatalog": {"replicas": []},
  "transformationCatalog": {"transformations": [
    {"name": "join", "sites": [{"name": "local", "pfn": "join", "type": "installed"}]}]},
  "jobs": [
    {"type": "job", "id": "a", "name": "join", "uses": [{"lfn": "x", "type": "output"}]},
    {"type": "job", "id": "b", "name": "join", "uses": [{"lfn": "x", "type": "input"}]}],
  "jobDependencies": [{"id": "b", "children": ["a"]}]
}
"""


def folder(place):
    """A folder as the top of the repository is to its reader, with the program that was built in the script's place."""
    shutil.copytree(EXAMPLES, place / "examples")
    (place / "tools").symlink_to(TOOLS)
    (place / "crates").symlink_to(CRATES)
    (place / "pegasus").symlink_to(PROGRAM)
    return place


def call(command, place):
    done = subprocess.run(["bash", "-o", "pipefail", "-c", command], cwd=place, capture_output=True, text=True, timeout=60)
    return done.returncode, done.stdout.splitlines()


def is_as_printed(lines, printed):
    """A printed line of two points stands for any lines."""
    pattern = "".join(".*" if it == ".." else re.escape(it + "\n") for it in printed)
    return re.fullmatch(pattern, "".join(it + "\n" for it in lines), re.DOTALL) is not None


def page_holds(page, place, has_yaml):
    """Types the commands of a page, and counts them."""
    tried, left = 0, 0
    for command, printed in pages.commands(page):
        if printed[:1] and printed[0].startswith("pegasus: "):
            continue
        if not has_yaml and ("from-pegasus" in command or "mine/" in command):
            left += 1
            continue
        status, lines = call(command, place)
        assert is_as_printed(lines, printed), (page, command, lines)
        is_call = command.startswith("./pegasus") and "|" not in command and printed
        # (a catalogue is all that is printed where it is)
        wanted = STATUS[printed[-1].split()[0]] if is_call and not printed[-1].startswith("{") else 0
        if command.startswith(LOOKS) and printed:
            wanted = int(printed[-1] not in ("nothing in the way", "no difference"))
        assert status == wanted, (page, command, status)
        tried += 1
    assert tried + left >= LEAST[page], (page, tried, left)
    if left:
        print(f"program: skipped, {left} commands of {page} that want the yaml package")
    return tried


def others_hold(place):
    """A call for each status that no page shows, and the refusal of a workflow that the readers let pass."""
    (place / "cycle.json").write_text(CYCLE)
    request = '{"workflow": "cycle.json", "execute": [{"site": "local", "bound": 1000}], "default_size": 100}'
    (place / "request.json").write_text(request)
    assert call("./pegasus check request.json", place) == (4, ["refused cycle a b"])
    status, lines = call("./pegasus rehearse 1", place)
    assert status == 2 and len(lines) == 1 and lines[0].startswith("usage: "), (status, lines)
    assert call("./pegasus check nowhere.json", place) == (3, ["no document nowhere.json"])
    assert call("./pegasus check examples", place) == (3, ["document failed examples"])
    (place / "long.json").write_bytes(b" " * 33554433)
    assert call("./pegasus check long.json", place) == (3, ["document too long long.json 33554432"])
    assert call("./pegasus check examples/hello/request.json > /dev/full", place) == (7, [])
    return 6


if not PROGRAM.exists():
    print("program: skipped, none is built")
    sys.exit()
has_yaml = subprocess.run([sys.executable, "-c", "import yaml"], capture_output=True).returncode == 0
with tempfile.TemporaryDirectory() as work:
    tried = 0
    for page in pages.PAGES:
        tried += page_holds(page, folder(pathlib.Path(work, page.replace("/", "_"))), has_yaml)
    tried += others_hold(folder(pathlib.Path(work, "others")))
print(f"program: ok, {tried} commands")
