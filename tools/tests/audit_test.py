"""Verdicts of the program that the gate built: on each front of the text of a run, cut after each line, with and without
the line `closed`, and the sums of those that are records. What is wanted comes from tools/model; where a
front is no record, the model names its line too."""
import pathlib
import subprocess
import sys
import tempfile

sys.dont_write_bytecode = True
sys.path.insert(0, "tools")
from model import commands
from model.plan import plan_of
from model.survey import in_folder
from model.words import text_of

PROGRAM = pathlib.Path("crates/pegasus/out/pegasus").absolute()
REQUESTS = ("examples/diamond/request.json", "examples/two_sites/request.json")


def run(*words):
    """Returns the status and the text of a command."""
    ended = subprocess.run([str(it) for it in words], capture_output=True, text=True)
    return ended.returncode, ended.stdout


def fronts(text):
    """Yields each front of whole lines, and each front of entries with the line `closed`."""
    lines = text.splitlines(keepends=True)
    end = lines.index("closed\n")
    for count in range(len(lines) + 1):
        yield "".join(lines[:count])
    for count in range(1, end + 1):
        yield "".join(lines[:count]) + "closed\n"


def verdicts(plan):
    """On how many fronts of a run of this plan there are two verdicts: a transfer and a run have two entries, a removal one.
    Besides them a text has four lines, and of fronts with the line `closed` the first one has no entry."""
    entries = sum(1 if task.removes else 2 for task in plan.tasks)
    return 2 * ((entries + 4 + 1) + (entries + 1))


def compare(work, request):
    """Compares the two on each front, and returns how many verdicts there are."""
    record = work / "run.txt"
    folder = work / request.replace("/", "_")
    folder.mkdir()
    (folder / "examples").symlink_to(pathlib.Path("examples").absolute())
    text = subprocess.run([PROGRAM, "alone", request], cwd=folder, capture_output=True, text=True, check=True).stdout
    count = 0
    for front in fronts(text):
        record.write_text(front)
        for command in ("audit", "stat"):
            status, told = run(PROGRAM, command, request, record)
            wanted, lines = commands.answer([command, request, str(record)], commands.world_of("."))
            assert (status, told) == (wanted, text_of(lines)), (request, command, front, told, lines)
            count += 1
    assert count == verdicts(plan_of(in_folder(".", request))) > 80, (request, count)
    return count


def main():
    if not PROGRAM.exists():
        print("audit: skipped, no program is built")
        return
    with tempfile.TemporaryDirectory() as work:
        print(f"audit: ok, {sum(compare(pathlib.Path(work), it) for it in REQUESTS)} verdicts on fronts of runs")


main()
