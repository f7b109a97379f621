"""Runs of the program that the gate built, each stopped by another failing call of the system, and gone on with by `resume`:
what is delivered in the end, what stands at the sites, and the whole record, as the program's `audit` and tools/model
judge it. Then a `resume` whose own calls fail in turn, gone on with from what it printed."""
import concurrent.futures
import os
import pathlib
import shutil
import subprocess
import sys
import tempfile

sys.dont_write_bytecode = True
sys.path.insert(0, "tools")
import each_call_failing
from model import judge
from model.plan import plan_of
from model.survey import in_folder

PROGRAM = pathlib.Path("crates/pegasus/out/pegasus").absolute()
EXAMPLES = pathlib.Path("examples").absolute()
NOTHING_DONE = "record 1\nclosed\nfailed host -\n"


def files(folder):
    return {str(it.relative_to(folder)): it.read_bytes() for it in folder.rglob("*") if it.is_file()}


class Example:
    """An example whose runs are stopped, by so many workers."""

    def __init__(self, name, library, workers):
        self.name, self.library, self.workers = name, library, workers
        self.request = f"examples/{name}/request.json"
        self.run = ["alone", self.request] if workers == 1 else ["run", self.request, "--workers", str(workers)]
        self.plan = plan_of(in_folder(".", self.request))

    def place(self):
        folder = tempfile.TemporaryDirectory()
        shutil.copytree(EXAMPLES / self.name, pathlib.Path(folder.name) / "examples" / self.name)
        return folder

    def call(self, folder, words, **more):
        environment = {**os.environ, "LD_PRELOAD": self.library, **more}
        done = subprocess.run([PROGRAM, *words], cwd=folder, capture_output=True, text=True, env=environment, timeout=60)
        return done.returncode, done.stdout

    def whole(self, folder, words):
        """The files that are delivered where no call fails, and how many calls of the system there are."""
        with tempfile.NamedTemporaryFile("r") as counted:
            status, text = self.call(folder, words, CALLS_FILE=counted.name)
            assert status == 0, (words, text)
            return files(pathlib.Path(folder) / "output"), int(counted.read())

    def stop(self, folder, words, number):
        """The text of a call whose Nth call of the system failed, where it was a task's or a look at a site."""
        status, text = self.call(folder, words, FAILING_CALL=str(number))
        return text if status == 6 else None

    def resume(self, folder, text):
        """Goes on from the text of a call that failed; what then stands in the folder has to be as by one run."""
        (pathlib.Path(folder) / "stopped.txt").write_text(text)
        words = ["resume", self.request, "stopped.txt"]
        status, printed = self.call(folder, words)
        assert status == 0 and printed.endswith("done\n"), (self.name, text, printed)
        record = printed.split("closed\n", 1)[0] + "closed\n"
        assert judge.verdict(self.plan, record, self.workers) == "complete", (self.name, text, printed)
        (pathlib.Path(folder) / "whole.txt").write_text(printed)
        assert self.call(folder, ["audit", self.request, "whole.txt"]) == (0, "verdict complete\ndone\n"), printed
        return record


def stopped_and_resumed(example, wanted, number):
    """Whether the run was one to be gone on with."""
    with example.place() as folder:
        text = example.stop(folder, example.run, number)
        if text is None:
            return False
        example.resume(folder, text)
        at = pathlib.Path(folder)
        assert files(at / "output") == wanted, (example.run, number, files(at / "output").keys())
        assert not files(at / "sites"), (example.run, number, files(at / "sites").keys())
        return True


def stopped_twice(example, wanted, first, number):
    """The same of a run that was stopped at one call, where the call that went on with it was stopped at another."""
    with example.place() as folder:
        at = pathlib.Path(folder)
        stopped = example.stop(folder, example.run, first)
        (at / "first.txt").write_text(stopped)
        text = example.stop(folder, ["resume", example.request, "first.txt"], number)
        if text is None:
            return False
        # Where a look at the start failed, nothing was done: no entry is printed, and the same record is handed in again.
        example.resume(folder, stopped if text == NOTHING_DONE else text)
        assert files(at / "output") == wanted and not files(at / "sites"), (number, files(at))
        return True


def main():
    if not PROGRAM.exists() or shutil.which("cc") is None:
        print("resume: skipped, no program that is built, or no C compiler")
        return
    once = twice = 0
    with tempfile.TemporaryDirectory() as work, concurrent.futures.ThreadPoolExecutor(os.cpu_count()) as pool:
        library = each_call_failing.made_library(work)
        for name, workers in (("diamond", 1), ("diamond", 2), ("report", 1), ("report", 2)):
            example = Example(name, library, workers)
            with example.place() as folder:
                wanted, count = example.whole(folder, example.run)
            went = list(pool.map(lambda number: stopped_and_resumed(example, wanted, number), range(1, count + 1)))
            assert sum(went) >= 28, (name, workers, sum(went))
            once += sum(went)
            if workers == 1:
                stops = [number for number, is_one in enumerate(went, 1) if is_one]
                first = stops[len(stops) // 2]
                again = pool.map(lambda number: stopped_twice(example, wanted, first, number), range(1, count + 1))
                twice += sum(again)
    assert twice >= 28, twice
    print(f"resume: ok, {once} runs that were stopped at a call of the system, {twice} that were stopped twice")


main()
