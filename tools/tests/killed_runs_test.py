"""Runs of random workflows that are killed at a call of the system, before it or after it, salvaged and gone on with: the record
that was kept is legal at each moment, and in the end all is as by a run that nobody killed. And what is kept of a run that
isn't killed, and where the file can't be written.

    tools/tests/killed_runs_test.py [--seed N] [--seconds N]
"""
import argparse
import os
import pathlib
import random
import re
import shutil
import subprocess
import sys
import tempfile
import time

sys.dont_write_bytecode = True
sys.path[:0] = ["tools", "tools/tests"]
import each_call_failing
import random_calls
import random_documents
import random_jobs
from random_subjects import joint_of, subject_of

PROGRAM = pathlib.Path("crates/pegasus/out/pegasus").absolute()
SALVAGE = pathlib.Path("tools/salvage").absolute()
EXAMPLES = pathlib.Path("examples").absolute()
KEPT = ".pegasus.record"
WORKERS = (None, 1, 2, 4, 16)
LEAST = 12


def words_of(made, workers):
    words = ["ensemble", "ensemble.json"] if made.is_ensemble else ["alone" if workers is None else "run", "request.json"]
    return words if workers is None else [*words, "--workers", str(workers)]


def lasting(text):
    """The entries of a record but for its failures, from which a call goes on."""
    return [line for line in text.split("closed\n")[0].splitlines()[1:] if not line.startswith("fail ")]


class Killed:
    """One random workflow, whose run is killed, and what comes of it."""

    def __init__(self, folder, made, chance, library):
        self.folder, self.made, self.chance, self.library = folder, made, chance, library
        self.subject = (joint_of if made.is_ensemble else subject_of)(folder.place)

    def around(self, **more):
        return {"LD_PRELOAD": self.library, "WITH_KEPT": "1", **more}

    def count(self, words):
        """The delivered files of a whole run, and how many calls of the system it makes; nothing where it isn't done."""
        told = self.folder.fresh(*words, **self.around(CALLS_FILE=str(self.folder.place / "calls")))
        return (told.delivered, int((self.folder.place / "calls").read_text())) if told.status == 0 else None

    def kill(self, words, calls):
        when = self.chance.choice(("KILLED_BEFORE", "KILLED_AFTER"))
        return self.folder.call(*words, **self.around(**{when: str(self.chance.randint(1, calls))}))

    def salvaged(self, *words):
        """The record of what was killed; nothing where nothing was kept."""
        done = subprocess.run([sys.executable, SALVAGE, *words], cwd=self.folder.place, capture_output=True, text=True, check=False)
        if done.returncode != 0:
            assert "there is no .pegasus.record" in done.stderr or "before its first entry" in done.stderr, done.stderr
            return None
        verdict = self.subject.judged("audit", done.stdout)[1]
        assert verdict in ("verdict legal\ndone\n", "verdict complete\ndone\n"), (verdict, done.stdout, done.stderr)
        return done.stdout

    def killed_again(self, words):
        """A resume that is killed too, where it comes to that call, and what is salvaged of it."""
        (self.folder.place / KEPT).unlink()
        told = self.kill(words, 40)
        if told.status < 0:
            again = self.salvaged() or self.salvaged_unkept(words[1:])
            (self.folder.place / "salvaged.txt").write_text(again)
        return told

    def resumed(self, words):
        was_kept, before = (self.folder.place / KEPT).exists(), lasting((self.folder.place / "salvaged.txt").read_text())
        told = self.folder.call(*words)
        # (where nothing was left to do the file of the killed call stays)
        assert (self.folder.place / KEPT).exists() == (was_kept and lasting(told.text) == before), told.text
        return told

    def resumes(self, record, delivered, is_killed_again):
        """Goes on from a record, perhaps killed once more, to the end."""
        (self.folder.place / "salvaged.txt").write_text(record)
        words = ["resume", self.request(), "salvaged.txt"]
        told = self.killed_again(words) if is_killed_again else None
        if told is None or told.status < 0:
            told = self.resumed(words)
        assert told.status == 0, (record, told.text)
        assert {**delivered, **told.delivered} == delivered == {**told.delivered, **delivered}, (record, told)
        assert told.sites == {} or self.keeps_files(), told.sites
        assert self.subject.judged("audit", told.text)[1] == "verdict complete\ndone\n", told.text

    def salvaged_unkept(self, words):
        """The same of a resume that was killed before it had an entry."""
        (self.folder.place / KEPT).unlink(missing_ok=True)
        return self.salvaged(*words)

    def keeps_files(self):
        return self.subject.survey.request.get("cleanup") == "none"

    def request(self):
        """The request of the run; of an ensemble the joint's, which is made."""
        if not self.made.is_ensemble:
            return "request.json"
        subprocess.run([sys.executable, pathlib.Path("tools/join").absolute(), "ensemble.json", "joint"], check=True,
                       cwd=self.folder.place, stdout=subprocess.DEVNULL)
        return "joint/request.json"

    def run(self, workers):
        """What came of it: not done, killed before there was a record, or gone on with."""
        words = words_of(self.made, workers)
        whole = self.count(words)
        if whole is None:
            return "not done"
        self.folder.clear()
        (self.folder.place / KEPT).unlink(missing_ok=True)
        told = self.kill(words, whole[1])
        if told.status >= 0:
            return "not killed"
        record = self.salvaged()
        if record is None:
            return "killed before its first entry"
        self.resumes(record, whole[0], self.chance.is_so(0.4))
        return "gone on with"


def kill_random_workflows(seed, seconds, library, work):
    """For so many seconds, and on a slow machine until enough were gone on with."""
    came, number, begun = {}, 0, time.monotonic()
    while (past := time.monotonic() - begun) < seconds or (came.get("gone on with", 0) < LEAST and past < 12 * seconds):
        chance = random_jobs.Chance(f"{seed}/{number}")
        place = pathlib.Path(work, str(number))
        place.mkdir()
        made = random_documents.made_of(chance)
        folder = random_calls.Folder(PROGRAM, place, made)
        folder.mend()
        try:
            kind = Killed(folder, made, chance, library).run(chance.choice(WORKERS))
        except Exception:
            print(f"killed runs: number {number} of seed {seed} in {place}", flush=True)
            raise
        came[kind] = came.get(kind, 0) + 1
        number += 1
        shutil.rmtree(place)
    return came


def diamond(work, name):
    place = pathlib.Path(work, name)
    shutil.copytree(EXAMPLES / "diamond", place / "examples" / "diamond")
    return place, "examples/diamond/request.json"


def killed_at_the_removal(library, work, words):
    """The folder of a call that was killed before its last call of the system, which removes the file, and what it printed.

    Of several workers not each run opens the file as often, so the number of calls is tried again."""
    calls_file = pathlib.Path(work, "calls")
    around = {**os.environ, "LD_PRELOAD": library, "WITH_KEPT": "1", "CALLS_FILE": str(calls_file)}
    for number in range(40):
        place = diamond(work, f"counted-{number}")[0]
        subprocess.run(words, cwd=place, env=around, check=True, stdout=subprocess.DEVNULL)
        shutil.rmtree(place)
        place = diamond(work, f"killed-{number}")[0]
        killed = {**around, "KILLED_BEFORE": calls_file.read_text()}
        told = subprocess.run(words, cwd=place, env=killed, stdout=subprocess.PIPE, text=True)
        if told.returncode == -9 and told.stdout.endswith("done\n"):
            return place, told.stdout
        shutil.rmtree(place)
    raise AssertionError(f"no run was killed at the removal: {words}")


def kept_as_printed(library, work):
    """Just before the file is removed it has the entries of the record that is printed."""
    request = "examples/diamond/request.json"
    for words in (["alone", request], ["run", request, "--workers", "4"]):
        place, told = killed_at_the_removal(library, work, [PROGRAM, *words])
        printed = told.split("closed\n")[0].splitlines()[1:]
        kept = [it for it in (place / KEPT).read_text().splitlines() if not it.startswith("word ")]
        assert kept == printed and len(kept) == 18, (kept, printed)
        cut_short(place, printed)
        shutil.rmtree(place)


def cut_short(place, printed):
    """The last line, `clean W 11`, cut to `clean W 1`: that isn't taken for an entry, and the removal that was made is entered."""
    (place / KEPT).write_bytes((place / KEPT).read_bytes()[:-2])
    told = subprocess.run([sys.executable, SALVAGE], cwd=place, capture_output=True, text=True)
    assert told.returncode == 0 and "cut short" in told.stderr and "a removal was made" in told.stderr, told
    entries = told.stdout.splitlines()[1:-1]
    assert entries[:-1] == printed[:-1] and re.fullmatch(r"clean \d+ 11", entries[-1]) and printed[-1].endswith(" 11"), told


def without_a_file(work):
    """Where a link, a folder or a pipe stands in its place the run is done all the same, and nothing else is written."""
    for name in ("link", "folder", "pipe"):
        place, request = diamond(work, name)
        other = place / "other"
        other.write_text("other\n")
        {"link": lambda at: at.symlink_to(other), "folder": lambda at: at.mkdir(), "pipe": os.mkfifo}[name](place / KEPT)
        done = subprocess.run([PROGRAM, "alone", request], cwd=place, stdout=subprocess.PIPE, text=True, timeout=60)
        assert done.returncode == 0 and done.stdout.endswith("done\n"), done
        assert other.read_text() == "other\n" and os.path.lexists(place / KEPT)
        told = subprocess.run([sys.executable, SALVAGE], cwd=place, capture_output=True, text=True)
        assert (told.returncode, told.stdout) == (1, "") and "is no file" in told.stderr, told


def refused_files(work):
    """What salvage says of files that are none of a call's."""
    place, request = diamond(work, "refused")
    head = f"word alone\nword {request}\n"
    for text, said in (("", "before its first entry"), ("grant 0 4\n", "doesn't begin"), (f"{head}grant 0 4\nbroken\n", "isn't known"),
                       (f"{head}grant 0\narrive 0 4 8\n", "line 1"), (f"{head}grant 0 4\nclosed\n", "line 2")):
        (place / KEPT).write_text(text)
        told = subprocess.run([sys.executable, SALVAGE], cwd=place, capture_output=True, text=True)
        assert (told.returncode, told.stdout) == (1, "") and said in told.stderr, (text, told)
        assert (place / KEPT).read_text() == text


def of_a_refused_request(work):
    """Why a request has no plan is told in the program's own line."""
    place, _ = diamond(work, "emptied")
    (place / "request.json").write_text("{}")
    (place / KEPT).write_text("word alone\nword request.json\ngrant 0 0\n")
    told = subprocess.run([sys.executable, SALVAGE], cwd=place, capture_output=True, text=True)
    wanted = "salvage: the plan of request.json can't be had: refused request missing /workflow\n"
    assert (told.returncode, told.stdout, told.stderr) == (1, "", wanted), told


def while_it_builds(work):
    """Where no program is built salvage has the script build it, and what that tells is seen."""
    place, request = diamond(work, "unbuilt")
    top = pathlib.Path(work) / "top"
    shutil.copytree("tools", top / "tools", ignore=shutil.ignore_patterns("tests"))
    (top / "pegasus").write_text("#!/bin/sh\necho 'pegasus: building' >&2\nexit 70\n")
    (top / "pegasus").chmod(0o755)
    (place / KEPT).write_text(f"word alone\nword {request}\ngrant 0 0\n")
    told = subprocess.run([sys.executable, top / "tools" / "salvage"], cwd=place, capture_output=True, text=True)
    wanted = f"pegasus: building\nsalvage: the plan of {request} can't be had: the call ended with 70\n"
    assert (told.returncode, told.stdout, told.stderr) == (1, "", wanted), told


def main(words):
    parser = argparse.ArgumentParser(description=__doc__.split("\n\n")[0])
    parser.add_argument("--seed", type=int, default=random.SystemRandom().randrange(2**31))
    parser.add_argument("--seconds", type=int, default=25)
    asked = parser.parse_args(words)
    if shutil.which("cc") is None:
        print("killed runs: skipped, no C compiler")
        return
    with tempfile.TemporaryDirectory() as work:
        library = each_call_failing.made_library(work)
        kept_as_printed(library, work)
        without_a_file(work)
        refused_files(work)
        of_a_refused_request(work)
        while_it_builds(work)
        print(f"killed runs: seed {asked.seed}", flush=True)
        came = kill_random_workflows(asked.seed, asked.seconds, library, work)
    assert came.get("gone on with", 0) >= LEAST, came
    print(f"killed runs: {came}")


if __name__ == "__main__":
    main(sys.argv[1:])
