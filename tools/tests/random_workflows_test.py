"""Random workflows, of another seed each time: tools/random-workflows over the program that the gate built, and the cases of
tools/random-cases over the program of cases. Their seeds are printed, so that what differs can be made again. A program whose
text is wrong at a place has to be found out."""
import pathlib
import random
import re
import shutil
import subprocess
import sys
import tempfile

sys.dont_write_bytecode = True
sys.path.insert(0, "tools")
import beside
import random_documents
import random_jobs

PROGRAM = pathlib.Path("crates/pegasus/out/pegasus").absolute()
CASES = pathlib.Path("crates/cases/out/cases").absolute()
# How long workflows are begun, how many are tried at least meanwhile, and of how many there are cases.
SECONDS, LEAST, CASED = 30, 3, 80
cases = beside.load("random-cases")
# Stands in the program's place and tells other digests than it does; all else is as it should be.
WRONG = """#!/usr/bin/env bash
"{program}" "$@" | sed -e 's/^delivered \\(.*\\)[0-7]$/delivered \\18/'
exit "${{PIPESTATUS[0]}}"
"""


def again(seed):
    """A seed makes the same workflow, and the same cases, each time."""
    for number in range(20):
        first, second = (random_documents.made_of(random_jobs.Chance(f"{seed}/{number}")) for _ in range(2))
        assert first == second, (seed, number)
        assert cases.cases_of(seed, number) == cases.cases_of(seed, number), (seed, number)


def call(*words):
    done = subprocess.run([sys.executable, *map(str, words)], stdout=subprocess.PIPE, text=True, check=False)
    return done.returncode, done.stdout


def are_the_same(seed):
    """The program over workflows of this seed; those that differ are kept, and the text says where."""
    status, text = call("tools/random-workflows", "--seed", seed, "--count", 10**6, "--seconds", SECONDS)
    last = text.splitlines()[-1]
    tried = re.fullmatch(r"random-workflows: ok, (\d+) workflows of seed \d+, .*", last)
    assert status == 0 and tried and int(tried[1]) >= LEAST, text
    return last


def none_is_no_trial():
    """Where no workflow was begun, that isn't well."""
    status, text = call("tools/random-workflows", "--seed", 1, "--seconds", 0)
    assert status == 1 and "none was tried, 0 workflows" in text, (status, text)


def is_found_out(work):
    """A program that tells another digest, over workflows that are always the same."""
    wrong = work / "wrong"
    wrong.write_text(WRONG.format(program=PROGRAM))
    wrong.chmod(0o755)
    words = ("--seed", 1, "--count", 12, "--program", wrong, "--keep", work / "kept")
    status, text = call("tools/random-workflows", *words)
    kept = list((work / "kept").iterdir()) if (work / "kept").exists() else []
    assert status == 1 and kept and f"seed 1 differs, kept in {kept[0].parent}" in text, (status, text)
    assert all((it / "what-differs").exists() for it in kept), kept


def cases_end_alike(seed, work):
    """The program of cases over random ones; a file with one that differs is kept."""
    file = work / "random.toml"
    status, text = call("tools/random-cases", "--seed", seed, "--count", CASED, file)
    assert status == 0, text
    done = subprocess.run([CASES, file.name], cwd=work, capture_output=True, text=True, check=False)
    others = [line for line in done.stdout.splitlines() if not line.startswith("ok ")]
    if done.returncode != 0 or len(others) != 1 or not others[0].endswith(" cases, 0 differ"):
        kept = pathlib.Path(tempfile.mkdtemp(prefix="differs-"))
        shutil.copy(file, kept)
        raise AssertionError((f"seed {seed}, kept in {kept}", done.returncode, others[:20]))
    return text.strip()


def main():
    seed = random.SystemRandom().randrange(2**31)
    print(f"random: seed {seed}", flush=True)
    again(seed)
    if not PROGRAM.exists():
        print("random: skipped, no program is built")
        return
    none_is_no_trial()
    with tempfile.TemporaryDirectory() as work:
        is_found_out(pathlib.Path(work))
        if CASES.exists():
            print(cases_end_alike(seed, pathlib.Path(work)))
        else:
            print("random: skipped, random cases: no program of cases is built")
    print(are_the_same(seed))


main()
