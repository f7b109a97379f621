"""Tests of tools/model as a program: against what the pages print, its help, words that are no call, and refusals of each
command."""
import hashlib
import os
import pathlib
import re
import shutil
import subprocess
import sys
import tempfile

import pages

sys.dont_write_bytecode = True
sys.path.insert(0, "tools")
from model import commands
from model.words import name_of

HERE = pathlib.Path.cwd()
DIAMOND, ENSEMBLE = "examples/diamond/request.json", "examples/ensemble/ensemble.json"
# How many texts of each command there are on the pages at least.
LEAST = {"check": 3, "plan": 11, "schedule": 1, "eval": 3, "alone": 14, "produce": 1}
# The commands of the pages that judge records, make texts for it, or join and run an ensemble.
JUDGES = re.compile(r"\./pegasus (audit|stat) ")
MAKES = re.compile(r" > \w+\.txt$|^sed .* > \w+\.json$|\|\| tail -n 1 \w+\.txt$|^mv |^tools/join |"
                   r"^\./pegasus ensemble examples/|^diff -s ")
# Names in the place of a request, and what is told of them by each command.
REFUSED = {
    "README.md": (4, "refused request syntax"), "docs": (3, "document failed docs"), "absent": (3, "no document absent"),
    ENSEMBLE: (4, "refused request missing /workflow"),
    "misspelt.json": (4, "refused request unsupported /defaultsize defaultsize"),
}
OF_ENSEMBLES = {**REFUSED, **dict.fromkeys([DIAMOND, "misspelt.json"], (4, "refused ensemble missing /members")),
                "README.md": (4, "refused ensemble syntax")}
del OF_ENSEMBLES[ENSEMBLE]
OF_RECORDS = {"README.md": (8, "bad record 1"), "docs": REFUSED["docs"], "absent": REFUSED["absent"]}
NO_CALLS = (
    [], ["plna", DIAMOND], ["plan"], ["plan", ""], ["plan", DIAMOND, DIAMOND], ["plan", "--plan", DIAMOND], ["run", DIAMOND],
    ["audit", DIAMOND], ["run", DIAMOND, "--workers"], ["run", DIAMOND, "--workers", "17"],
    ["run", DIAMOND, "--workers", "2", "--workers=2"], ["rehearse", "1"], ["rehearse", "3001"], ["--folder"],
)


def called(*words, place=HERE):
    words = [sys.executable, HERE / "tools/model", *words]
    done = subprocess.run(words, cwd=place, capture_output=True, text=True, check=False)
    return done.returncode, done.stdout, done.stderr


def page_text(command, request, last):
    """The lines of a call in this folder, where something stands at the site of which the page's last line tells."""
    in_use = re.fullmatch("failed scratch (.*)", last)
    scratch = {(name_of(in_use[1]), "left"): b""} if in_use else {}
    return commands.answer([command, request], commands.world_of(".", scratch))[1]


def texts(command, least):
    """How many texts after a command there are on the pages, each of which the model prints."""
    found = list(pages.texts(command))
    for request, pattern, lines in found:
        told = page_text(command, request, lines[-1])
        assert [line for line in told if re.search(pattern, line)] == lines, (command, request)
    assert len(found) >= least, (command, len(found))
    return len(found)


def values():
    """What is worth what, by a run too."""
    for request, _, lines in pages.texts("eval"):
        worth = [line.replace("delivered", "value", 1) for line in commands.text("alone", request).splitlines()]
        assert lines == [line for line in worth if line.startswith(("value ", "done"))], request


def folder(place):
    shutil.copytree("examples", place / "examples")
    (place / "tools").symlink_to(HERE / "tools")
    (place / "pegasus").symlink_to(HERE / "tools/model/__main__.py")
    return place


def judgements(page, place):
    """Types these commands of a page in their order, with the model in the program's place, and counts the judgements."""
    count = 0
    for command, printed in pages.commands(page):
        if JUDGES.search(command) or MAKES.search(command):
            around = {**os.environ, "PYTHONDONTWRITEBYTECODE": "1"}
            done = subprocess.run(["bash", "-c", command], cwd=place, capture_output=True, text=True, env=around, check=False)
            assert done.stdout.splitlines() == printed and not done.stderr, (page, command, done.stdout, done.stderr)
            count += JUDGES.search(command) is not None
    return count


def words():
    """Help has each command in a line; words that are no call are told by a line of usage."""
    status, told, errors = called("--help")
    assert (status, errors) == (0, "") and called("plan", "-h") == (status, told, errors), told
    for command in ("check", "plan", "eval", "alone", "run", "audit", "stat", "resume", "produce", "ensemble", "schedule",
                    "rehearse"):
        assert len(re.findall(rf"^{command} .*\S  +\w.*$", told, re.MULTILINE)) == 1, command
    for given in NO_CALLS:
        status, told, errors = called(*given)
        assert (status, told, errors.count("\n")) == (2, "", 1) and errors.startswith("usage: "), (given, errors)


def refusals(place):
    """A line and a status of each name in a request's place by each command, and of each record that isn't there; no trace."""
    (place / "misspelt.json").write_text((place / DIAMOND).read_text().replace("default_size", "defaultsize"))
    (place / "README.md").write_text("no JSON\n")
    (place / "docs").mkdir()
    others = {name: it for name, it in commands.COMMANDS.items() if name != "rehearse"}
    for command, it in others.items():
        more = ["README.md"] * ("RECORD" in it.form) + ["--workers=2"] * (command == "run")
        for name, (status, line) in (OF_ENSEMBLES if command == "ensemble" else REFUSED).items():
            assert commands.answer([command, name, *more], commands.world_of(place)) == (status, [line]), (command, name)
        if "RECORD" in it.form:
            for name, (status, line) in OF_RECORDS.items():
                told = commands.answer([command, DIAMOND, name], commands.world_of(place))
                assert told == (status, [line]), (command, name, told)
    for name, (status, line) in REFUSED.items():
        assert called("plan", name, place=place) == called("--folder", place, "plan", name) == (status, f"{line}\n", ""), name
    return len(others) * len(REFUSED)


def plans_texts(place):
    """A plan's text stands in the place of a request: a record is judged by what it says, and by workers below a number."""
    plan, record = place / "plan.txt", place / "run.txt"
    # (the very digest that is registered is no failure, but that stands in no plan)
    registered = hashlib.sha256((place / "examples/diamond/f.a").read_bytes()).hexdigest()
    plan.write_text(commands.text("plan", DIAMOND))
    changed = "grant 0 4\narrive 0 4 8", f"grant 2 4\nfail 2 4 checksum {registered}"
    record.write_text(commands.text("alone", DIAMOND).replace(*changed))
    for words, told in (([], "illegal 2"), (["--plan"], "illegal 3"), (["--plan", "--workers", "2"], "illegal 1")):
        request = "plan.txt" if words else DIAMOND
        assert called("audit", *words, request, "run.txt", place=place) == (0, f"verdict {told}\ndone\n", ""), words
    texts = {"": 1, "plan 1\ntask 0 run x\n": 2, "plan 1\norder 5\nclosed\n": 3, plan.read_text().replace("closed", ""): 30}
    for content, line in texts.items():
        plan.write_text(content)
        assert called("stat", "--plan", "plan.txt", "run.txt", place=place) == (8, f"bad plan {line}\n", ""), content


def closed_output(place):
    """Where nobody reads what is printed, that is no trace either."""
    words = f"{sys.executable} {HERE / 'tools/model'} plan {DIAMOND}; echo $? >&2"
    done = subprocess.run(["bash", "-c", f"({words}) | true"], cwd=place, capture_output=True, text=True, check=False)
    assert done.stderr in ("7\n", "0\n"), done.stderr


def main():
    count = sum(texts(command, least) for command, least in LEAST.items())
    assert (DIAMOND, "") in [it[:2] for it in pages.texts("plan")] and (DIAMOND, "") in [it[:2] for it in pages.texts("alone")]
    values()
    words()
    with tempfile.TemporaryDirectory() as work:
        judged = sum(judgements(page, folder(pathlib.Path(work, page.replace("/", "_")))) for page in pages.PAGES)
        place = folder(pathlib.Path(work, "words"))
        refused = refusals(place)
        plans_texts(place)
        closed_output(place)
    assert judged >= 6, judged
    print(f"model on the pages: ok, {count} texts, {judged} judgements and {refused} refusals")


main()
