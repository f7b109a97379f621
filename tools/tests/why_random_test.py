"""What tools/why says over random workflows: before a run nothing is in the way exactly where the second engine's run ends with
`done`, and after one that failed exactly where the second `resume` does, but for jobs that decline their inputs or make too much,
which are seen in a run alone."""
import collections
import os
import pathlib
import random
import shutil
import sys
import tempfile

sys.dont_write_bytecode = True
sys.path.insert(0, "tools")
import beside
import documents
import findings
import random_calls
import random_documents
import random_jobs
import random_subjects
from model import commands
from model.store import file_name, sites_of
from model.words import text_of

why = beside.load("why")
COUNT = 250
IN_A_RUN = ("failed declined ", "failed oversize ")


def ended(place):
    """The last line of a run by the second engine, or the refusal in its place; and the engine, where there was a run."""
    subject = random_subjects.subject_of(place)
    made, fault = subject.engine(sites_of(place / "sites"))
    if fault:
        return fault[1].splitlines()[-1], None
    text = made.text(made.work())
    (place / "run.txt").write_text(text_of(text), encoding="utf-8")
    return text[-1], made


def looked(place, look, *words):
    before = os.getcwd()
    os.chdir(place)
    try:
        return look(*words)
    finally:
        os.chdir(before)


def is_wrong(found, last):
    is_free = findings.verdict(found) == "nothing in the way"
    return last == "done" if not is_free else last != "done" and not last.startswith(IN_A_RUN)


def compare_after(place, folder, made):
    """The same of a run that failed, whose files stand at the sites: as it is, and once the replicas are mended."""
    for (site, name), content in made.store.scratch.items():
        folder.put((site,), name, content)
    for mend in (lambda: None, folder.mend):
        mend()
        found = looked(place, why.look_after, "request.json", "run.txt")
        last = commands.answer(["resume", "request.json", "run.txt"], commands.world_of(place, sites_of(place / "sites")))[1][-1]
        if is_wrong(found, last):
            return last, list(findings.text(found))
    return None


def joint(made, place):
    """Writes the joint of an ensemble as its request, where its documents have no fault of their own."""
    subject = random_subjects.joint_of(place)
    if subject.fault:
        return False
    for name, document in subject.survey.documents.items():
        if name != "request":
            documents.write(place / "joint", name, document)
    names = {kind: f"joint/{kind}.json" for kind in ("workflow", "sites", "replicas", "transformations")}
    documents.write(place, "request", {**subject.survey.request, **names})
    return True


def compare(seed, number, work):
    """What the engine says last, and whether it is as it was foreseen; else why it isn't."""
    chance = random_jobs.Chance(f"{seed}/{number}")
    made = random_documents.made_of(chance)
    place = pathlib.Path(work, str(number))
    place.mkdir()
    folder = random_calls.Folder(None, place, made)
    if made.is_ensemble:
        (place / "joint").mkdir()
        if not joint(made, place):
            return None, True
    if chance.is_so(0.1) and (plan := random_subjects.subject_of(place).planned[0]):
        site = file_name(chance.choice(plan.sites)) if plan.sites else "none"
        (place / "sites" / site).mkdir(parents=True)
        (place / "sites" / site / "left").write_text("")
    found, (last, engine_made) = looked(place, why.look_before, "request.json"), ended(place)
    lines = list(findings.text(found))
    is_free, wrong = lines[-1] == "nothing in the way", is_wrong(found, last)
    if engine_made and engine_made.record and last != "done":
        after = compare_after(place, folder, engine_made)
        if after:
            return last, (seed, number, "after", last, *after)
    # The line with which the run ends is one of those that are told, with what each is about.
    told = [it.facts.get("line") for it in found if it.is_in_the_way]
    wrong = wrong or not is_free and last.startswith(("refused ", "exceeds ", "no document ", "failed absent ", "failed replica ", "failed checksum ")) and last not in told
    return last, not wrong or (seed, number, last, lines)


def main():
    seed = random.SystemRandom().randrange(2**31)
    kinds = collections.Counter()
    with tempfile.TemporaryDirectory() as work:
        for number in range(COUNT):
            last, is_alike = compare(seed, number, work)
            assert is_alike is True, is_alike
            if last is not None:
                kinds[" ".join(last.split(" ")[:2])] += 1
            shutil.rmtree(pathlib.Path(work, str(number)))
    in_a_run = sum(count for kind, count in kinds.items() if f"{kind} " in IN_A_RUN)
    assert kinds["done"] > COUNT // 4 and sum(kinds.values()) - kinds["done"] > COUNT // 20, kinds
    if len(sys.argv) > 1:
        print(dict(kinds))
    print(f"why over random workflows: ok, {sum(kinds.values())} of seed {seed}, {kinds['done']} done, {in_a_run} declined or too long in a run")


main()
