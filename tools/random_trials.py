"""What tools/random-workflows compares: each command of the program over one random workflow, with what the model says of it,
and what each leaves in its folder.
"""
from __future__ import annotations

import json
import re
import shutil

import random_documents
import random_jobs
import random_plays
import random_records
import random_spelling
from model import commands, evaluation
from model.store import Folder, files_of, sites_of
from model.words import printed, text_of
from random_calls import want, want_answer, want_run
from random_subjects import answer_of, joint_of, subject_of

RECORD = "record.json"
WORKERS = (1, 2, 4, 16)
# What is done with a workflow, and how often.
STEPS = (("rehearses", 0.01), ("spoils", 0.5), ("reads", 1), ("alone", 1), ("many", 1), ("judges", 0.6), ("plays", 0.4),
         ("produces", 0.4), ("fails", 0.4), ("fails_once", 0.25), ("reads_failing", 0.15), ("goes_on_from_its_own", 1))
OF_ALL = ("rehearses", "spoils", "reads", "reads_failing", "alone", "many")
OF_REQUESTS = ("reads", "reads_failing", "judges", "plays", "produces")
OF_FAILING_CALLS = ("fails", "fails_once", "reads_failing")
# How the text of a run begins.
FIRST = ("record 1\n", "record 2\n")


class Trial:
    """One random workflow, its commands one after the other."""

    def __init__(self, folder, made, key, failing):
        self.folder, self.made, self.key, self.failing = folder, made, key, failing
        self.chance = random_jobs.Chance(key)
        self.subject = (joint_of if made.is_ensemble else subject_of)(folder.place)
        self.kinds, self.texts = [], []

    def said(self, *words, scratch=()):
        """What the model answers to a call in the folder, and the store with what it did."""
        world = commands.world_of(self.folder.place, scratch)
        return answer_of(commands.answer(words, world)), world.store

    def runs(self, workers=None):
        """The words of a run by one worker without threads, or by several."""
        words = ["ensemble", "ensemble.json"] if self.made.is_ensemble else ["alone" if workers is None else "run", "request.json"]
        if workers is None:
            return words
        stated = self.chance.choice((["--workers", str(workers)], [f"--workers={workers}"]))
        return [words[0], *stated, words[1]] if self.chance.is_so(0.3) else [*words, *stated]

    def reads(self):
        """What only reads documents, and replicas for the values."""
        self.folder.clear()
        for command in ("check", "plan", *["schedule"] * self.chance.is_so(0.5)):
            want_answer(self.folder.call(command, "request.json"), self.said(command, "request.json")[0])
        if self.chance.is_so(0.5):
            self.values()

    def is_of_document(self, text):
        """Whether a text says that a document couldn't be read. A request may have a slash twice in its path."""
        return re.sub("/+", "/", text) in {f"document failed {printed(name)}\n" for name in self.made.documents}

    def reads_failing(self):
        """The same where one call of the system fails."""
        command = self.chance.choice(("check", "plan", "schedule", "eval"))
        told = self.folder.fresh(command, "request.json", **self.failing.one(self.chance))
        is_of_host = command == "eval" and told.text == "failed host -\n"
        if told.status in (3, 6) and (is_of_host or self.is_of_document(told.text)):
            want(told, "status", told.status, 6 if is_of_host else 3)
            want(told, "files", (told.delivered, told.sites), ({}, {}))
        elif command != "eval":
            status, text = self.said(command, "request.json")[0]
            want_answer(told, (7, text[:len(told.text)]) if told.status == 7 else (status, text))
        self.kinds.append("reading under a failing call")

    def spoils(self):
        """Documents with a fault, or what looks like one, one after the other in the place of those that there are."""
        for _ in range(3):
            spoiled = random_documents.Made(documents=dict(self.made.documents))
            random_spelling.spoil_documents(self.chance, spoiled)
            self.folder.exchange(self.made.documents, spoiled.documents)
            if self.made.is_ensemble:
                fault = joint_of(self.folder.place).engine()[1]
                if fault:
                    want_answer(self.folder.fresh("ensemble", "ensemble.json"), fault)
            else:
                want_answer(self.folder.fresh("check", "request.json"), self.said("check", "request.json")[0])
            self.folder.exchange(spoiled.documents, self.made.documents)
            self.kinds.append("spoiled documents")

    def values(self):
        """Where several jobs make nothing of their inputs, any of them may be named of which no other one stands before."""
        told, (status, text) = self.folder.call("eval", "request.json"), self.said("eval", "request.json")[0]
        if text.startswith("failed declined ") and told.text.startswith("failed declined "):
            found = self.subject.survey
            _, declining = evaluation.evaluated(found, Folder(self.folder.place))
            named = {f"failed declined {printed(found.said.workflow.jobs[number].id)}\n" for number in declining}
            text = told.text if told.text in named else text
        want_answer(told, (status, text))

    def alone(self):
        """One worker, whose text is known."""
        made, fault = self.subject.engine()
        if fault:
            want_answer(self.folder.fresh(*self.runs()), fault)
            return
        self.folder.clear()
        before = {"of an earlier run": b"older"} if self.chance.is_so(0.1) else {}
        if before:
            requested = [made.name(file) for file in sorted(made.plan.workflow.requested)]
            before.update(dict.fromkeys(self.chance.some(requested, 0, 3), b"older"))
        for name, content in before.items():
            self.folder.put((), name, content)
        if made.plan.sites and self.chance.is_so(0.03):
            place = made.site(self.chance.randrange(len(made.plan.sites))), "left"
            made.store.scratch[place] = b"left"
            self.folder.put(place[:1], place[1], b"left")
        failed = made.work()
        told = self.folder.call(*self.runs())
        delivered = {**before, **made.store.delivered}
        want_answer(told, (6 if failed else 0, text_of(made.text(failed))), delivered, made.store.scratch)
        self.kinds.append("alone " + (failed or "done").split(" ")[0])
        self.texts.append(told.text)

    def many(self):
        """Several workers: what comes is true and legal, and the same is delivered where all is done."""
        workers = self.chance.choice(WORKERS)
        around = self.failing.lingering(self.chance) if self.failing and self.chance.is_so(0.5) else {}
        told = self.folder.fresh(*self.runs(workers), **around)
        want_run(told, self.subject, workers)
        if told.parts() is not None:
            self.kinds.append("run " + ("done" if told.status == 0 else "failed"))
            self.kinds.extend(["run with a fresh order"] * ("\nregrant " in told.text))
            self.texts.append(told.text)

    def produces(self):
        told, ((status, text), store) = self.folder.fresh("produce", "request.json"), self.said("produce", "request.json")
        want_answer(told, (status, text), store.delivered, store.scratch)
        self.kinds.append("produce")
        if status == 0 and self.chance.is_so(0.5):
            self.uses_produced(text)

    def uses_produced(self, catalogue):
        """What was delivered, registered for a second request of the same workflow, in the same folder."""
        place = self.folder.place
        shutil.rmtree(place / "sites", ignore_errors=True)
        (place / "produced.json").write_text(catalogue)
        (place / "second.json").write_text(json.dumps({**self.subject.survey.request, "replicas": "produced.json"}))
        before, ((status, text), store) = files_of(place / "output"), self.said("alone", "second.json")
        want_answer(self.folder.call("alone", "second.json"), (status, text), {**before, **store.delivered}, store.scratch)
        self.kinds.append("alone of what was produced " + {0: "done", 6: "failed"}.get(status, "refused"))

    def judges(self):
        """A record as it was printed, and one that was changed, judged and summed up."""
        text = self.chance.choice(self.texts)
        self.folder.clear()
        for record in (text, random_records.changed(self.chance, text)):
            self.judge(record)
        if self.chance.is_so(0.3):
            self.resumes("changed")

    def judge(self, record):
        """One record, by both commands."""
        (self.folder.place / RECORD).write_bytes(record.encode("utf-8", "surrogateescape"))
        for command in ("audit", "stat"):
            want_answer(self.folder.call(command, "request.json", RECORD), self.subject.judged(command, record))
        self.kinds.append("audit")

    def plays(self):
        """The same with the record of a run that nobody ran; where its files are short enough it is gone on with."""
        self.folder.clear()
        play = random_plays.played(self.chance, self.subject.planned[0])
        self.kinds.extend(["audit with a fresh order"] * any(entry.startswith("regrant ") for entry in play.entries))
        self.judge(random_records.changed(self.chance, play.text()))
        self.judge(play.text())
        stored, plan = play.state.stored(), self.subject.planned[0]
        if sum(stored.values()) < 10**6:
            for (site, file), length in stored.items():
                content = (b"1\n2\n" * length)[:length]
                self.folder.put((plan.sites[site],), plan.files[file], content)
            self.resumes("played")

    def resumes(self, kind):
        """Goes on from the record that stands in the folder and what is at the sites: the text is known."""
        place = self.folder.place
        words, before = ("resume", "request.json", RECORD), files_of(place / "output")
        said, store = self.said(*words, scratch=sites_of(place / "sites"))
        told = self.folder.call(*words)
        told.drafts = []
        want_answer(told, said, {**before, **store.delivered}, store.scratch)
        self.kinds.append(f"resume {kind} {said[1].splitlines()[-1].split(' ')[0]}")
        return told

    def goes_on(self, told, kind):
        """From a run that failed, by `resume`: as it is, with the replicas mended, or where a file was changed."""
        if told.parts() is None or told.status != 6 or self.made.is_ensemble:
            return
        (self.folder.place / RECORD).write_text(told.text)
        if told.sites and self.chance.is_so(0.1):
            place = self.chance.choice(sorted(told.sites))
            self.folder.put(place[:1], place[1], told.sites[place] + b"more")
            kind = "spoiled"
        is_mended, whole = self.chance.is_so(0.8), self.subject
        if is_mended:
            self.folder.mend()
        if self.chance.is_so(0.1):
            self.ask_otherwise()
            self.ends_by_resume("asked otherwise")
            (self.folder.place / "request.json").write_bytes(self.made.documents["request.json"])
        elif not (self.failing and self.chance.is_so(0.3)) or self.is_stopped_again():
            self.ends_by_resume(kind)
        if is_mended:
            self.folder.spoil()
        self.subject = whole

    def ask_otherwise(self):
        """The request is another one than that of the run."""
        request = dict(self.subject.survey.request)
        key = self.chance.choice(("retries", "fresh", "default_size", "execute", "cleanup"))
        request[key] = {
            "retries": self.chance.randint(0, 3), "fresh": self.chance.is_so(0.5), "default_size": self.chance.randint(0, 100),
            "cleanup": self.chance.choice(("none", "inplace")),
            "execute": [{**site, "bound": site["bound"] + self.chance.randint(0, 9)} for site in request["execute"]],
        }[key]
        (self.folder.place / "request.json").write_text(json.dumps(request))
        self.subject = subject_of(self.folder.place)

    def ends_by_resume(self, kind):
        told = self.resumes(kind)
        if told.status == 0:
            (self.folder.place / RECORD).write_text(told.text)
            for command in ("audit", "stat"):
                judged = self.folder.call(command, "request.json", RECORD)
                want(judged, "verdict", (judged.status, judged.text), self.subject.judged(command, told.text))
            want(told, "verdict", self.subject.judged("audit", told.text), (0, "verdict complete\ndone\n"))

    def is_stopped_again(self):
        """A `resume` under a failing call, and whether there is something to go on with after it."""
        told = self.resumes_failing()
        # (where a look at the start failed, nothing was done, and the same record is handed in again)
        if told.status == 6 and told.parts() is not None and not told.text.startswith("record 1\nclosed\n"):
            (self.folder.place / RECORD).write_text(told.text)
        return told.status in (3, 6)

    def resumes_failing(self):
        """A call of the system of a `resume` fails: its record is legal all the same."""
        told = self.folder.call("resume", "request.json", RECORD, **self.failing.one(self.chance))
        if told.parts() is not None and told.status in (0, 6):
            verdict = self.subject.judged("audit", told.parts()[0])[1]
            want(told, "verdict", verdict, f"verdict {'legal' if told.status else 'complete'}\ndone\n")
        self.kinds.append("resume under a failing call")
        return told

    def fails(self):
        """Calls of the store fail by chance: as many failures are told as calls failed, and the rest is as it should be."""
        workers = self.chance.choice((None, *WORKERS))
        around, count = self.failing.several(self.chance)
        told = self.folder.fresh(*self.runs(workers), **around)
        by_chance = want_run(told, self.subject, workers or 1, may_fail=True)
        if not self.made.folders:
            want(told, "failures told", by_chance, count())
        self.kinds.append("failing " + ("done" if told.status == 0 else "failed"))
        self.goes_on(told, "failing")

    def fails_once(self):
        """One call of the system fails, whichever it is."""
        workers = self.chance.choice((None, *WORKERS))
        told = self.folder.fresh(*self.runs(workers), **self.failing.one(self.chance))
        self.kinds.append(f"one call failing {told.status}")
        if told.status == 3 and self.is_of_document(told.text):
            want(told, "delivered files", told.delivered, {})
        elif told.status == 7:
            is_front = any(it.startswith(told.text[:8]) for it in FIRST) or told.text.startswith(("refused ", "exceeds "))
            want(told, "the beginning of a text", is_front, True)
        elif told.status == 6 and told.text == "record 1\nclosed\nfailed host -\n":
            want(told, "files", (told.delivered, told.sites), ({}, {}))
            self.goes_on(told, "failing")
        else:
            want_run(told, self.subject, workers or 1, may_fail=True)
            self.goes_on(told, "failing")

    def rehearses(self):
        """A rehearsal tells what a run of the same workflow comes to."""
        images, workers = self.chance.randint(2, 8), self.chance.choice((None, *WORKERS))
        words = ["rehearse", str(images), *([] if workers is None else ["--workers", str(workers)])]
        want_answer(self.folder.fresh(*words), self.said(*words)[0])
        self.kinds.append("rehearse")

    def may(self, step):
        """Whether there is something to do it with."""
        if step in OF_REQUESTS and self.made.is_ensemble:
            return False
        if step in OF_FAILING_CALLS and not self.failing:
            return False
        return step in OF_ALL or self.subject.engine()[1] is None

    def run(self):
        """All of it, or what chance takes of it: for each step its own, so that one is repeated whatever came before."""
        for step, share in STEPS:
            self.chance = random_jobs.Chance(f"{self.key} {step}")
            if self.chance.is_so(share) and self.may(step):
                getattr(self, step)()

    def goes_on_from_its_own(self):
        """A run that fails without any failing call, gone on with."""
        if not any(it and it.failure for it in self.subject.outcomes.values()):
            return
        workers = self.chance.choice((None, *WORKERS))
        told = self.folder.fresh(*self.runs(workers))
        want_run(told, self.subject, workers or 1)
        self.goes_on(told, "failed")


def tried(folder, made, key, failing):
    """Tries a workflow, whose chance is that of a key, and returns what was done with it."""
    trial = Trial(folder, made, key, failing)
    trial.run()
    return trial.kinds
