"""Calls of the program over one workflow, for tools/random-workflows, and what has to come of a run whose record isn't known
beforehand.
"""
from __future__ import annotations

import os
import pathlib
import shutil
import subprocess
from dataclasses import dataclass, field

from model.record import read_record
from model.store import file_name, files_of, sites_of
from model.transformations import digest_of
from model.words import printed

# A call that hasn't ended after so many seconds isn't waited for.
LONGEST = 600


class Differs(Exception):
    """What a call came to, and what it should have come to."""


@dataclass
class Told:
    """How a call ended, and what stands in its folder then."""

    words: list
    status: int
    text: str
    delivered: dict = field(default_factory=dict)
    sites: dict = field(default_factory=dict)
    drafts: list = field(default_factory=list)

    def parts(self):
        """The record with its last line, and the lines after it; nothing where there is no record."""
        if not self.text.startswith("record ") or "closed\n" not in self.text:
            return None
        record, rest = self.text.split("closed\n", 1)
        return record + "closed\n", rest.splitlines()


class Folder:
    """Calls of the program in a folder with the documents and replicas of a workflow."""

    def __init__(self, program, place, made):
        self.program, self.place, self.made, self.calls = program, pathlib.Path(place), made, 0
        for name, content in {**made.documents, **made.replicas}.items():
            (self.place / name).parent.mkdir(parents=True, exist_ok=True)
            (self.place / name).write_bytes(content)
        for name in made.folders:
            (self.place / name).mkdir(parents=True, exist_ok=True)

    def exchange(self, before, after):
        """Puts documents in the place of others."""
        for name in before:
            (self.place / name).unlink(missing_ok=True)
        for name, content in after.items():
            (self.place / name).write_bytes(content)

    def mend(self):
        """Puts there what ought to stand at the replicas that are missing or wrong."""
        for name, content in self.made.mended.items():
            if name in self.made.folders:
                (self.place / name).rmdir()
            (self.place / name).parent.mkdir(parents=True, exist_ok=True)
            (self.place / name).write_bytes(content)

    def spoil(self):
        """Makes these as they were."""
        for name in self.made.mended:
            (self.place / name).unlink()
            if name in self.made.folders:
                (self.place / name).mkdir()
            elif name in self.made.replicas:
                (self.place / name).write_bytes(self.made.replicas[name])

    def call(self, *words, **environment):
        words = [str(word) for word in words]
        around = {**os.environ, **environment}
        done = subprocess.run([self.program, *words], cwd=self.place, stdout=subprocess.PIPE, stderr=subprocess.DEVNULL,
                              env=around, timeout=LONGEST, check=False)
        self.calls += 1
        stated = [f"{key}={value}" for key, value in environment.items() if os.environ.get(key) != value]
        drafts = sorted(it.name for it in self.place.glob(".pegasus.part.*"))
        left = files_of(self.place / "output"), sites_of(self.place / "sites")
        return Told(stated + words, done.returncode, done.stdout.decode("utf-8", "surrogateescape"), *left, drafts)

    def clear(self):
        """Takes away what a run left."""
        for name in ("output", "sites"):
            shutil.rmtree(self.place / name, ignore_errors=True)
        for draft in self.place.glob(".pegasus.part.*"):
            draft.unlink()

    def fresh(self, *words, **environment):
        self.clear()
        return self.call(*words, **environment)

    def put(self, folder, name, content):
        """A file as the program would have written it."""
        path = self.place.joinpath("sites" if folder else "output", *map(file_name, (*folder, name)))
        path.parent.mkdir(parents=True, exist_ok=True)
        path.write_bytes(content)


def want(told, what, found, wanted):
    if found != wanted:
        raise Differs(f"{' '.join(told.words)}: {what} {found!r}, and by the model {wanted!r}")


def want_answer(told, wanted, delivered=None, sites=None):
    """A call has to end just so and to leave just that; nothing where it is no run."""
    want(told, "status and text", (told.status, told.text), wanted)
    want(told, "delivered files", told.delivered, delivered or {})
    want(told, "files at sites", told.sites, sites or {})
    want(told, "drafts", told.drafts, [])


# A run whose record isn't known beforehand


class Entries:
    """The entries of a run's record, compared with what its tasks come to."""

    def __init__(self, told, subject):
        self.told, self.outcomes, self.plan = told, subject.outcomes, subject.planned[0]
        self.delivered, self.sites, self.by_chance = {}, {}, 0

    def site(self, number):
        return self.plan.sites[number]

    def name(self, file):
        return self.plan.files[file]

    def bring(self, task, brought):
        if task.is_delivery():
            self.delivered[task.moved[0]] = brought[0]
        for (site, file), data in zip(task.writes, brought):
            self.sites[self.site(site), self.name(file)] = data

    def ends(self, number, sizes):
        """What a task brought has to be as long as what it comes to."""
        outcome = self.outcomes[number]
        brought = outcome.brought if outcome else None
        want(self.told, f"sizes of task {number}", sizes, brought and [len(data) for data in brought])
        self.bring(self.plan.tasks[number], brought)

    def fails(self, number, cause, may_fail):
        """A failure has to be the task's own, or of the host where its calls may fail; what it had written is there."""
        outcome = self.outcomes[number]
        if outcome and outcome.failure and cause == outcome.failure.entry.split(" "):
            return
        is_host = may_fail and cause[0] == "hostfailed"
        want(self.told, f"failure {cause} of task {number} to come", is_host, True)
        self.by_chance += 1
        sizes = [int(size) for size in cause[1:]]
        brought = ((outcome and outcome.brought) or [])[:len(sizes)]
        want(self.told, f"sizes of task {number}, which failed", sizes, [len(data) for data in brought])
        if sizes:
            self.bring(self.plan.tasks[number], brought)

    def enter(self, words, may_fail):
        kind, _, number, *more = words
        if kind in ("arrive", "end"):
            self.ends(int(number), [int(size) for size in more])
        elif kind in ("fail", "again"):
            self.fails(int(number), more, may_fail)
        elif kind == "clean":
            site, file = self.plan.tasks[int(number)].removes
            want(self.told, "a removed file to be there", (self.site(site), self.name(file)) in self.sites, True)
            del self.sites[self.site(site), self.name(file)]

    def last_line(self, entries):
        """The one of the first failure."""
        first = next((words for words in entries if words[0] == "fail"), None)
        if first is None:
            return "done"
        outcome = self.outcomes[int(first[2])]
        is_own = outcome and outcome.failure and first[3:] == outcome.failure.entry.split(" ")
        return f"failed {outcome.failure.outcome}" if is_own else f"failed host {first[2]}"

    def rest(self, entries):
        """The lines after the record."""
        for file, data in sorted(self.delivered.items()):
            yield f"delivered {printed(self.name(file))} {len(data)} {digest_of(data)}"
        yield self.last_line(entries)


def want_run(told, subject, workers, may_fail=False):
    """A run by so many workers has to have a record that is legal and true, and to leave what it says. Returns how many
    failures in it aren't its tasks' own."""
    _, fault = subject.engine()
    if fault:
        want_answer(told, fault)
        return 0
    if told.parts() is None:
        want(told, "status and text", (told.status, told.text), "those of a run")
    record, rest = told.parts()
    entries, found = read_record(record.encode()), Entries(told, subject)
    for words in entries:
        found.enter(words, may_fail)
    want(told, "lines after the record", rest, list(found.rest(entries)))
    is_done = rest[-1] == "done"
    want(told, "status", told.status, 0 if is_done else 6)
    want(told, "verdict", subject.judged("audit", record, workers)[1], f"verdict {'complete' if is_done else 'legal'}\ndone\n")
    want(told, "delivered files", told.delivered, {found.name(file): data for file, data in found.delivered.items()})
    want(told, "files at sites", told.sites, found.sites)
    want(told, "a draft", bool(told.drafts) and not may_fail, False)
    return found.by_chance
