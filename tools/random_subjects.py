"""What the model says of a request, for tools/random-workflows: its plan or the fault in its place, what each task comes to,
and how a record of it is judged.
"""
from __future__ import annotations

import functools
from dataclasses import dataclass

from model import judge, plan, survey
from model.engine import Failed, engine_of
from model.faults import Refused
from model.joint import joint_of as joint_survey_of
from model.store import Folder, Store
from model.words import text_of


def answer_of(found):
    """A status and lines as a status and a text."""
    status, lines = found
    return status, text_of(lines)


def tried(work, *words):
    """What comes of it, and the status and the text of the fault in its place."""
    try:
        return work(*words), None
    except Refused as refused:
        return None, answer_of(refused.answer())


@dataclass
class Outcome:
    """What a task comes to, whoever does it and whenever: the bytes of all that it brings, or how it fails."""

    brought: list | None = None
    failure: Failed | None = None


class Subject:
    """A request, or the joint of an ensemble, as the model sees it."""

    def __init__(self, place, survey, fault):
        self.place, self.survey, self.fault = place, survey, fault

    @functools.cached_property
    def planned(self):
        """The plan, or the fault in its place."""
        if self.fault:
            return None, self.fault
        return tried(plan.plan_of, self.survey)

    def engine(self, scratch=()):
        """An engine over the plan, or the fault in its place."""
        if self.planned[1]:
            return None, self.planned[1]
        return tried(engine_of, self.survey, Store(Folder(self.place), scratch=dict(scratch)))

    @functools.cached_property
    def outcomes(self):
        """Of each task by its number; of a removal, and of one that can't be reached, there is nothing."""
        made, _ = self.engine()
        found = {}
        for number in made.plan.order:
            task = made.plan.tasks[number]
            if task.removes or not all(found[parent] and found[parent].brought is not None for parent in task.after):
                found[number] = None
                continue
            try:
                made.do(number)
                found[number] = Outcome([self.brought(made, good) for good in task.goods()])
            except Failed as failed:
                found[number] = Outcome(failure=failed)
        return found

    @staticmethod
    def brought(made, good):
        place, file = good
        return made.arrived[file] if place == plan.OUT else made.store.scratch[made.site(place), made.name(file)]

    def judged(self, command, record, workers=judge.WORKERS):
        """The status and the text of `audit` or `stat` of a record."""
        if self.planned[1]:
            return self.planned[1]
        found, fault = tried(judge.told, command, self.planned[0], record.encode(), workers)
        return fault or answer_of(found)


def subject_of(place, name="request.json"):
    """The subject of a request in a folder."""
    return Subject(place, *tried(survey.in_folder, place, name))


def joint_of(place, name="ensemble.json"):
    """The subject of an ensemble in a folder: the joint of its members."""
    return Subject(place, *tried(joint_survey_of, name, survey.folder_of(place)))
