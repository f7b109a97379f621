"""The joint of an ensemble's members: each job, file and transformation under its member's name and a `/`."""
import os

from .graph import graph_of
from .survey import Survey, surveys_of
from .tables import INLINED, read, uses_of
from .words import some
from .workflow import declared_sizes, said


class Member:
    """A member's name and survey."""

    def __init__(self, name, survey):
        self.name, self.request, self.documents, self.workflow = name, survey.request, survey.documents, survey.said.workflow

    def under(self, name):
        return f"{self.name}/{name}"

    def entries(self, kind, key):
        return [{**entry, key: self.under(entry[key])} for entry in self.documents[kind][kind]]

    def jobs(self):
        for job in self.documents["workflow"]["jobs"]:
            uses = [{**use, "lfn": self.under(use["lfn"])} for use in uses_of(job)]
            yield {**job, "id": self.under(job["id"]), "name": self.under(job["name"]), "uses": uses}

    def pairs(self):
        for pair in some(self.documents["workflow"].get("jobDependencies"), []):
            yield {"id": self.under(pair["id"]), "children": [self.under(child) for child in pair["children"]]}

    def sizes(self):
        """The declared size of each file that has one."""
        sizes = zip(self.workflow.files, declared_sizes(self.workflow, self.request))
        return {self.under(file): size for file, size in sizes if size is not None}

    def tools(self):
        own = some(self.request.get("tools"), {})
        names = [job.transformation[1] for job in self.workflow.jobs]
        return {self.under(name): own.get(name, name) for name in names}


def documents_of(ensemble, surveys, folder):
    """The documents of the joint, whose request names them in a folder."""
    members = [Member(name, survey) for name, survey in surveys.items()]
    names = {name: os.path.join(folder, f"{name}.json") for name in ("workflow", *INLINED)}
    return {
        "workflow": {
            "pegasus": "5.0", "name": "joint", "jobs": [job for it in members for job in it.jobs()],
            "jobDependencies": [pair for it in members for pair in it.pairs()],
        },
        "sites": members[0].documents["sites"] if members else {"sites": []},
        "replicas": {"replicas": [entry for it in members for entry in it.entries("replicas", "lfn")]},
        "transformations": {"transformations": [entry for it in members for entry in it.entries("transformations", "name")]},
        "request": {
            **names, **{key: value for key, value in ensemble.items() if key != "members"},
            "sizes": {file: size for it in members for file, size in it.sizes().items()},
            "tools": {name: tool for it in members for name, tool in it.tools().items()},
        },
    }


def joint_of(name, fetch, folder="joint"):
    """The survey of an ensemble's joint."""
    ensemble, _ = read("ensemble", fetch(name))
    made = documents_of(ensemble, surveys_of(ensemble, fetch), folder)
    told = said(made)
    return Survey(made["request"], made, told, graph_of(told, made["request"]))
