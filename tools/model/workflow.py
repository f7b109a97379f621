"""What documents say of jobs and files: these have numbers, as they first appear."""
from __future__ import annotations

from dataclasses import dataclass

from .tables import uses_of
from .words import some


@dataclass
class Job:
    id: str
    transformation: tuple
    arguments: list
    inputs: list
    outputs: list
    profile: dict
    pinned: str | None


@dataclass
class Workflow:
    name: str
    jobs: list
    files: list
    requested: set
    stated_sizes: dict
    pairs: list


def read_job(job, number_of):
    uses, profiles = uses_of(job), some(job.get("profiles"), {})
    return Job(
        id=job["id"],
        transformation=(job.get("namespace"), job["name"], job.get("version")),
        arguments=[str(argument) for argument in some(job.get("arguments"), [])],
        inputs=[number_of[use["lfn"]] for use in uses if use["type"] == "input"],
        outputs=[number_of[use["lfn"]] for use in uses if use["type"] == "output"],
        profile=some(profiles.get("pegasus"), {}),
        pinned=some(profiles.get("selector"), {}).get("execution.site"),
    )


def read_workflow(document):
    """Files are numbered as they first appear, jobs by their places."""
    uses = [use for job in document["jobs"] for use in uses_of(job)]
    number_of, sizes = {}, {}
    for use in uses:
        number_of.setdefault(use["lfn"], len(number_of))
        if use.get("size") is not None:
            sizes.setdefault(number_of[use["lfn"]], use["size"])
    jobs = [read_job(job, number_of) for job in document["jobs"]]
    place = {job.id: at for at, job in enumerate(jobs)}
    stated = some(document.get("jobDependencies"), [])
    return Workflow(
        name=document["name"],
        jobs=jobs,
        files=list(number_of),
        requested={number_of[u["lfn"]] for u in uses if u["type"] == "output" and some(u.get("stageOut"), True)},
        stated_sizes=sizes,
        pairs=[(place[first["id"]], place[child]) for first in stated for child in first["children"]],
    )


def places_of(entries, files):
    """The places where each file is registered, of all entries of it."""
    number_of = {name: number for number, name in enumerate(files)}
    places = {}
    for entry in entries:
        if entry["lfn"] in number_of and entry["pfns"]:
            places.setdefault(number_of[entry["lfn"]], []).extend(entry["pfns"])
    return places


def sums_of(entries, files):
    """The first checksum that is registered for each file."""
    number_of, sums = {name: number for number, name in enumerate(files)}, {}
    for entry in entries:
        digits = some(entry.get("checksum"), {}).get("sha256")
        if digits is not None and entry["lfn"] in number_of:
            sums.setdefault(number_of[entry["lfn"]], digits.lower())
    return sums


def declared_sizes(workflow, request):
    given = some(request.get("sizes"), {})
    return [given.get(name, workflow.stated_sizes.get(file, request.get("default_size")))
            for file, name in enumerate(workflow.files)]


@dataclass
class Said:
    """What the documents say together: the workflow, the transformations, and of each file its places and its checksum."""

    workflow: Workflow
    entries: dict
    places: dict
    sums: dict


def said(documents):
    workflow, replicas = read_workflow(documents["workflow"]), documents["replicas"]["replicas"]
    transformations = documents["transformations"]["transformations"]
    entries = {(it.get("namespace"), it["name"], it.get("version")): it for it in transformations}
    return Said(workflow, entries, places_of(replicas, workflow.files), sums_of(replicas, workflow.files))
