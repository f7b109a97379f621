"""What requested files are worth, whatever plans there may be."""
from .faults import FailedAtWork, Refused
from .graph import producers
from .store import UNREADABLE
from .transformations import Declined, apply, digest_of, refuse_tools, tools_of
from .words import printed


def base(name, pfn, wanted, replicas):
    """What stands at the first place of a file that no job makes."""
    data = replicas.get(pfn)
    if data is UNREADABLE:
        raise FailedAtWork("host -")
    if data is None:
        raise FailedAtWork(f"absent {printed(name)} {printed(pfn)}")
    got = digest_of(data)
    if wanted not in (None, got):
        raise FailedAtWork(f"checksum {printed(name)} {wanted} {got}")
    return data


def bases(survey, tools, replicas):
    """The bytes of each file that no job makes, by number; before any is read, each has to be registered."""
    said, made = survey.said, producers(survey.said.workflow)
    needed = [(file, name) for file, name in enumerate(said.workflow.files) if file not in made]
    for file, name in needed:
        if file not in said.places:
            raise Refused(f"replica {printed(name)}")
    refuse_tools(said.workflow, tools)
    return {file: base(name, said.places[file][0]["pfn"], said.sums.get(file), replicas) for file, name in needed}


def evaluated(survey, replicas):
    """The bytes of each file, as far as they are there, and the jobs that make nothing of their inputs. Each job comes after
    its parents; one of which an input isn't there makes nothing either."""
    workflow, tools = survey.said.workflow, tools_of(survey.request, survey.said.workflow)
    found, declining = bases(survey, tools, replicas), []
    for number in survey.graph.order:
        job = workflow.jobs[number]
        if all(file in found for file in job.inputs):
            try:
                made = apply(tools[number], job.arguments, [found[file] for file in job.inputs], len(job.outputs))
            except Declined:
                declining.append(number)
                continue
            found.update(zip(job.outputs, made))
    return found, declining


def lines(survey, replicas):
    """The text of `eval`. Where several jobs make nothing it names the first one that it comes to."""
    workflow, (found, declining) = survey.said.workflow, evaluated(survey, replicas)
    if declining:
        raise FailedAtWork(f"declined {printed(workflow.jobs[declining[0]].id)}")
    for file in sorted(workflow.requested):
        yield f"value {printed(workflow.files[file])} {len(found[file])} {digest_of(found[file])}"
    yield "done"
