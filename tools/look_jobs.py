"""Which jobs are run and which are dropped, and why, for tools/why and tools/report."""
from __future__ import annotations

import names
from findings import in_the_way, note
from model.transformations import TOOLS, unknown_tools
from model.words import printed

plain = names.plain


def titled(job):
    """A job by its id and its transformation."""
    return f"{plain(job.id)} ({plain(job.transformation[1])})"


def wanted_files(workflow, kept):
    """Of each file that is wanted by whom: it is requested, or the first kept job reads it."""
    found = dict.fromkeys(workflow.requested, "requested")
    for job, is_kept in zip(workflow.jobs, kept):
        for file in job.inputs if is_kept else ():
            found.setdefault(file, f"read by {plain(job.id)}")
    return found


def reason(workflow, wanted, places, outputs):
    """Why a job is dropped: of each file that it makes who wants it, and where it is registered."""
    if not outputs:
        return "it makes no file"
    said = [f"{plain(workflow.files[file])} is {wanted[file]}, and registered at {plain(places[file][0]['pfn'])}"
            for file in outputs if file in wanted]
    rest = [plain(workflow.files[file]) for file in outputs if file not in wanted]
    if rest:
        said.append(f"{names.listed(rest)} {'is' if len(rest) == 1 else 'are'} not requested, and no job that is run reads {'it' if len(rest) == 1 else 'them'}")
    return "; ".join(said)


def dropped(workflow, kept, places):
    """Each job that is dropped, with the reason."""
    wanted = wanted_files(workflow, kept)
    return [(number, reason(workflow, wanted, places, workflow.jobs[number].outputs))
            for number, is_kept in enumerate(kept) if not is_kept]


def of_jobs(workflow, kept, places):
    """That nothing is requested, and the jobs that aren't run."""
    if workflow.jobs and not workflow.requested:
        yield note("requested", "nothing is requested: no output is staged out, so no job is run, other than in Pegasus",
                   "an output without \"stageOut\": false is requested")
    for number, why in dropped(workflow, kept, places):
        job = workflow.jobs[number]
        yield note("dropped", f"not run: {titled(job)}: {why}", job=number, id=job.id, transformation=job.transformation[1], reason=why)


def of_tools(workflow, kept, tools):
    """The transformations of jobs that are run whose tool is none of the twelve, each with its jobs."""
    found = {}
    for place in unknown_tools(tools, kept):
        found.setdefault((workflow.jobs[place].transformation[1], tools[place]), []).append(workflow.jobs[place])
    all_of_them = f"the request's tools name one for it: {', '.join(sorted(TOOLS))}"
    for place, ((name, tool), jobs) in enumerate(found.items()):
        said = f"the tool {plain(tool)} of {plain(name)}" if tool != name else plain(name)
        near = names.near(tool, sorted(TOOLS))
        yield in_the_way("tool", f"{said} is none of the twelve tools: {names.listed(plain(job.id) for job in jobs)}",
                         f"{near}?" if near else "", "" if place else all_of_them,
                         line=f"refused tool {printed(jobs[0].id)} {printed(tool)}",
                         transformation=name, tool=tool, jobs=[job.id for job in jobs])
