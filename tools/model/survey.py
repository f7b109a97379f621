"""The documents that a request or an ensemble names, read in their order, and what `check` tells of them."""
from __future__ import annotations

import os
from dataclasses import dataclass, field

from .faults import Refused, Unread
from .graph import Graph, graph_of
from .reading import Place
from .tables import INLINED, KINDS, MOST_FILES, MOST_JOBS, at_most, files_of, read, read_tree
from .words import printed, some
from .workflow import Said, said

MOST_BYTES = 33_554_432


@dataclass
class Survey:
    """A request, the documents by their kinds, what they say together, the graph, and of each document the paths of the keys
    that aren't acted on; and the bytes of a record, where one was named."""

    request: dict
    documents: dict
    said: Said
    graph: Graph
    ignored: dict = field(default_factory=dict)
    record: bytes | None = None


def catalogue(kind, contents, workflow):
    """The one that the request names, else the workflow's own; without one of replicas there are none."""
    if kind in contents:
        return read(kind, contents[kind])
    inlined = workflow.get(INLINED[kind])
    if inlined is not None:
        return read_tree(Place(kind, f"/{INLINED[kind]}"), inlined)
    if kind != "replicas":
        raise Refused(f"catalogue {kind}")
    return {"replicas": []}, []


def survey_of(request, fetch, execute, record=None):
    """Reads what a request names, and looks at what follows from it, under these execution sites. A record is fetched after
    these documents, before any of them is read."""
    contents = {kind: fetch(request[kind]) for kind in KINDS if request.get(kind) is not None}
    recorded = None if record is None else fetch(record)
    found = {"workflow": read("workflow", contents["workflow"])}
    for kind in INLINED:
        found[kind] = catalogue(kind, contents, found["workflow"][0])
    documents = {kind: document for kind, (document, _) in found.items()}
    known = {site["name"] for site in documents["sites"]["sites"]}
    for site in execute:
        if site["site"] not in known:
            raise Refused(f"unknown site {printed(site['site'])}")
    told, ignored = said(documents), {kind: paths for kind, (_, paths) in found.items()}
    return Survey(request, documents, told, graph_of(told, request), ignored, recorded)


def survey(name, fetch, record=None):
    request, _ = read("request", fetch(name))
    return survey_of(request, fetch, request["execute"], record)


def survey_of_member(member, fetch, execute):
    content = fetch(member["request"])
    try:
        return survey_of(read("request", content)[0], fetch, execute)
    except Unread:
        raise
    except Refused as fault:
        raise Refused(f"member {printed(member['name'])} {fault}") from None


def surveys_of(ensemble, fetch):
    """The survey of each member of an ensemble under its name."""
    found = {it["name"]: survey_of_member(it, fetch, ensemble["execute"]) for it in ensemble["members"]}
    at_most("jobs", sum(len(it.said.workflow.jobs) for it in found.values()), MOST_JOBS)
    at_most("files", sum(len(it.said.workflow.files) for it in found.values()), MOST_FILES)
    return found


def folder_of(top):
    """Fetches documents in a folder."""
    def fetch(name):
        try:
            with open(os.path.join(top, name), "rb") as file:
                content = file.read(MOST_BYTES + 1)
        except FileNotFoundError:
            raise Unread(f"no document {printed(name)}") from None
        except (OSError, ValueError):
            raise Unread(f"document failed {printed(name)}") from None
        if len(content) > MOST_BYTES:
            raise Unread(f"document too long {printed(name)} {MOST_BYTES}")
        return content
    return fetch


def in_memory(documents, failing=()):
    """Fetches these documents, but where the number of the call is one that fails."""
    asked = []

    def fetch(name):
        asked.append(name)
        if len(asked) in failing:
            raise Unread(f"document failed {printed(name)}")
        if name not in documents:
            raise Unread(f"no document {printed(name)}")
        return documents[name]
    return fetch


def in_folder(top, name):
    """The survey of a request in a folder."""
    return survey(name, folder_of(top))


# The text of `check`


def site_lines(site):
    yield f"site {printed(site['name'])}"
    for directory in some(site.get("directories"), []):
        yield f"directory {printed(directory['type'])} {printed(some(directory.get('path'), ''))}"
        for server in some(directory.get("fileServers"), []):
            yield f"server {printed(server['operation'])} {printed(server['url'])}"


def lines(found):
    workflow = found.documents["workflow"]
    pairs = sum(len(pair["children"]) for pair in some(workflow.get("jobDependencies"), []))
    yield f"workflow {printed(workflow['name'])} {len(workflow['jobs'])} {len(files_of(workflow))} {pairs}"
    for site in found.documents["sites"]["sites"]:
        yield from site_lines(site)
    for kind in ("replicas", "transformations"):
        yield f"{kind} {len(found.documents[kind][kind])}"
    for kind in KINDS:
        for path in sorted(found.ignored[kind], key=str.encode):
            yield f"ignored {kind} {printed(path)}"
    yield "done"
