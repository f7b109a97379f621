"""The tables of docs/FORMATS.md: the keys of each document in the order of their reading, and what needs the whole of it."""
import re

from .faults import Refused
from .reading import (AnObject, Each, Place, Row, absent, empty, is_flag, is_text, keys_of, like, members, objects, one_of,
                      parsed, read_object, within)
from .words import printed, some

MOST_SIZE, MOST_BOUND = 2**40, 2**60
MOST_JOBS, MOST_FILES, MOST_SITES, MOST_MEMBERS = 10_000, 50_000, 64, 64
INLINED = {"sites": "siteCatalog", "replicas": "replicaCatalog", "transformations": "transformationCatalog"}
KINDS = ("workflow", *INLINED)


def version(place, value):
    if re.fullmatch(r"5\.0(\.[0-9]+)?", value) is None:
        raise Refused(f"{place.document} version {printed(value)}")


def argument(place, value):
    """A text or a whole number; another number is left out."""
    if isinstance(value, float):
        place.refuse("unsupported", "number")
    if not is_text(value) and (is_flag(value) or not isinstance(value, int)):
        place.refuse("kind")


PROFILES = AnObject([
    Row("pegasus", "object", read=AnObject([
        Row("label", "text"), Row("clusters.size", "digits"), Row("clusters.num", "digits")])),
    Row("selector", "object", read=AnObject([Row("execution.site", "text")])),
])
USE = [
    Row("lfn", "name", True), Row("type", "text", True, one_of("input", "output")),
    Row("stageOut", "flag"), Row("registerReplica", "flag"), Row("size", "number", read=within(MOST_SIZE)),
]
JOB = [
    Row("type", "text", True, one_of("job")), Row("id", "name", True), Row("name", "name", True),
    Row("namespace", "text"), Row("version", "text"), Row("arguments", "list", read=Each("any", argument)),
    Row("uses", "list", read=objects(USE)), Row("profiles", "object", read=PROFILES),
]
DIRECTORY = [
    Row("type", "text", True), Row("path", "text"),
    Row("fileServers", "list", read=objects([Row("operation", "text", True), Row("url", "text", True)])),
]
REPLICA = [
    Row("lfn", "name", True), Row("pfns", "list", True, objects([Row("site", "name", True), Row("pfn", "name", True)])),
    Row("checksum", "object", read=AnObject([Row("sha256", "text", read=like("[0-9a-fA-F]{64}"))])),
    Row("regex", "flag", read=empty("regex")),
]
TRANSFORMATION = [
    Row("name", "name", True), Row("namespace", "text"), Row("version", "text"),
    Row("sites", "list", read=objects([
        Row("name", "name", True), Row("pfn", "text", True), Row("type", "text", True, one_of("installed", "stageable")),
        Row("container", "any", read=absent("container"))])),
    Row("requires", "list", read=empty("requires")), Row("profiles", "object", read=PROFILES),
]
EXECUTE = Row("execute", "list", True, objects([Row("site", "name", True), Row("bound", "number", True, within(MOST_BOUND))]))
OF_ALL = [
    Row("cluster", "text", read=one_of("none", "horizontal", "label")),
    Row("cleanup", "text", read=one_of("inplace", "constraint", "none")), Row("force", "flag"),
]
POLICY = [
    Row("retries", "number", read=within(10)), Row("fresh", "flag"), Row("output_bound", "number", read=within(MOST_BOUND)),
]
RUNTIME = [Row("transformation", "name", True), Row("site", "name", True), Row("seconds", "number", True, within(2**32, 1))]
DOCUMENTS = {
    "request": [
        Row("workflow", "name", True), *[Row(kind, "name") for kind in INLINED], EXECUTE,
        Row("sizes", "object", read=members("number", within(MOST_SIZE))),
        Row("default_size", "number", read=within(MOST_SIZE)),
        *OF_ALL, Row("tools", "object", read=members("name")), *POLICY,
        Row("selector", "text", read=one_of("roundrobin", "heft")), Row("rate", "number", read=within(MOST_SIZE, 1)),
        Row("runtimes", "list", read=objects(RUNTIME)),
    ],
    "workflow": [
        Row("pegasus", "text", True, version), Row("name", "text", True), Row("jobs", "list", True, objects(JOB)),
        Row("jobDependencies", "list", read=objects([Row("id", "name", True), Row("children", "list", True, Each("name"))])),
        *[Row(key, "object") for key in INLINED.values()],
    ],
    "sites": [
        Row("pegasus", "text", read=version),
        Row("sites", "list", True, objects([Row("name", "name", True), Row("directories", "list", read=objects(DIRECTORY))])),
    ],
    "replicas": [Row("pegasus", "text", read=version), Row("replicas", "list", True, objects(REPLICA))],
    "transformations": [
        Row("pegasus", "text", read=version), Row("transformations", "list", True, objects(TRANSFORMATION)),
        Row("containers", "list", read=empty("containers")),
    ],
    "ensemble": [
        Row("members", "list", True, objects([Row("name", "name", True, like("[^/]*")), Row("request", "name", True)])),
        EXECUTE, *OF_ALL, *POLICY,
    ],
}
# The known keys of each document, with those below them.
KEYS = {kind: keys_of(AnObject(table)) for kind, table in DOCUMENTS.items()}
KEYS["workflow"].update({key: KEYS[kind] for kind, key in INLINED.items()})


# What needs the whole of a document


def at_most(what, count, limit):
    if count > limit:
        raise Refused(f"many {what} {count} {limit}")


def once(found, words):
    """The first that is there before."""
    seen = set()
    for key, name in found:
        if key in seen:
            raise Refused(f"twice {words} {printed(name)}")
        seen.add(key)


def uses_of(job):
    return some(job.get("uses"), [])


def files_of(workflow):
    return {use["lfn"] for job in workflow["jobs"] for use in uses_of(job)}


def look_at_workflow(document):
    jobs = document["jobs"]
    at_most("jobs", len(jobs), MOST_JOBS)
    at_most("files", len(files_of(document)), MOST_FILES)
    once([(job["id"], job["id"]) for job in jobs], "job")
    for job in jobs:
        once([((use["lfn"], use["type"]), use["lfn"]) for use in uses_of(job)], f"use {printed(job['id'])}")
    ids = {job["id"] for job in jobs}
    for pair in some(document.get("jobDependencies"), []):
        for name in (pair["id"], *pair["children"]):
            if name not in ids:
                raise Refused(f"unknown job {printed(name)}")


def look_at_sites(key, name):
    def look(document):
        at_most("sites", len(document[key]), MOST_SITES)
        once([(it[name], it[name]) for it in document[key]], "site")
    return look


def look_at_transformations(document):
    found = document["transformations"]
    once([((it.get("namespace"), it["name"], it.get("version")), it["name"]) for it in found], "transformation")


def look_at_ensemble(document):
    WHOLE["request"](document)
    at_most("members", len(document["members"]), MOST_MEMBERS)
    once([(it["name"], it["name"]) for it in document["members"]], "member")


WHOLE = {
    "workflow": look_at_workflow, "sites": look_at_sites("sites", "name"), "replicas": lambda document: None,
    "transformations": look_at_transformations, "request": look_at_sites("execute", "site"), "ensemble": look_at_ensemble,
}


def read_tree(place, value):
    """A document's tree, and the paths of its keys that aren't acted on."""
    place.of_kind("object", value)
    read_object(place, value, DOCUMENTS[place.document])
    WHOLE[place.document](value)
    return value, place.ignored


def read(document, content):
    """The same of its bytes."""
    return read_tree(Place(document), parsed(document, content))
