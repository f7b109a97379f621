"""What documents of Pegasus 5.0 may hold and this program refuses as unsupported: where it is, what can be done, and how it
is taken out.

A document is an object of `{name: document}`; an inlined catalogue counts only where no document stands in its place.
"""
import copy
import re
from dataclasses import dataclass

import documents
from model.tables import INLINED, KEYS

# Of each kind what can be done.
KINDS = {
    "containers": "jobs are this program's own tools and need none",
    "subworkflows": "plan it by itself and register what it makes as replicas, or put its jobs into this workflow",
    "checkpoints": "no job is taken up again where it stood",
    "uses": "say input or output",
    "patterns": "give each file an entry of its own",
    "checksums": "64 hexadecimal digits are wanted",
    "requires": "jobs are this program's own tools and need no others",
    "types": "say installed or stageable",
    "transformation": "add it to the catalogue of transformations, at one of the sites",
    "pin": "name one of the sites that have its transformation, or none",
    "version": "documents of another version than 5.0 have to be written anew",
    "catalogue": "name its document with",
}
DROPPED = [kind for kind in KINDS if kind not in ("transformation", "pin", "version", "catalogue")]


@dataclass
class Place:
    kind: str
    document: str
    path: str
    what: str

    advice: str = ""

    def key(self):
        return self.kind, self.document, documents.pattern(self.path)

    def told(self):
        dropped = f"; --drop {self.kind} takes it out" if self.kind in DROPPED else ""
        return f"{self.document} {self.path or '%'} {self.what}: {KINDS[self.kind]}{self.advice}{dropped}"


def catalogues(found, name):
    """The catalogue that the program reads: the document and the path to it."""
    if name in found:
        yield name, "", found[name]
    elif isinstance(found["workflow"].get(INLINED[name]), dict):
        key = INLINED[name]
        yield "workflow", f"/{key}", found["workflow"][key]


def table(found, name):
    """The keys of a document that are acted on. Of an inlined catalogue that isn't read none is looked at."""
    unread = {key: {} for catalogue, key in INLINED.items() if catalogue in found}
    return {**KEYS["workflow"], **unread} if name == "workflow" else KEYS[name]


# Where jobs can run


def triple_of(it):
    return it.get("namespace"), it.get("name"), it.get("version")


def site_names(found):
    """The names of the sites of the catalogue that the program reads."""
    return [site.get("name") for _, _, it in catalogues(found, "sites") for _, site in documents.members(it, "sites")]


def having(found, triple):
    """The sites that have a transformation: what is stageable at one is at all of them."""
    entries = [it for _, _, found_there in catalogues(found, "transformations")
               for _, it in documents.members(found_there, "transformations") if triple_of(it) == triple]
    places = [place for entry in entries for _, place in documents.members(entry, "sites")]
    names = site_names(found)
    if any(place.get("type") == "stageable" for place in places):
        return names
    return [name for name in names if any(place.get("name") == name and place.get("type") == "installed" for place in places)]


def pin_of(job):
    """The site that a job is pinned to, if there is one."""
    here = job
    for key in ("profiles", "selector", "execution.site"):
        here = here.get(key) if isinstance(here, dict) else None
    return here if isinstance(here, str) else None


def sites_of(found, job):
    """The sites at which a job can run."""
    names, pin = having(found, triple_of(job)), pin_of(job)
    return names if pin is None else [name for name in names if name == pin]


def is_any_of(names, others):
    return any(name in others for name in names)


# Where it is


def of_version(document, name, path):
    said = document.get("pegasus")
    if isinstance(said, str) and not re.fullmatch(r"5\.0(\.[0-9]+)?", said):
        yield Place("version", name, f"{path}/pegasus", said)


def of_jobs(workflow):
    for place, job in documents.members(workflow, "jobs"):
        if isinstance(job.get("type"), str) and job["type"] != "job":
            yield Place("subworkflows", "workflow", f"/jobs/{place}", f"a job of type {job['type']}")
            continue
        for at, use in documents.members(job, "uses"):
            if isinstance(use.get("type"), str) and use["type"] not in ("input", "output"):
                kind = "checkpoints" if use["type"] == "checkpoint" else "uses"
                yield Place(kind, "workflow", f"/jobs/{place}/uses/{at}", f"a use of type {use['type']}")


def of_places(found):
    """The jobs that can run at no site of the catalogue."""
    for place, job in documents.members(found["workflow"], "jobs"):
        if job.get("type") != "job" or sites_of(found, job):
            continue
        if having(found, triple_of(job)):
            yield Place("pin", "workflow", f"/jobs/{place}", f"a job that is pinned to {pin_of(job)}")
        else:
            yield Place("transformation", "workflow", f"/jobs/{place}", f"a job of {job.get('name')}, which no site has")


def of_replicas(catalogue, name, path):
    for place, entry in documents.members(catalogue, "replicas"):
        if entry.get("regex") is True:
            yield Place("patterns", name, f"{path}/replicas/{place}", f"a pattern {entry.get('lfn')}")
        checksum = entry.get("checksum")
        digits = checksum.get("sha256") if isinstance(checksum, dict) else None
        if digits is not None and not re.fullmatch("[0-9A-Fa-f]{64}", str(digits)):
            yield Place("checksums", name, f"{path}/replicas/{place}/checksum", f"a SHA-256 {digits}")


def of_transformations(catalogue, name, path):
    if catalogue.get("containers"):
        yield Place("containers", name, f"{path}/containers", "containers")
    for place, entry in documents.members(catalogue, "transformations"):
        here = f"{path}/transformations/{place}"
        if entry.get("requires"):
            yield Place("requires", name, f"{here}/requires", "a transformation that requires others")
        for at, site in documents.members(entry, "sites"):
            if isinstance(site.get("type"), str) and site["type"] not in ("installed", "stageable"):
                yield Place("types", name, f"{here}/sites/{at}", f"a transformation of type {site['type']}")
            if site.get("container") is not None:
                yield Place("containers", name, f"{here}/sites/{at}/container", f"the container {site['container']}")


def places(found):
    """Each place that the program refuses, document by document; what holds a place comes before it."""
    yield from of_version(found["workflow"], "workflow", "")
    yield from of_jobs(found["workflow"])
    for name in INLINED:
        if name != "replicas" and not list(catalogues(found, name)):
            yield Place("catalogue", "workflow", "", f"no catalogue of {name}", f" --{name}")
        for document, path, catalogue in catalogues(found, name):
            yield from of_version(catalogue, document, path)
            if name == "replicas":
                yield from of_replicas(catalogue, document, path)
            elif name == "transformations":
                yield from of_transformations(catalogue, document, path)
    if all(list(catalogues(found, name)) for name in ("sites", "transformations")):
        yield from of_places(found)


def unregistered(found):
    """A line for each file that a job reads and that is neither made nor registered, at its first use."""
    jobs = documents.members(found["workflow"], "jobs")
    uses = [(place, at, use) for place, job in jobs for at, use in documents.members(job, "uses")]
    known = {use.get("lfn") for _, _, use in uses if use.get("type") == "output"}
    known |= {entry.get("lfn") for _, _, it in catalogues(found, "replicas")
              for _, entry in documents.members(it, "replicas") if entry.get("pfns")}
    for place, at, use in uses:
        if use.get("type") == "input" and use.get("lfn") not in known:
            known.add(use.get("lfn"))
            yield f"registered nowhere workflow /jobs/{place}/uses/{at} {use.get('lfn')}: add it to a catalogue of replicas"


def grouped(keys, lines):
    """Lines as they are told: of more than three with one key the first three, and how many more there are."""
    pairs, counts, told = list(zip(keys, lines)), {}, {}
    for key, _ in pairs:
        counts[key] = counts.get(key, 0) + 1
    for key, line in pairs:
        place = told[key] = told.get(key, 0) + 1
        if place <= documents.MOST_ALIKE:
            yield line
        elif place == counts[key]:
            yield f"and {place - documents.MOST_ALIKE} more such places"


def told_together(places):
    """What is told of places, those of one kind and one path but for its numbers together."""
    places = list(places)
    return grouped([it.key() for it in places], [it.told() for it in places])


# How it is taken out


def advice(left, said):
    """The words that take out all of it that can be, with those that were said already."""
    kinds = dict.fromkeys(it.kind for it in left)
    wanted = [kind for kind in kinds if kind in DROPPED]
    if not wanted:
        return ""
    rest = "" if len(wanted) == len(kinds) else " that can be"
    return f"; all{rest} is taken out by {' '.join(f'--drop {kind}' for kind in dict.fromkeys([*said, *wanted]))}"


def parent_of(document, path):
    """What the last key of a path stands in, and this key."""
    *keys, last = [key.replace("~1", "/").replace("~0", "~") for key in path.split("/")[1:]]
    here = document
    for key in keys:
        here = here[int(key) if isinstance(here, list) else key]
    return here, int(last) if isinstance(here, list) else last


def bridge(pairs, gone):
    """Pairs of ids without those that are gone: what came before one of them comes before what came after it."""
    for middle in gone:
        before = [first for first, second in pairs if second == middle]
        after = [second for first, second in pairs if first == middle]
        pairs = [pair for pair in pairs if middle not in pair]
        pairs += [pair for pair in ((first, second) for first in before for second in after) if pair not in pairs]
    return pairs


def drop_jobs(workflow, gone):
    """Takes the dependencies of jobs that are gone out, and tells the files that no job makes any more."""
    ids = [job.get("id") for job in gone]
    entries = [it for _, it in documents.members(workflow, "jobDependencies")]
    if any(it.get("id") == gone_id or gone_id in (it.get("children") or []) for it in entries for gone_id in ids):
        pairs = bridge([(it.get("id"), child) for it in entries for child in it.get("children") or []], ids)
        firsts = list(dict.fromkeys(first for first, _ in pairs))
        workflow["jobDependencies"] = [{"id": first, "children": [to for at, to in pairs if at == first]} for first in firsts]
    made = {use.get("lfn") for job in gone for _, use in documents.members(job, "uses") if use.get("type") == "output"}
    for place, job in documents.members(workflow, "jobs"):
        for at, use in documents.members(job, "uses"):
            if use.get("type") == "input" and use.get("lfn") in made:
                yield f"made by no job any more workflow /jobs/{place}/uses/{at} {use['lfn']}"


def drop(found):
    """Takes all of it out, the last place of a list first, and gives a line for each."""
    dropped = list(places(found))
    gone = []
    for it in dropped:
        if it.kind == "subworkflows":
            inside, key = parent_of(found["workflow"], it.path)
            gone.append(copy.deepcopy(inside[key]))
    for it in reversed(dropped):
        inside, key = parent_of(found[it.document], it.path)
        del inside[key]
    yield from grouped([it.key() for it in dropped], [f"dropped {it.document} {it.path} {it.what}" for it in dropped])
    lines = list(drop_jobs(found["workflow"], gone))
    yield from grouped([""] * len(lines), lines)
