"""Random workflows with their catalogues, requests and replicas, for tools/random-workflows: what the pages allow, mixed by
chance, and now and then something that is refused or that fails.

Each is made from the number generator that it is given and from nothing else, so that a seed makes the same one again.
"""
from __future__ import annotations

import hashlib
from dataclasses import dataclass, field

from model import joint, plan, survey
from model.faults import Refused
from model.tables import INLINED, KEYS, MOST_SIZE
from random_jobs import ODD, grown
from random_spelling import spoil_documents, strewn, text_of

SITES = ("pool", "local", "cluster", "desk", "far", "near")
WIDE = 2**40


@dataclass
class Made:
    """Documents by their names, replicas by their paths, and what ought to stand at those that are missing or wrong."""

    documents: dict = field(default_factory=dict)
    replicas: dict = field(default_factory=dict)
    folders: list = field(default_factory=list)
    mended: dict = field(default_factory=dict)
    is_ensemble: bool = False

    def add(self, other):
        self.documents.update(other.documents)
        self.replicas.update(other.replicas)
        self.folders.extend(other.folders)
        self.mended.update(other.mended)


# Transformations, and the jobs as they are written


def transformation(work, tool):
    """One of a few under which a tool goes: with a name of its own or another, in a namespace and a version or in none."""
    chance = work.chance
    name = tool if chance.is_so(0.6) else f"{chance.choice(('my', 'run'))}_{tool}"
    if name != tool:
        work.tools[name] = tool if chance.is_so(0.995) else "unknown"
    more = {"namespace": chance.choice(("", "ns"))} if chance.is_so(0.2) else {}
    return {"name": name, **more, **({"version": "1.0"} if chance.is_so(0.2) else {})}


def key_of(entry):
    return entry.get("namespace"), entry["name"], entry.get("version")


def digits(chance):
    if chance.is_so(0.01):
        return chance.choice((0, "0", "x", 100_000, "", "1.5"))
    return chance.choice((1, 2, 3, "2", "003", 5, 99_999))


def cluster_numbers(chance, share):
    return {f"clusters.{it}": digits(chance) for it in ("num", "size") if chance.is_so(share)}


def output(chance, file):
    """A use of a file that is made. What is read further on is seldom wanted."""
    use = {"lfn": file.name, "type": "output"}
    if file.is_read and chance.is_so(0.75):
        use["stageOut"] = False
    elif chance.is_so(0.1):
        use["stageOut"] = chance.is_so(0.5)
    if chance.is_so(0.3):
        use["registerReplica"] = chance.is_so(0.5)
    return use


def profiles(work, sites, mode):
    """Clusters and pins, as the request's mode has use for them, and now and then where it has none."""
    chance, made = work.chance, {}
    label = {"label": chance.choice(("red", "blue", ""))} if chance.is_so(0.3 if mode == "label" else 0.05) else {}
    clusters = {**label, **cluster_numbers(chance, 0.1 if mode == "horizontal" else 0.02)}
    if clusters:
        made["pegasus"] = clusters
    if work.pinned and chance.is_so(work.pinned):
        made["selector"] = {"execution.site": chance.choice(sites)}
    return {"profiles": made} if made else {}


def mixed(chance, first, second):
    """Two lists as one: mostly one after the other, else mixed, where each keeps its order."""
    if chance.is_so(0.7):
        return first + second
    places = sorted(chance.sample(range(len(first) + len(second)), len(first)))
    rest = list(second)
    for place, it in zip(places, first):
        rest.insert(place, it)
    return rest


def written_job(work, job, number, sites, mode):
    chance = work.chance
    read = [{"lfn": file.name, "type": "input"} for file in job["inputs"]]
    uses = mixed(chance, read, [output(chance, file) for file in job["outputs"]])
    if work.files and chance.is_so(0.005):
        uses.append({"lfn": chance.choice(work.files).name, "type": "output"})
    entry = chance.choice(work.transformations.setdefault(job["tool"], [transformation(work, job["tool"])]))
    if chance.is_so(0.1):
        entry = transformation(work, job["tool"])
        work.transformations[job["tool"]].append(entry)
    arguments = {"arguments": job["arguments"]} if job["arguments"] or chance.is_so(0.5) else {}
    return {"type": "job", "id": work.name("j"), **entry, **arguments, "uses": uses, **profiles(work, sites, mode)}


def dependencies(work, written):
    """Stated pairs, of which a very few go backwards."""
    chance, pairs = work.chance, {}
    for _ in range(chance.choice((0, 0, 1, 2, 4)) if len(written) > 1 else 0):
        first, second = sorted(chance.sample(range(len(written)), 2))
        if chance.is_so(0.02):
            first, second = second, first
        pairs.setdefault(written[first]["id"], []).append(written[second]["id"])
    return [{"id": first, "children": children} for first, children in pairs.items()]


# Sizes


def declare(work, written, request):
    """Says a size of each file somewhere: in the request, at the first use that has one, or by default."""
    chance = work.chance
    slack = 60 if work.is_crowded else chance.choice((0, 0, 3, 20))
    for file in work.files:
        file.size = len(file.data if file.data is not None else b"1234567890") + (chance.randint(0, slack) if slack else 0)
        file.stated = chance.choice(("sizes", "use", "use", "default"))
    if work.files and chance.is_so(0.02):
        chance.choice(work.files).size = MOST_SIZE
    if work.files and chance.is_so(0.04):
        wrong = chance.choice(work.files)
        wrong.size, wrong.stated = max(0, wrong.size - slack - 1), "sizes"
    request["sizes"] = {file.name: file.size for file in work.files if file.stated == "sizes"}
    if chance.is_so(0.05):
        request["sizes"]["of no workflow"] = 7
    rest = [file.size for file in work.files if file.stated == "default"]
    if rest and chance.is_so(0.995):
        request["default_size"] = max(rest) + (chance.randint(0, 9) if chance.is_so(0.3) else 0)
    sizes, said = {file.name: file for file in work.files}, set()
    for use in (use for job in written for use in job["uses"]):
        file = sizes[use["lfn"]]
        if file.name in said or file.stated == "sizes":
            if chance.is_so(0.05):
                use["size"] = chance.randint(0, 99)
        elif file.stated == "use":
            use["size"] = file.size
            said.add(file.name)


# Replicas


def pfn_of(chance, path):
    return chance.choice((path, f"file://{path}", f"./{path}"))


def spoil(chance, made, path, data):
    """Leaves a replica out, or puts something else in its place."""
    made.mended[path] = data
    kind = chance.choice(("absent", "folder", "longer", "other"))
    if kind == "folder":
        made.folders.append(path)
    elif kind == "longer":
        made.replicas[path] = data + b"and so much more\n" * 3
    elif kind == "other" and data:
        made.replicas[path] = bytes([data[0] ^ 1]) + data[1:]


def place(work, made, file, sites):
    """A place of a replica, with its bytes there."""
    chance, path = work.chance, f"{work.prefix}data/{len(made.replicas) + len(made.mended)}"
    if chance.is_so(0.05):
        path += chance.choice((" x", "%20", "\u00e9", "#", "?", "\\", ":", "."))
    if chance.is_so(0.007):
        return {"site": chance.choice(sites), "pfn": f"ftp://host/{path}"}
    data = file.data if file.data is not None else b"of a job that makes nothing\n"
    made.replicas[path] = data
    if chance.is_so(0.035):
        del made.replicas[path]
        spoil(chance, made, path, data)
    return {"site": chance.choice((*sites, "elsewhere")), "pfn": pfn_of(chance, path)}


def checksum(chance, file):
    if file.data is None or not chance.is_so(0.35):
        return {}
    digest = hashlib.sha256(file.data if chance.is_so(0.98) else b"other").hexdigest()
    return {"checksum": {"sha256": digest.upper() if chance.is_so(0.3) else digest}}


def entries(work, made, file, sites):
    """The entries of a file: mostly one, with one place or several; several entries count as one."""
    chance, found = work.chance, []
    if chance.is_so(0.05):
        found.append({"lfn": file.name, "pfns": [], **checksum(chance, file)})
    for _ in range(2 if chance.is_so(0.1) else 1):
        places = [place(work, made, file, sites) for _ in range(chance.choice((1, 1, 2, 3)))]
        found.append({"lfn": file.name, "pfns": places, **checksum(chance, file)})
    return found


def replica_catalogue(work, made, sites):
    """What no job makes is registered, but for a few, and some of what jobs make."""
    chance, share, found = work.chance, work.chance.choice((0, 0, 0, 0.1, 0.5)), []
    for file in work.files:
        if chance.is_so(share if file.is_made else 0.99):
            found += entries(work, made, file, sites)
    if chance.is_so(0.05):
        found.append({"lfn": "of no workflow", "pfns": [{"site": "local", "pfn": "nowhere"}]})
    if chance.is_so(0.2):
        chance.shuffle(found)
    return {"pegasus": "5.0", "replicas": found}


# The other catalogues


def directory(chance):
    servers = [{"operation": "all", "url": "file:///d"}] * chance.randint(0, 2)
    path = {"path": "/a b"} if chance.is_so(0.5) else {}
    return {"type": "sharedScratch", **path, **({"fileServers": servers} if chance.is_so(0.5) else {})}


def site_catalogue(chance, sites):
    found = [{"name": name, **({"directories": [directory(chance)]} if chance.is_so(0.2) else {})} for name in sites]
    return {"pegasus": "5.0", "sites": found}


def places_of(chance, sites):
    """Where a transformation is: at all sites, or at some."""
    if chance.is_so(0.3):
        return [{"name": "anywhere", "pfn": "/bin/it", "type": "stageable"}]
    chosen = sites if chance.is_so(0.8) else chance.some(sites, 1, len(sites))
    return [{"name": name, "pfn": "/bin/it", "type": "installed"} for name in chosen]


def transformation_catalogue(work, sites, mode):
    chance, found = work.chance, {}
    for entry in (entry for listed in work.transformations.values() for entry in listed):
        numbers_of = cluster_numbers(chance, 0.5 if mode == "horizontal" else 0.05)
        profile = {"profiles": {"pegasus": numbers_of}} if numbers_of else {}
        found[key_of(entry)] = {**entry, "sites": places_of(chance, sites), **profile}
    listed = list(found.values())
    if listed and chance.is_so(0.01):
        listed.pop()
    chance.shuffle(listed)
    return {"pegasus": "5.0", "transformations": listed}


# The request


def runtimes(work, sites):
    names = [entry["name"] for listed in work.transformations.values() for entry in listed]
    count = work.chance.randint(0, 6) if names else 0
    return [{"transformation": work.chance.choice(names), "site": work.chance.choice(sites),
             "seconds": work.chance.choice((1, 2, 7, 30, 2**32))} for _ in range(count)]


def policy(chance):
    made = {}
    if chance.is_so(0.4):
        made["retries"] = chance.choice((0, 1, 2, 3))
    if chance.is_so(0.4):
        made["fresh"] = chance.is_so(0.8)
    return made


def asked(work, sites, mode):
    """The keys of a request that ask for something, but bounds and sizes."""
    chance, made = work.chance, policy(work.chance)
    if mode != "none" or chance.is_so(0.2):
        made["cluster"] = mode
    if chance.is_so(0.3):
        made["cleanup"] = chance.choice(("inplace", "constraint", "none"))
    if chance.is_so(0.2):
        made["force"] = chance.is_so(0.6)
    if chance.is_so(0.3):
        made["selector"] = chance.choice(("heft", "heft", "roundrobin"))
    if chance.is_so(0.3):
        made["rate"] = chance.choice((1, 5, 1000))
    if chance.is_so(0.4):
        made["runtimes"] = runtimes(work, sites)
    return made


def found_by_model(request, found):
    """The plan without bounds, if there is one."""
    try:
        return plan.make_plan(request, found)
    except Refused:
        return None


def bound(chance, peak, kind):
    more = {"tight": 0, "roomy": chance.randint(0, 2 * peak + 1), "under": -chance.randint(1, peak // 3 + 1), "wide": WIDE}[kind]
    return max(0, peak + more)


def set_bounds(chance, request, made, is_crowded=False):
    """Bounds around what the plan needs, where there is one."""
    kind = "tight" if is_crowded else chance.choices(("wide", "tight", "roomy", "under"), (3, 4, 6, 1))[0]
    for place, site in enumerate(request["execute"] if made else []):
        site["bound"] = bound(chance, made.peak.get(place, 0), kind)
    if made and chance.is_so(0.2):
        whole = sum(made.sizes[file] for file in made.workflow.requested)
        request["output_bound"] = bound(chance, whole, chance.choice(("tight", "roomy", "roomy", "wide", "under")))


# Documents


def put_documents(chance, made, prefix, request, found):
    """Writes each catalogue into a document of its own or into the workflow, or into both, where the first one counts."""
    share = chance.choice((0, 0, 0.03))
    found = {kind: strewn(chance, it, KEYS[kind], share) for kind, it in found.items()}
    for kind, key in INLINED.items():
        way = chance.choice(("document", "document", "inlined", "inlined", "both"))
        if way != "document":
            found["workflow"][key] = found[kind] if way == "inlined" else {kind: []}
        if way != "inlined":
            request[kind] = f"{prefix}{kind}.json"
            made.documents[request[kind]] = text_of(chance, found[kind])
    request["workflow"] = f"{prefix}workflow.json"
    made.documents[request["workflow"]] = text_of(chance, found["workflow"])
    for key in ("cluster", "cleanup", "force", "retries", "rate", "selector", "output_bound"):
        if key not in request and chance.is_so(share):
            request[key] = None
    made.documents[f"{prefix}request.json"] = text_of(chance, request)


def site_names(work):
    names = [work.chance.choice(ODD) + it if work.is_odd and work.chance.is_so(0.3) else it for it in SITES]
    return work.chance.some(names, 1, 5)


def one(chance, prefix="", most=12, names=None):
    """A workflow with its documents and replicas."""
    # At one site that holds just what the order needs workers wait for each other, and have orders made afresh.
    is_crowded = chance.is_so(0.2)
    work, made = grown(chance, prefix, most, 6 if is_crowded else 1), Made()
    work.is_crowded = is_crowded
    work.transformations, work.pinned = {}, chance.choice((0, 0, 0.2, 0.5))
    names = names or site_names(work)
    sites = chance.some(names, 1, 3)
    mode = chance.choice(("none", "none", "horizontal", "horizontal", "label"))
    if work.is_crowded or mode == "label" and chance.is_so(0.7):
        sites = sites[:1]
    written = [written_job(work, job, number, sites, mode) for number, job in enumerate(work.jobs)]
    workflow = {"pegasus": chance.choice(("5.0", "5.0.4")), "name": work.name("w"), "jobs": written}
    pairs = dependencies(work, written)
    if pairs or chance.is_so(0.2):
        workflow["jobDependencies"] = pairs
    if chance.is_so(0.4):
        chance.shuffle(written)
    request = {"execute": [{"site": name, "bound": WIDE} for name in sites], **asked(work, sites, mode)}
    declare(work, written, request)
    found = {
        "workflow": workflow, "sites": site_catalogue(chance, names),
        "replicas": replica_catalogue(work, made, names), "transformations": transformation_catalogue(work, sites, mode),
    }
    if work.tools or chance.is_so(0.1):
        request["tools"] = {**work.tools, **({"of no workflow": "none"} if chance.is_so(0.1) else {})}
    if work.is_crowded:
        request["fresh"] = True
    set_bounds(chance, request, found_by_model(request, found), work.is_crowded)
    put_documents(chance, made, prefix, request, found)
    return made


# An ensemble


def ensemble(chance):
    """Several workflows at the same sites, under bounds of all."""
    names, made = chance.some(SITES, 1, 3), Made(is_ensemble=True)
    members = []
    for number in range(chance.randint(1, 3)):
        made.add(one(chance, f"m{number}/", 6, names))
        name = chance.choice((f"m{number}", f"member {number}", f".{number}%"))
        members.append({"name": name, "request": f"m{number}/request.json"})
    if chance.is_so(0.05):
        members.append({"name": "again", "request": "m0/request.json"})
    mode = chance.choice(("none", "horizontal", "label"))
    asks = {**policy(chance), **({"cluster": mode} if chance.is_so(0.5) else {})}
    if chance.is_so(0.2):
        asks["cleanup"] = chance.choice(("inplace", "constraint", "none"))
    stated = {"members": members, "execute": [{"site": name, "bound": WIDE} for name in names], **asks}
    set_bounds(chance, stated, joint_plan(made, stated))
    made.documents["ensemble.json"] = text_of(chance, stated)
    return made


def joint_plan(made, stated):
    try:
        found = joint.documents_of(stated, survey.surveys_of(stated, survey.in_memory(made.documents)), "joint")
    except Refused:
        return None
    return found_by_model(found["request"], found)


def made_of(chance):
    """A random workflow or ensemble, now and then with a fault in its documents."""
    made = ensemble(chance) if chance.is_so(0.15) else one(chance, most=40 if chance.is_so(0.03) else 12)
    if chance.is_so(0.12):
        spoil_documents(chance, made)
    return made
