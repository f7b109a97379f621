"""Writes small workflows in a folder, for the tests of the built program over real files."""
import json

TOOLS = ("text", "join", "take", "sorted", "count", "total", "digest")


def job(tool, arguments, inputs, outputs, site=None):
    """A job without its id. What it makes is requested."""
    uses = [{"lfn": it, "type": "input"} for it in inputs] + [{"lfn": it, "type": "output"} for it in outputs]
    pinned = {"profiles": {"selector": {"execution.site": site}}} if site else {}
    return {"type": "job", "name": tool, "arguments": arguments, "uses": uses, **pinned}


def replica(name, pfn, checksum=None):
    """An entry of a replica catalogue."""
    pinned = {"checksum": {"sha256": checksum}} if checksum else {}
    return {"lfn": name, "pfns": [{"site": "local", "pfn": str(pfn)}], **pinned}


def delivery(name):
    """A job that isn't run where its output is registered: of such a file a plan has the delivery alone."""
    return job("text", [], [], [name])


def write(place, jobs, replicas=(), sites=("pool",), bound=2**50, size=2**30, **asked):
    """The documents of jobs, which have the ids j0, j1 and so on, at sites of one bound, and the request
    `request.json`, with further keys of it."""
    pools = [{"name": it} for it in sites]
    tools = [{"name": tool, "sites": [{"name": it, "pfn": tool, "type": "installed"} for it in sites]} for tool in TOOLS]
    workflow = {
        "pegasus": "5.0",
        "name": "w",
        "siteCatalog": {"sites": pools},
        "replicaCatalog": {"replicas": list(replicas)},
        "transformationCatalog": {"transformations": tools},
        "jobs": [{**it, "id": f"j{number}"} for number, it in enumerate(jobs)],
    }
    request = {"workflow": "workflow.json", "execute": [{"site": it, "bound": bound} for it in sites], "default_size": size}
    (place / "workflow.json").write_text(json.dumps(workflow))
    (place / "request.json").write_text(json.dumps({**request, **asked}))
