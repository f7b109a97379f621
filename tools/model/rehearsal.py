"""A rehearsal: a workflow of the shape of Montage, as examples/montage/make makes it, planned and run in memory."""
import json

import beside

from .engine import engine_of
from .store import Store
from .survey import in_memory, survey

MAKE = "../examples/montage/make"


def rehearsed(images, failing_runs=frozenset()):
    """The status and the lines of `rehearse`: the last one alone where it fails."""
    make = beside.load(MAKE)
    documents = {f"{name}.json": json.dumps(it).encode() for name, it in make.documents(images, ".").items()}
    replicas = {f"raw_{image:04}.txt": b"image %04d\n" % image for image in range(images)}
    made = engine_of(survey("request.json", in_memory(documents)), Store(replicas), failing_runs)
    status, lines = made.ended()
    plan = made.plan
    counts = {"images": images, "jobs": len(plan.workflow.jobs), "tasks": len(plan.tasks), "bound": plan.bounds[0],
              "peak": plan.peak[0]}
    told = [f"{word} {count}" for word, count in counts.items()]
    return status, lines[-1:] if status else told + lines[lines.index("closed") + 1:]
