"""Which kept jobs are run together, as one task."""
import re
from dataclasses import dataclass, field

from .faults import Refused
from .graph import first_cycle
from .words import printed, some


@dataclass
class Planned:
    """What is known of each job before there are tasks."""

    kept: list
    ranked: list
    level: list
    site: list
    clusters: list = field(default_factory=list)


def cluster_number(job, entries, key):
    """A job's own number as its digits, else its transformation's."""
    value = job.profile.get(key)
    if value is None:
        profiles = some(entries.get(job.transformation, {}).get("profiles"), {})
        value = some(profiles.get("pegasus"), {}).get(key)
    return None if value is None else str(value)


def is_count(digits):
    return re.fullmatch("[0-9]{1,5}", digits) is not None and int(digits) >= 1


def lengths(total, num, size):
    """Of the runs that a group is cut into: num of them as equal as can be, longer ones first, or each of size."""
    if num is not None:
        count = min(int(num), total)
        return [total // count + (at < total % count) for at in range(count)]
    size = 1 if size is None else int(size)
    return [min(size, total - start) for start in range(0, total, size)]


def horizontal(workflow, planned, entries):
    for number in planned.ranked:
        for key in ("clusters.num", "clusters.size"):
            digits = cluster_number(workflow.jobs[number], entries, key)
            if digits is not None and not is_count(digits):
                raise Refused(f"number {printed(workflow.jobs[number].id)} {key}")
    groups = {}
    for number in planned.ranked:
        key = (planned.level[number], planned.site[number], workflow.jobs[number].transformation)
        groups.setdefault(key, []).append(number)
    clusters = []
    for group in groups.values():
        first, left = workflow.jobs[group[0]], list(group)
        num, size = (cluster_number(first, entries, key) for key in ("clusters.num", "clusters.size"))
        for length in lengths(len(group), num, size):
            clusters.append(left[:length])
            left = left[length:]
    return sorted(clusters, key=lambda cluster: planned.ranked.index(cluster[0]))


def labelled(workflow, planned):
    clusters, found = [], {}
    for number in planned.ranked:
        job = workflow.jobs[number]
        label = job.profile.get("label")
        cluster = [] if label is None else found.setdefault(label, [])
        if not cluster:
            clusters.append(cluster)
        elif planned.site[cluster[0]] != planned.site[number]:
            names = [label, workflow.jobs[cluster[0]].id, job.id]
            raise Refused("label " + " ".join(map(printed, names)))
        cluster.append(number)
    return clusters


def make_clusters(workflow, planned, children, entries, mode):
    if mode == "horizontal":
        return horizontal(workflow, planned, entries)
    if mode == "none":
        return [[number] for number in planned.ranked]
    clusters = labelled(workflow, planned)
    holder = {number: at for at, cluster in enumerate(clusters) for number in cluster}
    below = [{holder[child] for number in cluster for child in children[number] if child in holder} - {at}
             for at, cluster in enumerate(clusters)]
    cycle = first_cycle(below)
    if cycle:
        ids = [workflow.jobs[clusters[at][0]].id for at in cycle]
        raise Refused("cluster cycle " + " ".join(map(printed, ids)))
    return clusters
