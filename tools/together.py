"""Pictures of plans and records that are too large to be drawn task by task: tasks of one kind are put together.

A kind is what a task does and at which site, with the transformation of its jobs, or of those that made its file.
"""
from __future__ import annotations

from dataclasses import dataclass, field

import beside

draw = beside.load("draw")

MOST_COLUMNS, MOST_GROUPS, MOST_ROWS, SLICES = 24, 300, 24, 120
STRIP, STRIDE = 24, 44
WORDS = {"run": "runs of", "transfer": "transfers of", "delivery": "deliveries of", "clean": "removals of"}
CLOSING = ("arrive", "end", "clean", "fail", "again")
FAILED = ("fail", "again")
REPLICAS = "replicas"


# Kinds


def some(names):
    """A few names as one."""
    distinct = list(dict.fromkeys(names))
    return distinct[0] if len(distinct) == 1 else f"{len(distinct)} transformations"


def kinds(plan, names):
    """Of each task the name of its kind: of its jobs' transformation, or of the one that made its file."""
    found, makers = {}, {}
    for task in plan.tasks:
        if task.kind == "run":
            found[task.number] = some(names[job] for job in task.jobs)
            makers.update(dict.fromkeys(task.writes, found[task.number]))
    for task in plan.tasks:
        if task.kind != "run":
            maker = makers.get((task.writes or task.removes)[0])
            found[task.number] = maker if task.source != "pfn" and maker else REPLICAS
    return found


@dataclass
class Group(draw.Task):
    """Tasks of one kind, drawn as one."""

    members: list[draw.Task] = field(default_factory=list)

    def named(self):
        return self.members[0].label if len(self.members) == 1 else f"{self.label} × {len(self.members)}"

    def told(self):
        if len(self.members) == 1:
            return self.members[0].told()
        first, last = self.members[0], self.members[-1]
        return f"{len(self.members)} tasks, {WORDS[self.kind]} {self.label}: {first.named()} .. {last.named()}"


def grouped(plan, key):
    """The plan whose tasks are the groups of the tasks with one key, each after those of lesser columns."""
    depth, members = draw.depths(plan), {}
    for number in sorted(plan.order, key=lambda number: (depth[number], number)):
        members.setdefault(key(plan.tasks[number]), []).append(plan.tasks[number])
    place = {task.number: at for at, tasks in enumerate(members.values()) for task in tasks}
    groups, columns = [], [key[3] for key in members]
    for at, ((kind, site, label, column), tasks) in enumerate(members.items()):
        after = {place[parent] for task in tasks for parent in task.after}
        earlier = sorted(parent for parent in after if columns[parent] < column)
        groups.append(Group(at, kind, site, label, earlier, column=column, members=tasks))
    marked = {place[number]: f"{plan.tasks[number].named()} {said}" for number, said in plan.marked.items()}
    return draw.Plan(plan.name, plan.sites, tasks=groups, order=list(range(len(groups))), marked=marked)


def groups_of(plan, names):
    """Groups by kind and by how many tasks stand before theirs, so many steps at once that there are few columns."""
    kind, depth = kinds(plan, names), draw.depths(plan)
    steps = -(-(max(depth.values(), default=0) + 1) // MOST_COLUMNS)
    made = grouped(plan, lambda task: (task.kind, task.site, kind[task.number], depth[task.number] // steps))
    if len(made.tasks) > MOST_GROUPS:
        label = {"run": "jobs"}
        made = grouped(plan, lambda task: (task.kind, task.site, label.get(task.kind, "files"), depth[task.number] // steps))
    return made


def draw_plan(plan, names):
    made = groups_of(plan, names)
    return draw.draw_plan(made, f"{len(plan.tasks)} tasks, those of one kind put together")


# A record


@dataclass
class Row:
    """A name and the entries, each with its place in the record, that closed the tasks told there."""

    name: str
    entries: list

    def slices(self, count):
        """How many entries of each kind of task closed one in each slice of the record."""
        found = [dict.fromkeys(WORDS, 0) for _ in range(SLICES)]
        for place, entry in self.entries:
            found[min(SLICES - 1, place * SLICES // count)][entry.task.kind] += 1
        return found

    def told(self):
        failed = sum(entry.kind in FAILED for _, entry in self.entries)
        first, last = self.entries[0][0], self.entries[-1][0]
        places = f"entry {first}" if first == last else f"entries {first} to {last}"
        return f"{self.name}: {len(self.entries)}, {places}" + (f", {failed} failed" if failed else "")


def rows_by(entries, name):
    found = {}
    for place, entry in entries:
        found.setdefault(name(entry), []).append((place, entry))
    return found


def rows_of(plan, record, names):
    """A row for each kind, the largest ones by themselves, and one for each worker."""
    kind = kinds(plan, names)
    closing = [(place, entry) for place, entry in enumerate(record, 1) if entry.kind in CLOSING]
    by_kind = rows_by(closing, lambda entry: f"{WORDS[entry.task.kind]} {kind[entry.task.number]}")
    if len(by_kind) > MOST_ROWS:
        kept = set(sorted(by_kind, key=lambda name: -len(by_kind[name]))[:MOST_ROWS - 1])
        by_kind = rows_by(closing, lambda entry: next(
            (name for name in [f"{WORDS[entry.task.kind]} {kind[entry.task.number]}"] if name in kept), "others"))
    by_worker = rows_by(closing, lambda entry: entry.worker)
    workers = [Row(f"worker {worker}", entries) for worker, entries in sorted(by_worker.items())]
    return [Row(name, entries) for name, entries in by_kind.items()], workers


def column(kind, x, y, width, height):
    size = f'width="{draw.short(width)}" height="{draw.short(height)}"'
    return f'<rect class="{kind} slice" x="{draw.short(x)}" y="{draw.short(y)}" {size}/>'


def draw_row(frame, row, top, most):
    """In each slice of the record a column as high as there are entries, cut by kind, and a cross at each failure."""
    foot, wide = top + 4 + STRIP, frame.right() - draw.LEFT
    parts = [draw.path("grid", f"M{draw.LEFT},{foot}h{draw.short(wide)}")]
    for place, counts in enumerate(row.slices(frame.count)):
        y = foot
        for kind, count in counts.items():
            tall = max(3, STRIP * count / most) if count else 0
            y -= tall
            if count:
                parts.append(column(kind, draw.LEFT + wide * place / SLICES, y, wide / SLICES, tall))
    crosses = [draw.cross(frame.x(place), foot - STRIP / 2) for place, entry in row.entries if entry.kind in FAILED]
    return [draw.text(draw.LEFT, top, row.told(), "small"), draw.titled(row.told(), *parts, *crosses[:SLICES])]


def draw_rows(frame, rows, top):
    most = max((sum(counts.values()) for row in rows for counts in row.slices(frame.count)), default=1)
    parts = []
    for row in rows:
        parts += draw_row(frame, row, top, max(most, 1))
        top += STRIDE
    return parts, top


def draw_record(plan, record, names):
    frame = draw.frame_of(len(record) + 1, 0)
    by_kind, workers = rows_of(plan, record, names)
    kind_parts, top = draw_rows(frame, by_kind, 52)
    worker_parts, top = draw_rows(frame, workers, top + 10)
    bands = [[("held", stored), ("reserved", reserved)] for stored, reserved in draw.standings(plan, record)]
    charts, foot = draw.draw_charts(frame, plan, top + 6, bands)
    shown = draw.kinds_of([entry.task for entry in record])
    failed = ["failed"] if any(entry.kind in FAILED for entry in record) else []
    keys = draw.legend([*shown, *failed, "held", "reserved", "bound"], foot + 52)
    parts = [*kind_parts, *worker_parts, *charts, *draw.draw_axis(frame, foot, "entries of the record"), *keys]
    heading = f"{draw.shortened(plan.name, 40)}: when tasks of each kind and of each worker ended, and what each site holds"
    return draw.Picture(heading, max(frame.right() + draw.RIGHT, draw.LEAST), foot + 62, parts)
