"""What happened in a run that ended before all was done, for tools/why: the task that failed, what it was about, what the
system and the second engine's tools say of that now, and how to go on."""
from __future__ import annotations

import json
import os
import shlex
from dataclasses import dataclass, field

import endings
import look_jobs
import look_order
import look_places
import names
from findings import in_the_way, note
from model.book import State
from model.judge import judged
from model.plan import make_plan, unordered
from model.record import Malformed, read_record
from model.store import file_name, path_of
from model.tasks import OUT
from model.transformations import Declined, apply, joined, lines_of
from model.words import printed, some

plain = names.plain
MOST_LETTERS = 60
# The failures after which the sizes of the request have to be greater, so that the record's lines of them are wrong then.
OF_SIZES = ("toolong", "oversize")


class NoRecord(Exception):
    """A text that isn't a run's: its first line that is none of a record's, and the line with which the call ended."""

    def __init__(self, number, line):
        super().__init__(line)
        self.number, self.line = number, line


@dataclass
class Ended:
    """How a run ended: its record, by which plan, the last line of its text, and the verdict."""

    name: str
    entries: list
    last: str
    delivered: list = field(default_factory=list)

    def failures(self):
        return [(place, words) for place, words in enumerate(self.entries, 1) if words[0] == "fail"]


def read(name):
    with open(name, "rb") as file:
        data = file.read()
    lines = data.decode("utf-8", "replace").splitlines()
    try:
        entries = read_record(data)
    except Malformed as fault:
        number = int(str(fault))
        raise NoRecord(number, lines[number - 1] if number <= len(lines) else "") from None
    rest = lines[lines.index("closed") + 1:]
    return Ended(name, entries, rest[-1] if rest else "", [it.split(" ")[1] for it in rest if it.startswith("delivered ")])


# Files as they are now


def first_line(data):
    text = data[:4 * MOST_LETTERS].decode("utf-8", "replace").split("\n")[0]
    shown = "".join(letter if letter.isprintable() else "." for letter in text)
    return shown if len(shown) <= MOST_LETTERS else shown[:MOST_LETTERS - 2] + ".."


def path_at(plan, site, file):
    """Where a file stands: at a site, or in the output."""
    name = file_name(plan.files[file])
    return f"{look_places.OUTPUT}/{name}" if site is None else f"{look_places.site_folder(plan.sites[site])}/{name}"


def told_file(plan, file, path):
    """A file with its path, its length and its first line, or why it can't be read."""
    name = plain(plan.files[file])
    try:
        with open(path, "rb") as found:
            data = found.read(4 * MOST_LETTERS)
        return f"reads {name}: {path}, {os.stat(path).st_size} bytes: {first_line(data)}".rstrip(": ")
    except (OSError, ValueError) as fault:
        return f"reads {name}: {path}: {look_places.in_words(fault) if isinstance(fault, OSError) else fault}"


def content(path):
    try:
        with open(path, "rb") as found:
            return found.read()
    except (OSError, ValueError):
        return None


def inputs_of(plan, task):
    """The paths of what a task reads, by file."""
    if task.pfn is not None:
        path = path_of(task.pfn)
        return {task.moved[0]: task.pfn if path is None else path}
    return {file: path_at(plan, site, file) for site, file in task.reads}


def outputs_of(plan, task):
    """The paths of what a task writes or removes, by file."""
    if task.is_delivery():
        return {task.moved[0]: path_at(plan, None, task.moved[0])}
    return {file: path_at(plan, site, file) for site, file in [*task.writes, *([task.removes] if task.removes else [])]}


# What a tool declines


def declined_line(tool, data):
    """The first line of a text of which a tool makes nothing by itself, with its number."""
    for number, line in enumerate(lines_of(data), 1):
        if is_declined(tool, [], [joined([line])], 1):
            return f"line {number}: {first_line(line.encode('latin-1'))}"
    return None


def is_declined(tool, words, inputs, outs):
    try:
        apply(tool, words, inputs, outs)
    except Declined:
        return True
    return False


def why_declined(tool, words, inputs, outs):
    """Why a tool makes nothing, found by asking it for less; or nothing where it makes something."""
    if not is_declined(tool, words, inputs, outs):
        return None
    if is_declined(tool, words, [], max(outs, 1)) and not is_declined(tool, words, [], 1):
        return f"{tool} has one output, and the job has {outs}"
    if outs == 0:
        return f"{tool} needs an output, and the job has none"
    if is_declined(tool, words, [], 1):
        return f"{tool} needs another first argument than {words[0] or 'an empty one'}" if words else f"{tool} needs an argument, and the job has none"
    if not is_declined(tool, words, [], outs) and is_declined(tool, words, [b""], outs):
        return f"{tool} takes no input, and the job has {len(inputs)}"
    line = declined_line(tool, b"".join(inputs))
    return f"{tool} declines {line}" if line else f"{tool} declines these inputs"


def held_before(plan, task, tools, job):
    """What a job of a cluster reads: files at the site, and what the jobs before it make; or nothing where one can't be read."""
    held = {file: content(path_at(plan, site, file)) for site, file in task.reads}
    if None in held.values():
        return None
    for place in task.jobs[:task.jobs.index(job)]:
        before = plan.workflow.jobs[place]
        try:
            made = apply(tools[place], before.arguments, [held[file] for file in before.inputs], len(before.outputs))
        except Declined:
            return None
        held.update(zip(before.outputs, made))
    return [held[file] for file in plan.workflow.jobs[job].inputs]


# The task that failed


def without_failures(entries):
    return [words for words in entries if words[0] != "fail"]


def verdict(plan, entries):
    return judged(plan, entries)[0]


class Failure:
    """A failure for good: its place in the record, its task, and its cause."""

    def __init__(self, subject, place, words):
        self.subject, self.plan, self.place, self.words = subject, subject.plan, place, words
        self.worker, self.number = int(words[1]), int(words[2])
        self.task, self.cause, self.more = self.plan.tasks[self.number], words[3], words[4:]

    def job(self):
        """The job that the cause names, or of a run of one job that one."""
        if self.cause in ("declined", "toolfailed", "oversize"):
            return int(self.more[0])
        return self.task.jobs[0] if len(self.task.jobs) == 1 else None

    def told_job(self):
        number = self.job()
        if number is None:
            return look_order.told_task(self.plan, self.number)
        job = self.plan.workflow.jobs[number]
        words = " ".join(plain(word) if word and " " not in word else f"'{word}'" for word in job.arguments)
        return f"job {look_jobs.titled(job)}, by the tool {self.subject.tools[number]}, {f'with the arguments {words}' if words else 'without arguments'}"

    def told_inputs(self):
        number = self.job()
        wanted = None if number is None else self.plan.workflow.jobs[number].inputs
        for file, path in inputs_of(self.plan, self.task).items():
            if wanted is None or file in wanted:
                yield told_file(self.plan, file, path)

    def head(self):
        return f"entry {self.place}, {' '.join(self.words)}: task {self.number}, by worker {self.worker}"

    def line(self):
        """The line with which the call ended for this failure, without its numbers."""
        words = {"toolong": "replica", "toolfailed": "tool", "hostfailed": "host"}
        return f"failed {words.get(self.cause, self.cause)}"

    def facts(self):
        jobs = [self.plan.workflow.jobs[it] for it in ([self.job()] if self.job() is not None else self.task.jobs)]
        return {"entry": self.place, "task": self.number, "worker": self.worker, "cause": " ".join([self.cause, *self.more]),
                "jobs": [{"id": job.id, "transformation": job.transformation[1]} for job in jobs]}


def size_said(subject, file):
    """Where the declared size of a file stands."""
    name, request = subject.workflow.files[file], subject.survey.request
    if name in some(request.get("sizes"), {}):
        return "by sizes of the request"
    return "by a use of it in the workflow" if file in subject.workflow.stated_sizes else "by default_size of the request"


def of_oversize(subject, ended, failure):
    """What a job made too much of, and what a greater size asks for."""
    file, length = int(failure.more[1]), int(failure.more[2])
    name = subject.workflow.files[file]
    return [f"makes {plain(name)} with {length} bytes, and {subject.plan.sizes[file]} are declared, {size_said(subject, file)}",
            *with_size(subject, ended, file, length)]


def with_bounds(request, bounds):
    """The request with the bounds that are enough."""
    output = {"output_bound": bounds[OUT]} if OUT in bounds else {}
    return {**request, **output, "execute": [{**it, "bound": bounds.get(at, it["bound"])} for at, it in enumerate(request["execute"])]}


def greater_sizes(subject, file, length):
    """The ways in which a request may say a greater size of a file, each with the words of it."""
    name, request = subject.workflow.files[file], subject.survey.request
    sizes = some(request.get("sizes"), {})
    yield f'"sizes": {json.dumps({name: length}, ensure_ascii=False)}', {**request, "sizes": {**sizes, name: length}}
    if name not in sizes and file not in subject.workflow.stated_sizes:
        yield f'"default_size": {length}', {**request, "default_size": length}


def told_greater(subject, ended, said, request):
    """What a request with a greater size comes to: the bounds that are enough, and whether the record is allowed by its plan, so
    that it can be gone on with."""
    plan, documents = unordered(request, subject.survey.documents), subject.survey.documents
    told = [f"a size that is enough: {said} in the request"]
    if look_order.exceeded(plan, plan.bounds) is not None:
        found = look_order.found_bounds(plan)
        told.append(f"its plan doesn't keep the bounds as they are: {look_order.told_bounds(plan, found)}")
        if found is None:
            return told, False
        request = with_bounds(request, found[0])
    made = make_plan(request, documents)
    is_allowed = not verdict(made, without_failures(ended.entries)).startswith("illegal")
    return [*told, "by that plan the record is allowed, without its lines of failures" if is_allowed
            else "by that plan the record isn't allowed: begin anew, without sites/"], is_allowed


def with_size(subject, ended, file, length):
    """What comes of the first greater size with which the record can be gone on with, else of the first one."""
    found = [told_greater(subject, ended, *way) for way in greater_sizes(subject, file, length)]
    return next((told for told, is_allowed in found if is_allowed), found[0][0])


def of_declined(subject, failure):
    """Which argument or line the tool makes nothing of, as the second engine's tools say; and whether it does so now."""
    number = int(failure.more[0])
    job, tool = subject.workflow.jobs[number], subject.tools[number]
    inputs = held_before(subject.plan, failure.task, subject.tools, number)
    if inputs is None:
        return ["its inputs aren't at the site any more, so what it declines can't be told"], True
    why = why_declined(tool, job.arguments, inputs, len(job.outputs))
    return ([why], True) if why else (["it makes something of them now"], False)


def system_says(path, is_read):
    """What the system says of a path that a task reads, or at which it writes."""
    if is_read:
        return look_places.safely(lambda it: open(it, "rb").close(), path)
    if os.path.isdir(path):
        return f"{path} is a folder"
    if look_places.names_too_long([os.path.basename(path)]):
        return f"{names.plain(path)}: no file can have this name"
    top, folder = path.split("/")[0], os.path.dirname(path)
    return next((said for said in (look_places.safely(look_places.of_folder, it) for it in dict.fromkeys((".", top, folder))) if said), None)


def of_host(failure):
    """Which files a task was about, and what the system says of each now."""
    plan, task = failure.plan, failure.task
    paths = [("reads", file, path) for file, path in inputs_of(plan, task).items()]
    paths += [("removes" if task.removes else "writes", file, path) for file, path in outputs_of(plan, task).items()]
    said, is_there = [], False
    for what, file, path in paths:
        fault = system_says(path, what != "writes")
        is_there = is_there or bool(fault)
        if what == "writes":
            said.append(f"{what} {plain(plan.files[file])}: {fault or f'{path}: nothing is wrong with it now'}")
    # A replica that couldn't be read may be there now, and too long or with other bytes.
    for found in look_places.of_replicas(plan, {failure.number}):
        is_there = True
        if not found.facts["line"].startswith("failed host "):
            said.append(found.line)
    free, wanted = os.statvfs("."), sum(plan.sizes[file] for file in task.moved)
    if free.f_bavail * free.f_frsize < wanted:
        said.append(f"the disk of this folder has {free.f_bavail * free.f_frsize} bytes free, and this task may write {wanted}")
    return said, is_there or free.f_bavail == 0


def of_replica(subject, ended, failure):
    """Whether the replica is still as the record says; where it is too long, what a greater size asks for."""
    found = list(look_places.of_replicas(subject.plan, {failure.number}))
    if not found:
        return ["the replica is as it should be now"], False
    more = with_size(subject, ended, failure.task.moved[0], int(failure.more[0])) if failure.cause == "toolong" else []
    return [found[0].line, *more], True


def detail_of(subject, ended, failure):
    """The lines of a failure's cause, and whether it is still there."""
    if failure.cause == "oversize":
        return [*failure.told_inputs(), *of_oversize(subject, ended, failure)], True
    if failure.cause in ("absent", "toolong", "checksum"):
        return of_replica(subject, ended, failure)
    found, is_there = [], True
    if failure.cause == "declined":
        found, is_there = of_declined(subject, failure)
    elif failure.cause == "hostfailed":
        found, is_there = of_host(failure)
    return [*failure.told_inputs(), *found], is_there


def of_failure(subject, ended, place, words):
    """A failure with its task, its job, its inputs and its cause."""
    failure = Failure(subject, place, words)
    detail, is_there = detail_of(subject, ended, failure)
    is_first = place == ended.failures()[0][0]
    number = f" {failure.number}" if failure.cause == "hostfailed" else ""
    line = ended.last if is_first and ended.last.startswith("failed ") else failure.line() + number
    make = in_the_way if is_there else note
    return make("failure", line, failure.head(), failure.told_job(), *detail, endings.advice_of(failure.line()), line=line, **failure.facts())


# Going on


def of_illegal(subject, ended, said):
    """A record that isn't allowed by the plan of the documents as they are now."""
    place = int(said.split(" ")[1])
    rest = without_failures(ended.entries)
    line = f"illegal record {place}"
    is_of_sizes = len(rest) < len(ended.entries) and not verdict(subject.plan, rest).startswith("illegal")
    about = ("the documents have changed since it failed; without its lines of failures it is allowed" if is_of_sizes
             else "most likely it is the record of another request, or the documents have changed")
    make = note if is_of_sizes else in_the_way
    return make("record", line, f"entry {place}, {' '.join(ended.entries[place - 1])}, isn't allowed by the plan of these documents", about,
                "" if is_of_sizes else endings.advice(line), line=line), is_of_sizes


def of_stored(subject, ended):
    """The files that by the record are at the sites and aren't, or have another length."""
    state = State(subject.plan)
    for words in without_failures(ended.entries):
        state.enter(words)
    for (site, file), length in state.stored().items():
        path = path_at(subject.plan, site, file)
        words = f"{printed(subject.plan.sites[site])} {printed(subject.plan.files[file])}"
        found = os.path.getsize(path) if os.path.isfile(path) and not os.path.islink(path) else None
        if found != length:
            line = f"failed pair {words}" if found is None else f"failed length {words} {length} {found}"
            said = f"{path} isn't there" if found is None else f"{path} has {found} bytes"
            yield in_the_way("stored", line, f"by the record it has {length} bytes, and {said}", endings.advice(line), line=line, path=path)


def left_to_do(subject, ended):
    """The tasks that haven't ended."""
    done = {int(words[2]) for words in ended.entries if words[0] in ("arrive", "end", "clean")}
    return [number for number in range(len(subject.plan.tasks)) if number not in done]


def of_rest(subject, ended):
    """What is in the way of the tasks that are left, but for those that failed, which are told already."""
    failed = {int(words[2]) for _, words in ended.failures()}
    rest = set(left_to_do(subject, ended)) - failed
    yield from look_places.of_replicas(subject.plan, rest)
    yield from look_places.of_folders(subject.plan)
    yield from look_places.of_others()


def words_of(subject, ended, is_cut):
    """The words of the next call."""
    request, record = shlex.quote(subject.name), shlex.quote(ended.name)
    if not is_cut:
        return [f"./pegasus resume {request} {record}"]
    return [f"sed '/^fail /d' {record} > cut.txt", f"./pegasus resume {request} cut.txt"]


def of_next(subject, ended, found, is_cut):
    """How to go on from the record, unless by the plan that is wanted it can't be gone on with."""
    is_of_sizes = any(words[3] in OF_SIZES for _, words in ended.failures())
    if any("begin anew" in line for it in found if it.kind == "failure" for line in it.below):
        words = ["rm -r sites", f"./pegasus alone {shlex.quote(subject.name)}"]
    else:
        words = words_of(subject, ended, is_cut or is_of_sizes)
    is_mended = not any(it.is_in_the_way for it in found)
    why = "where sizes are others the record's lines of failures are wrong, so they go first" if words[0].startswith("sed ") else ""
    return note("next", f"to go on{'' if is_mended else ' once that is mended'}: {'; '.join(words)}", why, words=words)


def nothing_done(subject, ended):
    """A run that ended before its first task."""
    if ended.last.startswith(("failed pair ", "failed length ")):
        yield in_the_way("failure", ended.last, "nothing was done", endings.advice(ended.last), line=ended.last)
        return
    found = [*look_places.of_sites(subject.plan), *look_places.of_folders(subject.plan), *look_places.of_others()]
    yield note("failure", f"the call ended with {ended.last}, and nothing was done", "" if found else "nothing is in its way now: call again", line=ended.last)
    yield from found


def happened(subject, ended):
    """What came of a run whose plan can be made now, and what is in the way of going on."""
    said = verdict(subject.plan, ended.entries)
    count = len(subject.plan.tasks) - len(left_to_do(subject, ended))
    yield note("run", f"{count} of {names.counted(len(subject.plan.tasks), 'task')} ended, and {names.counted(len(ended.delivered), 'file')} "
                      f"{'was' if len(ended.delivered) == 1 else 'were'} delivered; the record is {said}", verdict=said)
    if said == "complete":
        return
    if not ended.entries and ended.last.startswith("failed "):
        yield from nothing_done(subject, ended)
        return
    found, is_cut = [], False
    if said.startswith("illegal"):
        finding, is_cut = of_illegal(subject, ended, said)
        found.append(finding)
    elif ended.failures():
        found += [of_failure(subject, ended, place, words) for place, words in ended.failures()]
    else:
        found.append(note("broken off", "the record ends before all is done, and tells no failure"))
    if is_cut or not said.startswith("illegal"):
        told = [line for it in found for line in it.below]
        found += [it for it in (*of_stored(subject, ended), *of_rest(subject, ended)) if not any(it.line in line for line in told)]
        found.append(of_next(subject, ended, found, is_cut))
    yield from found
