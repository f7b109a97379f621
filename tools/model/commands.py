"""The words of a call, and what comes of it."""
import os
import re
import sys
from dataclasses import dataclass

from . import evaluation, plan, survey
from .engine import catalogue, engine_of
from .faults import Refused
from .joint import joint_of
from .judge import WORKERS, told
from .rehearsal import rehearsed
from .resume import resumed
from .sites import make_schedule
from .store import Folder, Store, sites_of
from .words import text_of


@dataclass
class World:
    """What a call finds: what fetches documents, the store, and which runs of tools fail, by their numbers."""

    fetch: object
    store: Store
    failing_runs: set = frozenset()


def world_of(folder, scratch=()):
    """What a call finds in a folder, with these files at the sites."""
    return World(survey.folder_of(folder), Store(Folder(folder), scratch=dict(scratch)))


def surveyed(world, name, record=None):
    return survey.survey(name, world.fetch, record)


def check(world, name):
    return 0, list(survey.lines(surveyed(world, name)))


def planned(world, name):
    return 0, plan.text(plan.plan_of(surveyed(world, name)))


def schedule(world, name):
    found = surveyed(world, name)
    return 0, make_schedule(found.said, found.request, found.graph).lines(found.said.workflow)


def evaluate(world, name):
    return 0, list(evaluation.lines(surveyed(world, name), world.store.replicas))


def run(world, name, workers=None):
    return engine_of(surveyed(world, name), world.store, world.failing_runs).ended()


def produce(world, name):
    found = surveyed(world, name)
    status, lines = engine_of(found, world.store, world.failing_runs).ended()
    return (status, lines) if status else (0, [catalogue(found.documents["workflow"], world.store)])


def ensemble(world, name, workers=None):
    return engine_of(joint_of(name, world.fetch), world.store, world.failing_runs).ended()


def judge(command):
    def judged(world, name, record, workers=WORKERS, plan_text=False):
        if plan_text:
            made, data = plan.read_plan(world.fetch(name).decode("utf-8", "replace")), world.fetch(record)
        else:
            found = surveyed(world, name, record)
            made, data = plan.plan_of(found), found.record
        return told(command, made, data, workers)
    return judged


def resume(world, name, record):
    return resumed(surveyed(world, name, record), world.store, world.failing_runs)


def rehearse(world, images, workers=None):
    return rehearsed(int(images), world.failing_runs)


# The words


def is_from_to(least, most, word):
    return re.fullmatch("[0-9]{1,4}", word) is not None and least <= int(word) <= most


@dataclass
class Command:
    """What stands after a command, what it tells, and what answers it."""

    form: str
    about: str
    answer: object

    def takes(self, names):
        """Whether it takes these names, or this number of images."""
        if self.form.startswith("N"):
            return len(names) == 1 and is_from_to(2, 3000, names[0])
        return len(names) == len(re.findall("REQ|ENS|RECORD", self.form)) and all(names)

    def read(self, words):
        """The names and options of a call; nothing where these are no words of it."""
        names, options, rest = [], {}, list(words)
        while rest:
            word, bar, value = rest.pop(0).partition("=")
            if not word.startswith("-"):
                names.append(word + bar + value)
            elif word == "--plan" and "[--plan]" in self.form and not bar:
                options["plan_text"] = True
            elif word == "--workers" and "--workers" in self.form and "workers" not in options:
                value = value if bar else rest.pop(0) if rest else ""
                if not is_from_to(1, WORKERS, value):
                    return None
                options["workers"] = int(value)
            else:
                return None
        is_told = "workers" in options or not re.search("(?<!\\[)--workers", self.form)
        return (names, options) if is_told and self.takes(names) else None


OF_RECORDS = "[--plan] REQ RECORD [--workers N]"
COMMANDS = {
    "check": Command("REQ", "the documents: counts, sites, and each key that isn't acted on", check),
    "plan": Command("REQ", "the tasks, and an order of them within each site's bound", planned),
    "eval": Command("REQ", "what the requested files are worth, without a plan", evaluate),
    "alone": Command("REQ", "a run by one worker, from empty sites; nothing is written", run),
    "run": Command("REQ --workers N", "the same run: of the records that N workers may leave, that of one", run),
    "audit": Command(OF_RECORDS, "whether a record is complete, legal, or which entry isn't allowed", judge("audit")),
    "stat": Command(OF_RECORDS, "the same, with sums", judge("stat")),
    "resume": Command("REQ RECORD", "a run that failed gone on with, over what it left in sites/; nothing is written", resume),
    "produce": Command("REQ", "a run as alone does it: the replica catalogue of what it delivers", produce),
    "ensemble": Command("ENS [--workers N]", "several requests run as one", ensemble),
    "schedule": Command("REQ", "where each job would run, from when to when, by a list schedule", schedule),
    "rehearse": Command("N [--workers N]", "a Montage of N images in memory, from 2 to 3000", rehearse),
}
MORE = """
REQ, ENS, RECORD and all that they name are seen from FOLDER, or else from here. With --plan a plan's text, as `plan` prints
it, stands in the place of REQ: what it doesn't say, as checksums, isn't judged. Entries have to be by workers below N, else
below 16. The status is the program's own."""
USAGE = "usage: python3 tools/model [--folder FOLDER] " + ", ".join(f"{name} {it.form}" for name, it in COMMANDS.items())


def read_call(words):
    """What answers a call, its names and its options; nothing where the words are no call."""
    found = COMMANDS.get(words[0]) if words else None
    read = found.read(words[1:]) if found else None
    return None if read is None else (found.answer, *read)


def answered(call, world):
    answer, names, options = call
    try:
        return answer(world, *names, **options)
    except Refused as refused:
        return refused.answer()


def answer(words, world):
    """The status and the lines of a call."""
    call = read_call(words)
    return (2, [USAGE]) if call is None else answered(call, world)


def text(*words, folder="."):
    """The text of a call in a folder, from empty sites."""
    return text_of(answer(words, world_of(folder))[1])


def help_lines():
    wide = max(len(f"{name} {it.form}") for name, it in COMMANDS.items())
    yield sys.modules[__package__].__doc__
    yield "\n    python3 tools/model [--folder FOLDER] COMMAND ..\n"
    for name, it in COMMANDS.items():
        yield f"{f'{name} {it.form}':<{wide}}  {it.about}"
    yield MORE


def is_help(words):
    return bool({"-h", "--help"} & set(words)) or words[:1] == ["help"]


def main(words):
    folder, rest = (words[1], words[2:]) if words[:1] == ["--folder"] and len(words) > 1 else (".", words)
    world = world_of(folder, sites_of(os.path.join(folder, "sites")) if rest[:1] == ["resume"] else ())
    call = None if is_help(rest) else read_call(rest)
    if call is None and not is_help(rest):
        print(USAGE, file=sys.stderr)
        return 2
    status, lines = (0, help_lines()) if call is None else answered(call, world)
    try:
        sys.stdout.buffer.write(text_of(lines).encode())
        sys.stdout.flush()
    except OSError:
        os.dup2(os.open(os.devnull, os.O_WRONLY), sys.stdout.fileno())
        return 7
    return status
