"""Tests of tools/model against the files of cases: each call has to end as the case says, with what it leaves and does."""
import collections
import pathlib
import sys

import case_files

sys.dont_write_bytecode = True
sys.path.insert(0, "tools")
from model import commands, survey
from model.order import make_order
from model.plan import read_plan
from model.store import Store
from model.words import name_of, text_of

# Longer documents take long to read, and say little more.
LONGEST = 200_000
WHOLE = 65536
# How many calls of each command there are at least, and in how many cases of some files.
LEAST = {"check": 520, "plan": 145, "eval": 200, "alone": 215, "run": 215, "audit": 200, "stat": 47, "resume": 34,
         "produce": 85, "ensemble": 135, "schedule": 43, "rehearse": 9, "": 55}
LEAST_OF = {"plan": 20, "clusters": 30, "graph": 10, "heft": 25, "records": 35, "retries": 32, "fresh": 28}


def is_told(case):
    """Whether its documents are neither changed for each call nor long, and it isn't one of those that differ on purpose."""
    is_plain = not any(line.startswith("each ") for line in case.settings) and not case.name.startswith("told_as_differing")
    return is_plain and all(len(content) < LONGEST for content in case.documents.values())


def is_answered(case, words):
    """The model's usage is its own, large rehearsals take long, and no call of its evaluation fails."""
    if commands.read_call(words) is None:
        return case.status == 2
    if words[0] == "rehearse":
        return all(int(word) <= 100 for word in words if word.isdigit())
    return words[0] != "eval" or not any(line.startswith(("failing host", "failing run")) for line in case.settings)


def answer(case, words):
    """What the model says of a call: the store, the status, and the text as far as the output takes it."""
    store = Store(case.replicas, scratch=dict(case.scratch), failing=case.failing("host"), failing_parts=case.failing_parts())
    fetch = survey.in_memory(case.documents, case.failing("fetch"))
    status, lines = commands.answer(words, commands.World(fetch, store, case.failing("run")))
    text = text_of(lines)
    before = (min(case.failing("write"), default=WHOLE) - 1) * case.number("write takes", WHOLE)
    taken = min(before, case.number("room", WHOLE))
    status, text = (7, text[:taken]) if taken < len(text.encode()) else (status, text)
    return store, status, text.split("\nclosed\n", 1)[1] if case.is_after_record else text


def compare(path, case, words):
    store, status, text = answer(case, words)
    assert (status, status == 2 or text) == (case.status, status == 2 or case.text), (path, case.name, words, status, text)
    case_files.look_at_store(path, case, store)
    if words[:1] == ["plan"] and status == 0:
        # From what the text says the same order comes.
        plan = read_plan(text)
        assert make_order(plan).order == plan.order, (path, case.name)


calls, cases = collections.Counter(), collections.Counter()
for file in sorted(pathlib.Path("crates/cases/data").iterdir()):
    if not file.name.startswith("unreadable"):
        for found in filter(is_told, case_files.read(file)):
            called = [[name_of(word) for word in line.split(" ")[1:]] for line in found.words]
            for words in [words for words in called if is_answered(found, words)]:
                compare(file.name, found, words)
                calls[words[0] if commands.read_call(words) else ""] += 1
            cases[file.stem] += bool(called)
for least, counted in ((LEAST, calls), (LEAST_OF, cases)):
    assert all(counted[name] >= count for name, count in least.items()), counted
print(f"model of the cases: ok, {sum(cases.values())} cases and {sum(calls.values())} calls")
