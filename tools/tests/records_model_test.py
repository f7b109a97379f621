"""Tests of how tools/model judges records of the diamond and of a small plan by hand, right and wrong; and of what its tools
make."""
import pathlib
import re
import sys

sys.dont_write_bytecode = True
sys.path.insert(0, "tools")
from model import commands, judge
from model.book import State
from model.plan import read_plan
from model.tasks import OUT
from model.transformations import TOOLS, Declined, apply
from model.words import text_of

PLAN = commands.text("plan", "examples/diamond/request.json")
PRINTED = re.search(r"    record 1\n(.*?)    closed\n", pathlib.Path("docs/COMMANDS.md").read_text(encoding="utf-8"), re.DOTALL)
RUN = [line.strip() for line in PRINTED[1].splitlines()]
TABLE = pathlib.Path("docs/GUIDE.md").read_text(encoding="utf-8").split("| Lines |")[1].split("\n\n")[0]
READ = re.findall(r"`((?:grant|arrive|end|clean) [\d ]+)`", TABLE)
assert READ == RUN, f"the guide reads another record line by line: {READ}"

# Task 1 runs and task 2 is ready. At 36 a first job that made less leaves room for it.
WAITS = ["grant 0 4", "arrive 0 4 10", "grant 0 0", "end 0 0 10 10", "clean 0 6", "grant 0 1"]
LEAVES = ["grant 0 4", "arrive 0 4 10", "grant 0 0", "end 0 0 4 10", "clean 0 6", "grant 0 1"]


def with_bound(bound):
    return PLAN.replace("condorpool 30", f"condorpool {bound}")


def judged(entries, plan=PLAN, workers=16):
    return judge.verdict(read_plan(plan), text_of(["record 1", *entries, "closed", "done"]), workers)


def swapped(one, other):
    entries = list(RUN)
    entries[one], entries[other] = entries[other], entries[one]
    return entries


def after(count, *more):
    return [*RUN[:count], *more]


VERDICTS = [
    (judged(RUN), "complete"),
    (judged([]), "legal"),
    (judged(RUN[:2]), "legal"),
    (judged(swapped(7, 8)), "illegal 8"),
    (judged(WAITS), "legal"),
    (judged([*WAITS, "grant 1 2"]), "illegal 7"),
    (judged([*WAITS, "grant 1 2"], with_bound(40)), "legal"),
    (judged([*LEAVES, "grant 1 2"], with_bound(36)), "legal"),
    (judged([*WAITS, "grant 1 2"], with_bound(36)), "illegal 7"),
    (judged(after(1, "arrive 1 4 8")), "illegal 2"),
    (judged(after(1, "arrive 0 4 11")), "illegal 2"),
    (judged(after(1, "end 0 4 8")), "illegal 2"),
    (judged(after(1, "grant 0 4")), "illegal 2"),
    (judged(after(3, "end 0 0 4")), "illegal 4"),
    (judged(after(0, "grant 0 0")), "illegal 1"),
    (judged(after(0, "clean 0 6")), "illegal 1"),
    (judged(after(0, "grant 3 4"), workers=3), "illegal 1"),
    (judged(after(1, "fail 0 4 absent")), "legal"),
    (judged(after(1, "fail 0 4 absent", "grant 0 0")), "illegal 3"),
    (judged(after(1, "fail 0 4 absent", "fail 0 4 absent")), "illegal 3"),
    (judged(after(1, "fail 0 4 toolong 10")), "illegal 2"),
    (judged(after(1, "fail 0 4 toolong 11")), "legal"),
    (judged(after(1, "fail 0 4 declined 0")), "illegal 2"),
    (judged(after(3, "fail 0 0 declined 0")), "legal"),
    (judged(after(3, "fail 0 0 declined 1")), "illegal 4"),
    (judged(after(3, "fail 0 0 absent")), "illegal 4"),
    (judged(after(3, "fail 0 0 oversize 0 1 11")), "legal"),
    (judged(after(3, "fail 0 0 oversize 0 3 11")), "illegal 4"),
    (judged(after(3, "fail 0 0 hostfailed 10")), "legal"),
    (judged(after(3, "fail 0 0 hostfailed 11")), "illegal 4"),
    (judged(after(3, "fail 0 0 memory 1 1 1")), "illegal 4"),
    (judged(after(4, "fail 0 6 hostfailed")), "legal"),
    (judged(after(4, "fail 0 7 hostfailed")), "illegal 5"),
]

for place, (verdict, expected) in enumerate(VERDICTS):
    assert verdict == expected, (place, verdict, expected)

# A chain whose second file is large and a single task, of a site that holds one of the two, with fresh orders and a bound on
# the output: by hand.
CHAIN = """plan 1
workflow chain
policy 1 1 11
site 0 pool 10
file 0 a 2
file 1 p 6
file 2 t 5
job 0 A site 0
job 1 B site 0
job 2 C site 0
task 0 run 0 jobs 0 reads - writes 0 after -
task 1 run 0 jobs 2 reads - writes 2 after -
task 2 run 0 jobs 1 reads 0 writes 1 after 0
task 3 transfer 1 from site 0 to out after 2
task 4 transfer 2 from site 0 to out after 1
task 5 clean site 0 file 0 after 0 2
task 6 clean site 0 file 1 after 2 3
task 7 clean site 0 file 2 after 1 4
order 0 2 5 3 6 1 4 7
peak 0 8
closed
"""


def left(*entries, plan=CHAIN):
    """What is left of the order after entries, each of which is allowed, and what is held."""
    state = State(read_plan(plan))
    assert all(state.enter(entry.split(" ")) for entry in entries), entries
    return state.rest, state.held


A, T, OUT_T = (0, 0), (0, 2), (OUT, 2)
LEFT = [
    (left(), ([0, 2, 5, 3, 6, 1, 4, 7], {})),
    (left("grant 0 0"), ([2, 5, 3, 6, 1, 4, 7], {A: 2})),
    (left("grant 0 0", "again 0 0 hostfailed"), ([0, 2, 5, 3, 6, 1, 4, 7], {A: 2})),
    (left("grant 0 0", "again 0 0 hostfailed 1", "grant 3 0", "end 3 0 1"), ([2, 5, 3, 6, 1, 4, 7], {A: 1})),
    (left("grant 0 0", "regrant 1 1"), ([4, 7, 2, 5, 3, 6], {A: 2, T: 5})),
    (left("grant 0 0", "regrant 1 1", "again 1 1 toolfailed 2"), ([1, 4, 7, 2, 5, 3, 6], {A: 2, T: 5})),
    (left("grant 0 0", "regrant 1 1", "end 1 1 4", "grant 1 4"), ([7, 2, 5, 3, 6], {A: 2, T: 4, OUT_T: 5})),
    (left("grant 0 0", "regrant 1 1", "end 1 1 4", "grant 1 4", "arrive 1 4 4", "again 1 7 hostfailed"),
     ([7, 2, 5, 3, 6], {A: 2, T: 4, OUT_T: 4})),
    (left("grant 0 0", "regrant 1 1", "end 1 1 4", "grant 1 4", "arrive 1 4 4", "clean 1 7"), ([2, 5, 3, 6], {A: 2, OUT_T: 4})),
]
for place, (found, expected) in enumerate(LEFT):
    assert found == expected, (place, found, expected)
# Below the two files' sizes together the output has no room for what the order delivers, so nothing is allowed.
assert judged(["grant 0 0"], CHAIN.replace("policy 1 1 11", "policy 1 1 10")) == "illegal 1"
assert judged(["grant 0 0"], CHAIN) == "legal"


# What each tool makes of its arguments and inputs, with so many outputs, by the page alone; nothing where it makes nothing. Numbers
# have one to eighteen digits.
THREE = [b"c\na\n", b"b"]
BY_HAND = [
    ("text", ["a", "", "b"], [], 1, [b"a  b\n"]), ("text", ["a"], [b"a\n"], 1, None), ("join", [], THREE, 1, [b"c\na\nb"]),
    ("join", [], THREE, 2, None), ("take", ["2"], THREE, 1, [b"c\na\n"]), ("take", [], THREE, 1, None), ("take", ["x"], THREE, 1, None),
    ("drop", ["2"], THREE, 1, [b"b\n"]), ("drop", ["9"], THREE, 1, [b""]), ("deal", [], THREE, 2, [b"c\nb\n", b"a\n"]),
    ("deal", [], THREE, 0, None), ("sorted", [], [b"b\n\xc3\na\nb\n"], 1, [b"a\nb\nb\n\xc3\n"]),
    ("distinct", [], [b"b\na\nb\nc\na\n"], 1, [b"b\na\nc\n"]), ("count", [], THREE, 1, [b"3 5\n"]),
    ("holds", ["a"], [b"ab\nb\ncab\n"], 1, [b"ab\ncab\n"]), ("holds", [""], THREE, 1, None), ("holds", [], THREE, 1, None),
    ("column", ["2"], [b"a\tb\nc\n\td\te\n"], 1, [b"b\n\nd\n"]), ("column", ["0"], THREE, 1, None),
    ("digest", [], [b"a", b"bc"], 1, [b"ba7816bf8f01cfea414140de5dae2223b00361a396177a9cb410ff61f20015ad\n"]),
    ("total", [], [b"1\n20\n"], 1, [b"21\n"]), *(("total", [], [it + b"\n"], 1, [it + b"\n"]) for it in (b"0", b"9" * 18)),
    *(("total", [], [it + b"\n"], 1, None) for it in (b"9" * 19, b"", b"-1", b"1 ", "\u0661".encode(), b"x")),
]


def applied(*words):
    """What a tool makes, or nothing."""
    try:
        return apply(*words)
    except Declined:
        return None


for tool, arguments, read, outs, wanted in BY_HAND:
    assert applied(tool, arguments, read, outs) == wanted, (tool, arguments, read)
assert {it[0] for it in BY_HAND} == set(TOOLS)
print(f"model of records: ok, {len(VERDICTS) + len(LEFT)} records and {len(BY_HAND)} texts by tools")
