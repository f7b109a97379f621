"""Tests of tools/draw: its pictures of a plan by hand and of the diamond's record."""
import pathlib
import subprocess
import sys
import tempfile
import xml.etree.ElementTree as tree

sys.dont_write_bytecode = True
sys.path.insert(0, "tools")
from model import commands

PLAN = """plan 1
workflow report
policy 1 0 8
site 0 near 30
site 1 far 20
file 0 raw%20data 10
file 1 table 5
job 0 A<&" site 0
job 1 B dropped
task 0 run 0 jobs 0 reads 0 writes 1 after 1
task 1 transfer 0 from pfn /data/raw to site 0 after -
task 2 transfer 1 from site 0 to site 1 after 0
task 3 transfer 1 from site 1 to out after 2
task 4 clean site 0 file 0 after 0 1
order 1 0 4 2 3
peak 0 15
peak 1 5
closed
done
"""
# Two workers; a run is tried again by the other one, and the delivery isn't closed.
RECORD = """record 2
grant 0 1
arrive 0 1 9
grant 0 0
again 0 0 hostfailed
grant 1 0
end 1 0 4
clean 0 4
grant 1 2
arrive 1 2 4
grant 0 3
closed
"""
DIAMOND = "examples/diamond/request.json"
SVG = "{http://www.w3.org/2000/svg}"


def python(words, text=""):
    return subprocess.run([sys.executable, *words], input=text, capture_output=True, text=True, check=False)


def draw(kind, *texts):
    """The picture of texts, of which the last one is handed in. Before the kind there may be --names with a request."""
    first = [kind]
    if kind == "--names":
        first, texts = [kind, *texts[:2]], texts[2:]
    with tempfile.TemporaryDirectory() as work:
        names = [str(pathlib.Path(work, str(place))) for place, _ in enumerate(texts[:-1])]
        for name, text in zip(names, texts):
            pathlib.Path(name).write_text(text, encoding="utf-8")
        return python(["tools/draw", *first, *names], texts[-1])


def picture(kind, *texts):
    drawn = draw(kind, *texts)
    assert drawn.returncode == 0 and not drawn.stderr, drawn.stderr
    return tree.fromstring(drawn.stdout)


def count(drawn, *names):
    return sum(set(names) <= set(part.get("class", "").split()) for part in drawn.iter())


def words(drawn):
    return [part.text for part in drawn.iter(SVG + "text")]


def marks(drawn, *names):
    """How many there are but for the one of the legend."""
    return count(drawn, *names) - 1


plan = picture("plan", PLAN)
for kind, wanted in (("run", 1), ("transfer", 2), ("delivery", 1), ("clean", 1)):
    assert marks(plan, kind) == wanted, kind
assert count(plan, "band") == 3 and sum(len(group) for group in plan.iter(SVG + "g") if group.get("class")) == 5
assert '0 A<&"' in words(plan), words(plan)

storage = picture("storage", PLAN)
for place in ("near: at most 15 bytes, bound 30", "far: at most 5 bytes, bound 20", "output: at most 5 bytes, bound 8"):
    assert place in words(storage), words(storage)
assert marks(storage, "held") == marks(storage, "bound") == 3

# A band for each member at each place, and one of each in the legend.
shared = PLAN.replace("raw%20data", "a/raw%20data").replace("file 1 table", "file 1 b/table")
members = picture("members", shared)
assert marks(members, "member0") == marks(members, "member1") == 3 and {"a", "b"} <= set(words(members)), words(members)
assert "near: at most 15 bytes, bound 30" in words(members), words(members)
refused = draw("members", PLAN)
assert refused.returncode == 1 and not refused.stdout and refused.stderr.startswith("draw: the file raw data "), refused

record = picture("record", PLAN, RECORD)
assert "worker 0" in words(record) and "worker 1" in words(record)
assert (count(record, "bar"), count(record, "bar", "run"), count(record, "bar", "open")) == (5, 2, 1)
assert count(record, "sweep") == 1 and marks(record, "failed") == 1
for place in ("near: at most 14 bytes, bound 30", "far: at most 5 bytes, bound 20", "output: at most 5 bytes, bound 8"):
    assert place in words(record), words(record)

run = [commands.text(command, DIAMOND) for command in ("plan", "alone")]
diamond = picture("record", *run)
assert (count(diamond, "bar"), count(diamond, "sweep"), count(diamond, "failed")) == (6, 6, 0)
assert "condorpool: at most 28 bytes, bound 30" in words(diamond), words(diamond)
# The line over all that is stored and reserved is highest after the third entry, the grant of task 0.
lines = [part.get("d") for part in diamond.iter(SVG + "path") if part.get("class") == "level"]
corners = [[float(number) for number in step.split("V")] for step in lines[1].split("H")[1:-1]]
assert min(corners, key=lambda corner: corner[1])[0] == 70 + 3 * 44, corners

for bad in ("", "plan 2\n", PLAN.replace("closed\n", ""), PLAN.replace("task 1 transfer", "task 1 fly"),
            PLAN.replace("order 1 0", "order 0 1"), PLAN.replace("order 1 0 4", "order 1 0"),
            PLAN.replace("run 0 jobs", "run 2 jobs"), PLAN.replace("writes 1", "writes 2")):
    refused = draw("plan", bad)
    assert refused.returncode == 1 and refused.stdout == "" and refused.stderr.startswith("draw: "), bad
for bad in ("failed tool A\n", RECORD.replace("closed\n", ""), RECORD.replace("grant 0 3", "grant 0 5"),
            RECORD.replace("end 1 0 4", "end 1 0 4 4"), RECORD.replace("clean 0 4", "sweep 0 4")):
    refused = draw("record", PLAN, bad)
    assert refused.returncode == 1 and refused.stdout == "" and refused.stderr.startswith("draw: "), bad
SCHEDULE = commands.text("schedule", "examples/two_sites/heft.json")
schedule = picture("schedule", SCHEDULE)
assert "4 jobs by a list schedule, 57 seconds in all" in words(schedule), words(schedule)
assert count(schedule, "bar", "run") == 4 and "site 0" in words(schedule) and "site 1" in words(schedule)
assert count(picture("schedule", "done\n"), "bar") == 0
for bad in ("", SCHEDULE.replace("done\n", ""), SCHEDULE.replace("site 0 0", "site 0 -1"), SCHEDULE.replace("job 0", "task 0")):
    refused = draw("schedule", bad)
    assert refused.returncode == 1 and refused.stdout == "" and refused.stderr.startswith("draw: "), bad
assert draw("colours", PLAN).returncode == 64 and python(["tools/draw", "record"]).returncode == 64

# With their request jobs have their transformations, and sites their names; names that one can see are read again.
named = picture("--names", DIAMOND, "plan", run[0])
assert {"0 preprocess", "ID0000001", "1 findrange"} <= set(words(named)), words(named)
titles = [part.text for part in named.iter(SVG + "title")]
assert "task 0: run preprocess ID0000001" in titles and "task 4: transfer f.a" in titles, titles
HEFT = "examples/two_sites/heft.json"
schedule = picture("--names", HEFT, "schedule", SCHEDULE)
assert {"near", "far"} <= set(words(schedule)) and "site 0" not in words(schedule), words(schedule)
assert "job 1 findrange ID0000002, far, from 12 to 32" in [part.text for part in schedule.iter(SVG + "title")]
shown = words(picture("plan", PLAN.replace("site 0 near", "site 0 %CE%A9").replace("table", "x%0Ay%25")))
assert "\u03a9" in shown and "2 x%0Ay%25" in shown and "1 raw data" in shown, shown
for bad in ("examples/diamond/diamond.json", "nowhere.json"):
    refused = draw("--names", bad, "plan", PLAN)
    assert refused.returncode == 1 and refused.stderr.startswith("draw: "), refused

# A bound that is more than ten times what is held is told and not drawn, so that what is held can be seen.
for bound, is_drawn in ((150, True), (151, False)):
    wide = picture("storage", PLAN.replace("near 30", f"near {bound}"))
    assert marks(wide, "bound") == 2 + is_drawn, bound
    assert f"near: at most 15 bytes, bound {bound}{'' if is_drawn else ', which is further up'}" in words(wide), words(wide)
large = words(picture("storage", PLAN.replace("near 30", "near 1099511627776")))
assert any(it == "near: at most 15 bytes, bound 1\u202f099\u202f511\u202f627\u202f776, which is further up" for it in large), large
# Each picture has the colours of dark paper too.
for made in (plan, storage, members, record, schedule):
    assert "prefers-color-scheme: dark" in "".join(it.text for it in made.iter(SVG + "style"))
print("draw: ok")
