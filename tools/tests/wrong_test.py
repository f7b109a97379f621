"""Tests of tools/wrong: each edit of the repository can be applied. And over small ones: each fault is told, and each rule
listed; what a stand-in for rt answers is counted, over a copy in which the edits stand in must-fail/, and the repository is as
it was; edits are put together by the functions that they change, and what the stand-in says of each function is read."""
import importlib.machinery
import os
import pathlib
import re
import shutil
import subprocess
import sys

work = pathlib.Path(sys.argv[1])
CODE = "fn one() -> u64 {\n    1 + 1\n}\n"
FAULTS = {
    "absent.edit": ("file: src/lib.rt\nold: 2\nnew: 3\n", "its text stands 0 times in src/lib.rt, and not once: 2"),
    "bare.edit": ("file: src/lib.rt\n", "it has no pair of 'old:' and 'new:'"),
    "blank.edit": ("rule: \nfile: src/lib.rt\nold: 1 + 1\nnew: 2\n", "its first line, `rule: RULE`, doesn't tell the rule that it breaks"),
    "headless.edit": ("old: fn\nnew: fm\n", "a line 'new:' has no 'file:' or no 'old:' before it"),
    "lost.edit": ("file: src/gone.rt\nold: 1\nnew: 2\n", "there is no file src/gone.rt"),
    "late.edit": ("file: src/lib.rt\nrule: One.\nold: 1 + 1\nnew: 2\n", "its first line, `rule: RULE`, doesn't tell the rule that it breaks"),
    "long.edit": ("rule: " + "o" * 101 + "\nfile: src/lib.rt\nold: 1 + 1\nnew: 2\n", "its rule has 101 characters, and at most 100 are wanted"),
    "odd.edit": ("file: src/lib.rt\nold: fn\nor: fm\n", "a line that is none of 'file: ', 'old: ' and 'new: ': or: fm"),
    "outer.edit": ("file: ../x/src/lib.rt\nold: 1\nnew: 2\n", "../x/src/lib.rt is no file below src/, specs/ or proofs/"),
    "same.edit": ("file: src/lib.rt\nold: fn\nnew: fn\n", "it changes nothing"),
    "twice.edit": ("file: src/lib.rt\nold: 1\nnew: 2\n", "its text stands 2 times in src/lib.rt, and not once: 1"),
    "wrong.txt": ("", "an edit stands right in its folder, and its name ends in .edit"),
}
GOOD = {
    "a.edit": "rule: " + "o" * 100 + "\nfile: src/lib.rt\nold: 1 + 1\nnew: 1 + 2\n",
    "b.edit": "rule: Two.\nfile: src/lib.rt\nold: 1 + 1\nnew: 1 + 2 + 3\nold: + 3\nnew: + 4\n",
    "c.edit": "rule: Three.\nfile: src/lib.rt\nold: fn one\nnew:\n",
    "d.edit": "rule: Four.\nfile: src/lib.rt\nold: u64\nnew: u32\n",
    "e.edit": "rule: Five.\nfile: src/lib.rt\nold: u64\nnew: u16\n",
}
GATE = "file: src/lib.rt\nold: 1 + 1\nnew: 0\n"
RULES = 'RULES = {"low/zero": "One and one are two.", "low/gone": "None.", "lower/zero": "Of another crate."}\n'
RT = """#!/usr/bin/env bash
[ "$1" = must-fail ] && [ "$2" = low ] && [ ! -e crates/low/wrong ] && [ -e crates/low/out/rlib/low.rlib/format ] || exit 2
[ "$(echo crates/low/must-fail/*)" = "$(printf 'crates/low/must-fail/%s.edit ' a b c d e | sed 's/ $//')" ] || exit 2
echo kept >crates/low/out/rlib/stamp
echo 'rt: must-fail low/a.edit: refused, as it must be: src/lib.rt:1:1: error'
echo 'rt: must-fail low/b.edit: refused, as it must be (only by a limit of the prover)'
echo 'rt: must-fail low/c.edit: NOT REFUSED: the crate is still proved with this edit'
echo 'rt: must-fail low/d.edit: BAD EDIT: it did not reach the prover'
exit 1
"""
# A crate with functions in an impl, in one of another file's type, in a trait's impl and in a cycle of calls.
TOGETHER = {
    "src/lib.rt": """const MOST: u64 = 4;

pub struct Pair<T: Copy> {
    first: T,
}

impl<T: Copy> Pair<T> {
    pub fn new(first: T) -> Pair<T>
        ensures { result.first ≡ first }
    {
        Pair { first }
    }

    fn few(
        &self,
        count: u64,
    ) -> bool {
        let most = MOST;
        count < most
    }
}

#[cycle(back)]
fn forth(count: u64) -> u64 {
    back(count)
}
""",
    "src/below/sums.rt": """impl<T: Copy> Pair<T> {
    fn sum(&self) -> u64 {
        7
    }
}

impl<T: Copy> Sum<u64> for Pair<T>
where
    T: Eq,
{
    fn whole(&self) -> u64 {
        8
    }
}
""",
}
# Of each edit the file, the old text, the new text, and the name of the function whose edits it joins.
PLANTS = {
    "a.edit": ("src/lib.rt", "        Pair { first }", "        Pair { 1 }", "Pair::new"),
    "b.edit": ("src/lib.rt", "count < most", "count <= most", "Pair::few"),
    "c.edit": ("src/lib.rt", "let most = MOST", "let most = 2", "Pair::few"),
    "d.edit": ("src/lib.rt", "= 4", "= 5", None),
    "e.edit": ("src/lib.rt", "result.first ≡", "result.first ≤", None),
    "f.edit": ("src/lib.rt", "back(count)", "back(1)", None),
    "g.edit": ("src/below/sums.rt", "7", "9", "Pair::sum"),
    "h.edit": ("src/below/sums.rt", "8", "9", "below::sums::PairSum::whole"),
}
# Refuses few with `<=` at a goal, few with 2 at a limit and whole by a name of its proof; sum is proved, and new waits for others.
# The constant of 5 doesn't compile, the clause is refused at a goal, and what forth does is proved.
CHECK = """#!/usr/bin/env python3
import pathlib, sys
lib, sums = (pathlib.Path("src", it).read_text() for it in ("lib.rt", "below/sums.rt"))
if "= 5" in lib:
    sys.exit("error[some]: no such constant")
if "<= most" in lib:
    print("note: src/lib.rt:18:9: it is not proved that it holds (`returns`)")
    print("fn mid::Pair::few: no proof: expected answers in ./proofs; `search` did not prove `returns`; it calls `mid::Pair::new`, which is not proved")
elif "most = 2" in lib:
    print("note: src/lib.rt:18:9: it is not proved that it holds (`returns`); `search` gave up at one of its limits")
    print("fn mid::Pair::few: no proof: expected answers in ./proofs; `search` did not prove `returns`")
if "Pair { 1 }" in lib:
    print("fn mid::Pair::new: " + ("not proved; it calls `mid::Pair::few`, which is not proved" if "<= most" in lib else "not proved; it is odd"))
if "≤" in lib:
    print("fn mid::Pair::new: no proof: expected answers in ./proofs; `search` did not prove `returns`")
if "9" in sums.partition("whole")[2]:
    print("proofs/below/sums/PairSum/+whole/Answers.antt:1:1: error: `returns`: `c.eight` is not in scope")
    print("fn mid::below::sums::PairSum::whole: not proved")
print("fn mid::Pair::sum: proved")
print("only=1" if "--only" in sys.argv else "logic=proved " if "9" in sums or "back(1)" in lib else "logic=not-proved")
"""
HEARD = """mid/a.edit: refused otherwise: not proved; it is odd
mid/b.edit: refused at a goal: returns
mid/g.edit: NOT REFUSED: the crate is still proved with this edit
mid/h.edit: refused otherwise: only because a proof names what the edit took away: `returns`: `c.eight` is not in scope
mid/c.edit: refused otherwise: at a limit of the search: returns
mid/d.edit: BAD: it doesn't compile
mid/e.edit: refused at a goal: returns
mid/f.edit: NOT REFUSED: the crate is still proved with this edit"""


def call(top, *words, **env):
    ran = subprocess.run([sys.executable, str(top / "tools/wrong"), *words], capture_output=True, text=True, check=False, env={**os.environ, **env})
    return ran.returncode, ran.stdout.splitlines(), ran.stderr


status, lines, _ = call(pathlib.Path.cwd(), "--look")
looked = re.match(r"wrong: looked at (\d+) edits outside the gate and (\d+) of the gate, 0 bad", lines[-1])
assert status == 0 and looked and int(looked[1]) + int(looked[2]) >= 100, lines

top = work / "top"
for folder in ("tools", "crates/low/src", "crates/low/wrong", "crates/low/must-fail", "crates/low/out/rlib/low.rlib", "crates/high/src"):
    (top / folder).mkdir(parents=True)
shutil.copy("tools/wrong", top / "tools")
(top / "tools/gate_rules.py").write_text("RULES = {}\n")
(top / "crates.txt").write_text("# the crates\nhigh: low std\nlow:\n")
(top / "HANDLES").write_text("Handles allowed: none.\n")
(top / "crates/low/src/lib.rt").write_text(CODE)
(top / "crates/low/out/rlib/stamp").write_text("old\n")
(top / "crates/low/out/rlib/low.rlib/format").write_text("1\n")
for name, (text, _) in FAULTS.items():
    (top / "crates/low/wrong" / name).write_text(text)
status, lines, _ = call(top, "--look")
assert status == 1 and lines[-1] == f"wrong: looked at 0 edits outside the gate and 0 of the gate, {len(FAULTS)} bad", lines
assert sorted(lines[:-1]) == [f"wrong: crates/low/wrong/{it}: BAD EDIT: {why}" for it, (_, why) in sorted(FAULTS.items())], lines
for name in FAULTS:
    (top / "crates/low/wrong" / name).unlink()
(top / "crates/low/must-fail/twice.edit").write_text(FAULTS["twice.edit"][0])
for name, text in GOOD.items():
    (top / "crates/low/wrong" / name).write_text(text)
status, lines, _ = call(top, "--look", "low")
assert status == 1 and lines[-1] == "wrong: looked at 5 edits outside the gate and 0 of the gate, 1 bad", lines
(top / "crates/low/must-fail/twice.edit").unlink()
(top / "crates/low/must-fail/zero.edit").write_text(GATE)
status, lines, _ = call(top, "--look")
assert status == 1 and lines[0] == "wrong: crates/low/must-fail/zero.edit: BAD EDIT: tools/gate_rules.py doesn't tell the rule that it breaks", lines
(top / "tools/gate_rules.py").write_text(RULES)
status, lines, _ = call(top, "--look")
lost = [f"wrong: tools/gate_rules.py has a rule of {it}, and there is no such edit in must-fail/" for it in ("low/gone", "lower/zero")]
assert status == 1 and lines[:-1] == lost, lines
(top / "tools/gate_rules.py").write_text(RULES.partition(", ")[0] + "}\n")
status, lines, _ = call(top, "--look", "low")
assert status == 0 and lines == ["wrong: looked at 5 edits outside the gate and 1 of the gate, 0 bad"], lines
told = [f"low {name[0]}: {text.splitlines()[0][6:]}" for name, text in GOOD.items()] + ["low zero: One and one are two."]
assert call(top, "--list") == (0, told, "") and call(top, "--list", "low") == (0, told, ""), call(top, "--list")
assert call(top, "--list", "high")[0] == 2
for k in range(5):
    (top / f"crates/low/wrong/more{k}.edit").write_text(f"rule: More {k // 4}.\nfile: src/lib.rt\nold: u64\nnew: u{k + 1}\n")
status, lines, _ = call(top, "--look")
assert status == 1 and lines[0] == "wrong: crates/low has 11 edits, and at most 10 are wanted", lines
assert lines[1:4] == [f"wrong: crates/low/wrong/more{k}.edit and crates/low/wrong/more0.edit break the same rule" for k in (1, 2, 3)], lines
assert lines[4:] == ["wrong: looked at 10 edits outside the gate and 1 of the gate, 4 bad"], lines
for k in range(5):
    (top / f"crates/low/wrong/more{k}.edit").unlink()
(top / "crates/low/must-fail/zero.edit").unlink()

rt = work / "bin" / "rt"
rt.parent.mkdir()
rt.write_text(RT)
rt.chmod(0o755)
path = f"{rt.parent}:{os.environ['PATH']}"
status, lines, _ = call(top, PATH=path)
assert status == 1 and lines[0] == "wrong: low, crate 1 of 1, 5 edits", lines
assert lines[-2] == "wrong: low/e.edit: NOT TRIED: rt must-fail ended with status 1 before", lines
assert lines[-1] == "wrong: 1 refused at a goal, 1 refused otherwise, 1 not refused, 1 bad, 1 not tried", lines
assert (top / "crates/low/out/rlib/stamp").read_text() == "old\n" and (top / "crates/low/wrong/a.edit").exists()
assert call(top, "high", PATH=path)[0] == 2

(top / "crates.txt").write_text("mid:\n")
for name, text in TOGETHER.items():
    (top / "crates/mid" / name).parent.mkdir(parents=True, exist_ok=True)
    (top / "crates/mid" / name).write_text(text)
(top / "crates/mid/wrong").mkdir()
for name, (file, old, new, _) in PLANTS.items():
    (top / "crates/mid/wrong" / name).write_text(f"rule: Of {name}.\nfile: {file}\nold: {old}\nnew: {new}\n")
sys.dont_write_bytecode = True
sys.path.insert(0, str(top / "tools"))
tool = importlib.machinery.SourceFileLoader("wrong", str(top / "tools/wrong")).load_module()
places = {it.name: tool.place_of(tool.changes_of(it, "mid"), "mid") for it in tool.edits_of("mid", "wrong")[0]}
assert {it: place and place.name for it, place in places.items()} == {it: plant[3] for it, plant in PLANTS.items()}, places
groups, others = tool.grouped(places)
assert [sorted(it.values()) for it in groups] == [["a.edit", "b.edit", "g.edit", "h.edit"], ["c.edit"]], groups
assert others == ["d.edit", "e.edit", "f.edit"], others
rt.write_text(CHECK)
into = work / "into"
into.mkdir()
status, lines, said = call(top, "--together", "--into", str(into), PATH=path)
assert status == 1 and lines[1:-2] == [f"wrong: {it}" for it in HEARD.splitlines()], (lines, said)
assert lines[-2].startswith("wrong: mid: 8 edits in 7 checks and "), lines
assert lines[-1] == "wrong: 2 refused at a goal, 3 refused otherwise, 2 not refused, 1 bad, 0 not tried", lines
assert (into / "mid.txt").read_text().splitlines()[:-1] == HEARD.splitlines() and (into / "mid.log").exists()
assert (top / "crates/mid/src/lib.rt").read_text() == TOGETHER["src/lib.rt"]
print(f"wrong: ok, {looked[1]} and {looked[2]} edits, {len(FAULTS)} faults, {len(PLANTS)} edits together")
