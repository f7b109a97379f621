"""Tests of tools/definitions: each definition once, what the headline stands on first, and a small repository's by hand."""
import pathlib
import re
import shutil
import subprocess
import sys

work = pathlib.Path(sys.argv[1])
SHOWN = re.compile(r"^(\S+)    (\S+\.antt), (\d+) lines$", re.MULTILINE)


def call(tool, *words):
    ran = subprocess.run([sys.executable, str(tool), *words], capture_output=True, text=True, check=False)
    return ran.returncode, ran.stdout


status, text = call("tools/definitions")
shown = [(path, name) for name, path, _ in SHOWN.findall(text)]
assert status == 0 and len(shown) == len(set(shown)) > 2000, len(shown)
assert shown[0] == ("crates/pegasus_cli/specs/Headline.antt", "HoldsOf"), shown[0]
listed = {(line.split()[1], line.split()[2]) for line in call("tools/trusted", "--list")[1].splitlines() if ".antt " in line}
assert set(shown[:len(listed)]) == listed, set(shown[:len(listed)]) ^ listed
# Each line of specs/ that begins a public definition is shown.
for file in pathlib.Path("crates").glob("*/specs/**/*.antt"):
    for name in re.findall(r"^(?:abbrev|unfoldable) pub (\S+) :|^pub (?:record|data) ([^\s:({]+)", file.read_text(encoding="utf-8"), re.MULTILINE):
        assert (str(file), name[0] or name[1]) in shown, (file, name)
of_crate = SHOWN.findall(call("tools/definitions", "lease_rules")[1])
assert len(of_crate) > 50 and all(path.startswith("crates/lease_rules/") for _, path, _ in of_crate)
fields = call("tools/definitions", "pegasus_cli", "Headline")[1]
assert "\n      -- after every entry each place's reserved and stored bytes are within its bound\n      pub within :" in fields, fields
assert call("tools/definitions", "NoSuchName")[0] == 1
assert call("tools/definitions", "values", "Files", "more")[0] == 2

(work / "tools").mkdir(parents=True)
for tool in ("trusted", "definitions", "beside.py"):
    shutil.copy(f"tools/{tool}", work / "tools")
FILES = {
    "pegasus_cli/specs/Headline.antt": """use Rattle.low.specs.Small.{two, Pair}

-- what a call comes to
abbrev pub HoldsOf : Pair → Type 0
HoldsOf x = two x
""",
    "low/specs/Lib.antt": "pub mod Later\npub mod Small\n",
    "low/specs/Later.antt": "-- a file's comment\n\nabbrev pub late : ℕ\nlate = 0\n",
    "low/specs/Small.antt": """-- two lines
-- of comment
abbrev pub two : ℕ
    → ℕ
-- a row's comment
two n = other n

abbrev other : ℕ → ℕ
other n = n

pub record Pair : Type 0 where
  -- a field's comment
  pub one : ℕ

  pub two_of : ℕ
""",
}
for path, content in FILES.items():
    file = work / "crates" / path
    file.parent.mkdir(parents=True, exist_ok=True)
    file.write_text(content, encoding="utf-8")
(work / "crates.txt").write_text("low:\npegasus_cli: low\n", encoding="utf-8")
WANTED = """HoldsOf    crates/pegasus_cli/specs/Headline.antt, 2 lines
    -- what a call comes to
    abbrev pub HoldsOf : Pair → Type 0

Pair    crates/low/specs/Small.antt, 3 lines
    pub record Pair : Type 0 where
      -- a field's comment
      pub one : ℕ

      pub two_of : ℕ

two    crates/low/specs/Small.antt, 3 lines
    -- two lines
    -- of comment
    abbrev pub two : ℕ
        → ℕ

other    crates/low/specs/Small.antt, 2 lines
    abbrev other : ℕ → ℕ

late    crates/low/specs/Later.antt, 2 lines
    abbrev pub late : ℕ

5 definitions in 3 files
"""
told = call(work / "tools" / "definitions")[1]
assert told == WANTED, told
whole = call(work / "tools" / "definitions", "--whole", "low", "two")[1]
assert "\n    -- a row's comment\n    two n = other n\n" in whole, whole
print(f"definitions: ok, {len(shown)} definitions, {len(listed)} of the headline first")
