"""Tests of tools/trusted: README says what it counts, it follows names over small definitions, and what the headline reaches is
what stands outside specs/code in the crates that it reaches."""
import collections
import pathlib
import re
import shutil
import subprocess
import sys

sys.path.insert(0, "tools")
import beside

work = pathlib.Path(sys.argv[1])
COUNTED = r"([\d,]+) lines, ([\d,]+) definitions, ([\d,]+) files"


def call(tool, *words):
    ran = subprocess.run([sys.executable, str(tool), *words], capture_output=True, text=True, check=False)
    return ran.returncode, ran.stdout.splitlines(), ran.stderr


def figures(text):
    return [int(it.replace(",", "")) for it in re.search(COUNTED, text).groups()]


status, lines, _ = call("tools/trusted")
assert status == 0 and len(lines) > 10, lines
told, counted = figures(pathlib.Path("README.md").read_text(encoding="utf-8")), figures(lines[-1])
assert told == counted, f"README says {told} lines, definitions and files, and tools/trusted counts {counted}"
assert sum(int(line.split()[0]) for line in lines[:-1]) == counted[0]
listed = [line.split() for line in call("tools/trusted", "--list")[1][:counted[1]]]
assert len(call("tools/trusted", "--list")[1]) == counted[1] + len(lines)
reached = {(path, name) for _, path, name in listed}
names = collections.Counter(name for _, name in reached)
assert max(names.values()) == 1, f"two definitions that the headline reaches are named {names.most_common(1)[0][0]}"
trusted = beside.load("trusted")
for crate in {pathlib.Path(path).parts[1] for path, _ in reached}:
    for file in pathlib.Path("crates", crate, "specs").rglob("*.antt"):
        for name in trusted.read(str(file)).definitions:
            is_code = "code" in (*file.parts[3:-1], file.stem)
            assert is_code != ((str(file), name) in reached), f"{file}: {name} {'is' if is_code else 'is not'} reached by the headline"
assert call("tools/trusted", "pegasus_cli.specs.Headline", "Nowhere")[0] == 2
assert call("tools/trusted", "pegasus_cli.specs.Headline")[0] == 2

(work / "tools").mkdir(parents=True)
shutil.copy("tools/trusted", work / "tools")
LOW = """-- A low crate.
use Rattle.std.specs.Prelude.{ℕ}

-- not reached by `top`
abbrev pub other : ℕ
other = 0

abbrev pub two : ℕ → ℕ
-- a row's comment
two 0 = half 1
two n = n

abbrev half : ℕ → ℕ
half n = n

pub record Pair : Type 0 where
  pub one : ℕ

  pub two_of : half one ≡ 1
"""
HIGH = """use Rattle.low.specs.Small as small
use Rattle.low.specs.Small.{Pair as Both}
use Rattle.low.specs.declared.kind.Kind.TheVariants.{Run}

abbrev pub top : Both → Kind
top both = if small.two 0 then Run else both
"""
for crate, name, text in (("low", "Small", LOW), ("high", "Top", HIGH)):
    (work / "crates" / crate / "specs").mkdir(parents=True)
    (work / "crates" / crate / "specs" / f"{name}.antt").write_text(text, encoding="utf-8")
wanted = [
    "    8 lines in  1 files of low",
    "    2 lines in  1 files of high",
    "10 lines, 4 definitions, 2 files; they name 1 types of the code",
]
assert call(work / "tools" / "trusted", "high.specs.Top", "top")[1] == wanted
print(f"trusted: ok, {counted[0]} lines below the headline")
