"""The experiment on README, typed as it stands there in a copy of the crates that it needs: a crate is proved, a body of it
that was turned around is refused with what the page shows, and the last line takes the change back."""
import pathlib
import re
import shutil
import subprocess
import sys
import time

import pages

work = pathlib.Path(sys.argv[1])
CRATE = "tournament_tree"
MOST_SECONDS = 1800


def call(command, place):
    done = subprocess.run(["bash", "-c", command], cwd=place, capture_output=True, text=True, timeout=MOST_SECONDS, check=False)
    assert done.returncode == 0 and not done.stderr, (command, done.returncode, done.stderr)
    return done.stdout.splitlines()


def copied(place):
    """The crate and those below it, as a repository of their own."""
    lines = pathlib.Path("crates.txt").read_text(encoding="utf-8").splitlines()
    uses = {line.split(":")[0]: line.split(":")[1].split() for line in lines if re.match(r"\w+:", line)}
    needed = [CRATE]
    for name in needed:
        needed += [it for it in uses[name] if it in uses and it not in needed]
        shutil.copytree(pathlib.Path("crates", name), place / "crates" / name)
    (place / "crates.txt").write_text("".join(f"{line}\n" for line in lines if line.split(":")[0] in needed), encoding="utf-8")
    shutil.copy("HANDLES", place)
    (place / ".gitignore").write_text("out/\n", encoding="utf-8")
    call("git init -q && git add -A && git -c user.name=test -c user.email=test@localhost commit -q -m copied", place)
    return place


if not shutil.which("rt") or not shutil.which("git"):
    print("experiment: skipped, no rt or no git")
    sys.exit()
began, place = time.monotonic(), copied(work)
top = place
for command, printed in pages.experiment():
    if command.startswith("cd "):
        place = top / command[3:]
        assert place.is_dir(), command
        continue
    lines = call(command, place)
    assert lines == printed, (command, lines)
assert not call("git status --porcelain", top), "the last line doesn't take the change back"
print(f"experiment: ok, {len(pages.experiment())} commands in {time.monotonic() - began:.0f} s")
