"""Tests of tools/release and of what the gate leaves for it, over a copy of the repository in which the program counts as passed:
what is refused; the same bytes twice; pages of man, completions, the installer and its undoing; and the diamond, run from what
was unpacked in a folder that has the C library and a shell, and nothing of a kit."""
import hashlib
import os
import pathlib
import re
import shutil
import subprocess
import sys
import tarfile
import time

work = pathlib.Path(sys.argv[1])
PROGRAM = pathlib.Path("crates/pegasus/out/pegasus")
EXAMPLE = "examples/diamond/request.json"
NAME = f"pegasus-{pathlib.Path('VERSION').read_text().strip()}-linux-x86_64"
# What a page of man may have besides text.
REQUESTS = {".TH", ".SH", ".SS", ".PP", ".TP", ".IP", ".RS", ".RE", ".nf", ".fi", ".br", ".nh"}
TOLD = "tests: ok, but for 1 that were skipped:\nmoon: skipped, no moon\n"


def is_named():
    """The version is the newest one that CHANGELOG.md tells, and the one to be cited, of the same day."""
    version = pathlib.Path("VERSION").read_text().strip()
    newest, day = re.search(r"^## (\S+) \((\S+)\)$", pathlib.Path("CHANGELOG.md").read_text(encoding="utf-8"), re.MULTILINE).groups()
    cited = pathlib.Path("CITATION.cff").read_text(encoding="utf-8")
    assert newest == version and f"\nversion: {version}\ndate-released: \"{day}\"\n" in cited, (version, newest, day)


def call(place, *words, **more):
    done = subprocess.run([str(it) for it in words], cwd=place, capture_output=True, text=True, check=False, **more)
    return done.returncode, done.stdout, done.stderr


def right(place, *words, **more):
    status, text, errors = call(place, *words, **more)
    assert status == 0, (words, status, text, errors)
    return text


def copied(top):
    """The repository's files without sources and proofs, committed, with the program and what the tests said."""
    names = right(".", "git", "ls-files", "-z", "--cached", "--others", "--exclude-standard").split("\0")
    for name in names:
        if name and pathlib.Path(name).is_file() and re.match(r"(?!crates/)|crates/[^/]+/specs/", name):
            (top / name).parent.mkdir(parents=True, exist_ok=True)
            shutil.copy(name, top / name)
    (top / PROGRAM).parent.mkdir(parents=True)
    shutil.copy(PROGRAM, top / PROGRAM)
    (top / PROGRAM).with_name("tests.txt").write_text("rules: ok\n" + TOLD)
    dates = {f"GIT_{who}_{what}": value for who in ("AUTHOR", "COMMITTER") for what, value in
             (("NAME", "a"), ("EMAIL", "a@b"), ("DATE", "2026-11-30T12:00:00Z"))}
    for words in (["init", "-q"], ["add", "-A"], ["commit", "-q", "-m", "all"]):
        right(top, "git", *words, env={**os.environ, **dates})


def passed(top, began):
    """What the gate leaves where it passed; the kit's line is a stand-in's."""
    rt = work / "bin/rt"
    rt.parent.mkdir(exist_ok=True)
    rt.write_text("#!/usr/bin/env bash\n[ \"$1\" = version ] && echo a-kit\n")
    rt.chmod(0o755)
    right(top, "tools/tests/passed", int(began), env={**os.environ, "PATH": f"{rt.parent}:{os.environ['PATH']}"})


def refused(top, why):
    status, text, errors = call(top, "tools/release", work / "never")
    assert status == 1 and not text and why in errors and not (work / "never").exists(), (why, status, errors)


def stamps(top):
    """No release is made before the gate passed; then ./pegasus takes the program for built, but for sources that changed since."""
    refused(top, "there is no crates/pegasus/out/gate.txt")
    bare = {**os.environ, "PATH": "/usr/bin:/bin"}
    passed(top, time.time() - 3600)
    assert call(top, "./pegasus", "check", EXAMPLE, env=bare)[0] == 70
    passed(top, time.time() + 1)
    assert right(top, "./pegasus", "check", EXAMPLE, env=bare).endswith("done\n")
    # Words reach the program as they are.
    assert call(top, "./pegasus", "check", "a b", env=bare)[:2] == (3, "no document a%20b\n")
    gate = (top / PROGRAM).with_name("gate.txt").read_text()
    commit, digest = right(top, "git", "rev-parse", "HEAD").strip(), hashlib.sha256(PROGRAM.read_bytes()).hexdigest()
    assert gate == f"commit {commit}\nchanged 0\nkit a-kit\nprogram {digest}\nrt ci passed\n{TOLD}", gate


def refusals(top):
    (top / "README.md").write_text("changed\n")
    refused(top, "the checkout isn't clean")
    right(top, "git", "checkout", "-q", "README.md")
    with open(top / PROGRAM, "ab") as out:
        out.write(b"x")
    refused(top, "the gate passed another state: program")
    shutil.copy(PROGRAM, top / PROGRAM)
    right(top, "git", "-c", "user.name=a", "-c", "user.email=a@b", "commit", "-q", "--allow-empty", "-m", "later")
    refused(top, "the gate passed another state: commit")
    right(top, "git", "reset", "-q", "--hard", "HEAD~1")


def twice(top):
    """Made twice it is the same bytes; what is unpacked is the folder; and its sums are those that PROVED.txt lists."""
    for name in ("one", "two"):
        told = right(top, "tools/release", work / name)
        assert told.endswith(f"{NAME}.tar.gz\n"), told
    first, second = ((work / name / f"{NAME}.tar.gz").read_bytes() for name in ("one", "two"))
    assert first == second
    with tarfile.open(work / "one" / f"{NAME}.tar.gz") as packed:
        assert {(it.uid, it.gid, it.mtime) for it in packed} == {(0, 0, 1796040000)}, {it.mtime for it in packed}
        packed.extractall(work / "unpacked")
    place = work / "unpacked" / NAME
    right(".", "diff", "-r", place, work / "two" / NAME)
    proved = (place / "PROVED.txt").read_text()
    sums = dict(reversed(line.split("  ", 1)) for line in proved.splitlines() if re.match(r"[0-9a-f]{64}  ", line))
    there = {str(it.relative_to(place)): hashlib.sha256(it.read_bytes()).hexdigest() for it in place.rglob("*") if it.is_file()}
    assert there.pop("PROVED.txt") and sums == there, sums.keys() ^ there.keys()
    for line in ("kit a-kit", "rt ci passed", "moon: skipped, no moon", "SHA-256 of each file"):
        assert line in proved, line
    assert re.search(r"\d+ lines, \d+ definitions, \d+ files", proved)
    assert not any(it.startswith(("tools/tests", "tools/packing", "crates/")) for it in there) and len(there) > 80, len(there)
    return place


def pages_of_man(place):
    """A page for each command that has a section, which roff will take as it is meant."""
    usage = re.search(r"usage: pegasus (.*)", (place / "docs/COMMANDS.md").read_text())[1]
    names = {it for form in usage.split(", ") for it in form.split(" ")[0].split("|")}
    pages = {it.name: it.read_text() for it in (place / "share/man/man1").iterdir()}
    assert pages.keys() == {"pegasus.1", *(f"pegasus-{name}.1" for name in names)}, pages.keys()
    for name, text in pages.items():
        assert text.startswith(".TH PEGASUS") and re.search(r"\n\.SH NAME\n\S+ \\- \w.*\n\.SH SYNOPSIS\n", text), name
        assert {line.split(" ")[0] for line in text.splitlines() if line.startswith((".", "'"))} <= REQUESTS, name
        assert not re.search(r"[`|]\n|\]\(|^#", text, re.MULTILINE), name
    for words in ("HOW A CALL CAN END", "TRANSFORMATIONS"):
        assert f".SH {words}" in pages["pegasus.1"], words


def completions(place):
    """They are what tools/completion prints, there too."""
    for shell, file in (("bash", "bash-completion/completions/pegasus"), ("zsh", "zsh/site-functions/_pegasus")):
        text = (place / "share" / file).read_text()
        assert text and text == right(place, sys.executable, "-B", "tools/completion", shell), shell


def tools_begin(place):
    """Each tool finds all that it needs."""
    for tool in (place / "tools").iterdir():
        if os.access(tool, os.X_OK) and tool.is_file():
            _, text, errors = call(place, sys.executable, "-B", tool, "--help", stdin=subprocess.DEVNULL)
            assert (text or errors) and "Traceback" not in errors, (tool, errors)


def below(folder):
    return sorted(str(it.relative_to(folder)) for it in folder.rglob("*"))


def installs(place):
    """Below a folder that has files of somebody else, and from there taken away again; what is in the way stays."""
    prefix, user = work / "prefix", work / "user"
    (prefix / "bin").mkdir(parents=True)
    (prefix / "bin/pegasus-draw").write_text("mine\n")
    user.mkdir()
    shutil.copytree("examples", user / "examples")
    status, _, errors = call(user, place / "install.sh", prefix)
    assert status == 1 and "pegasus-draw is there already" in errors and below(prefix) == ["bin", "bin/pegasus-draw"], errors
    (prefix / "bin/pegasus-draw").rename(prefix / "bin/mine")
    before = below(prefix)
    right(user, place / "install.sh", prefix)
    assert call(user, place / "install.sh", prefix)[0] == 1
    program = prefix / "bin/pegasus"
    commit = re.search(r"^commit (\w{8})", (place / "PROVED.txt").read_text(), re.MULTILINE)[1]
    for word in ("--version", "-V"):
        assert right(user, program, word) == f"pegasus {pathlib.Path('VERSION').read_text().strip()} (commit {commit}, a-kit)\n"
    assert call(user, program, "check", "a b")[:2] == (3, "no document a%20b\n")
    wanted = right(".", sys.executable, "tools/model", "alone", EXAMPLE)
    assert right(user, program, "alone", EXAMPLE) == wanted
    status, usage, told = call(user, program, "--help")
    assert status == 2 and usage.startswith("usage: ") and f"{prefix}/lib/pegasus/docs/GUIDE.md" in told, (status, usage, told)
    assert told.count("\npegasus: ") > 12 and "run REQ --workers N " in told, told
    for words in (("run", "--help"), ("help", "run")):
        status, other, told = call(user, program, *words)
        assert (status, other) == (2, usage), (words, status, other)
        assert told.startswith("pegasus: run REQ --workers N ") and "alone REQ" not in told, told
    status, other, told = call(user, program, "run", EXAMPLE)
    assert (status, other) == (2, usage) and "the form is run REQ --workers N; pegasus run --help says more" in told, told
    picture = right(user, prefix / "bin/pegasus-draw", "plan", input=right(user, program, "plan", EXAMPLE))
    assert picture.startswith("<svg ") and "<html" in right(user, prefix / "bin/pegasus-report", EXAMPLE)
    for link in ("share/man/man1/pegasus-run.1", "share/zsh/site-functions/_pegasus", "share/bash-completion/completions/pegasus"):
        assert (prefix / link).is_symlink() and (prefix / link).is_file(), link
    (prefix / "lib/pegasus/mine").write_text("mine\n")
    right(user, prefix / "lib/pegasus/install.sh", "--remove", prefix)
    assert below(prefix) == sorted([*before, "lib", "lib/pegasus", "lib/pegasus/mine"]), below(prefix)
    (prefix / "lib/pegasus/mine").unlink()
    (place / "examples/diamond/f.a").write_text("torn\n")
    assert "isn't whole" in call(user, place / "install.sh", work / "other")[2] and not (work / "other").exists()
    return wanted


def runs_without_kit(wanted):
    """In a folder as its root that has the C library, a shell and what the script calls, and nothing else."""
    if os.geteuid() != 0:
        print("release: skipped, only root can make a folder the root of a call")
        return
    root = work / "root"
    programs = [shutil.which(it) for it in ("bash", "env", "readlink", "cat")]
    listed = right(".", "ldd", PROGRAM.absolute(), *programs)
    for path in {*programs, *re.findall(r"(?<=[\s])/\S+(?= \()", listed)}:
        at = root / ("usr/bin" if path in programs else os.path.dirname(path)[1:]) / os.path.basename(path)
        at.parent.mkdir(parents=True, exist_ok=True)
        shutil.copy(path, at)
    with tarfile.open(work / "one" / f"{NAME}.tar.gz") as packed:
        packed.extractall(root)
    script = f"cd /{NAME}; exec ./pegasus alone {EXAMPLE}"
    assert right("/", "/usr/bin/bash", "-c", script, env={"PATH": "/usr/bin"}, preexec_fn=lambda: os.chroot(root)) == wanted
    assert (root / NAME / "output/f.d").read_text() == "c\nd\na\nb\n"


def main():
    is_named()
    if not PROGRAM.exists() or call(".", "git", "rev-parse", "HEAD")[0] != 0:
        print("release: skipped, no program is built, or no checkout by git")
        return
    top = work / "top"
    copied(top)
    stamps(top)
    refusals(top)
    place = twice(top)
    pages_of_man(place)
    completions(place)
    tools_begin(place)
    runs_without_kit(installs(place))
    print("release: ok")


main()
