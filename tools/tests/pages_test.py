"""Tests of the pages: how many words each has, that nothing is said twice, that each path, command and name on them is there,
and that what they count is counted."""
import collections
import pathlib
import re
import sys

import pages

sys.dont_write_bytecode = True
sys.path.insert(0, "tools")
from model.transformations import TOOLS

PATH = re.compile(r"(?:crates|docs|tools|bench|examples|\.ci)/[\w.*/-]+")
NAME = re.compile(r"[A-Za-z][A-Za-z0-9]*(?:_[A-Za-z0-9]+)+|[A-Z][a-z]+(?:[A-Z][a-z]*)+")
OPTION = re.compile(r"(?<![\w/.-])((?:tools|bench|examples)/[\w/-]*\w)((?: [^`|\n]*?)??) (--[a-z-]+)")
told = {name: page.read_text(encoding="utf-8") for name, page in pages.all_pages().items()}


def source_files():
    """The files in which a name of a page may stand."""
    for pattern in ("crates/*/src/**/*.rt", "crates/*/specs/**/*.antt", "crates/*/proofs/**/*.antt", "crates/*/data/*.toml",
                    "tools/*", "tools/tests/*", "bench/*", "examples/**/*.json", "examples/**/*.yml"):
        yield from (it for it in pathlib.Path().glob(pattern) if it.is_file())


def known_names():
    """Every name that stands in the repository's own files, or is a file's."""
    found = {it.stem for it in pathlib.Path("crates").glob("*/*/*.edit")} | {it.name for it in pathlib.Path("crates").iterdir()}
    for file in source_files():
        found.update(re.findall(r"[A-Za-z]\w*", file.read_text(encoding="utf-8", errors="replace")))
        found.add(file.stem)
    return found


def ticked(text):
    """What stands between back-ticks in the lines that are no code."""
    return [it for line in pages.prose(text) for it in re.findall(r"`([^`]+)`", line)]


def words_are_few():
    assert set(told) == set(pages.MOST_WORDS), set(told) ^ set(pages.MOST_WORDS)
    counts = {name: len(text.split()) for name, text in told.items()}
    for name, most in pages.MOST_WORDS.items():
        assert counts[name] <= most, f"{name} has {counts[name]} words, and at most {most} are wanted"
    assert sum(counts.values()) <= pages.MOST_IN_ALL, sum(counts.values())
    return sum(counts.values())


def nothing_is_said_twice():
    found = collections.defaultdict(list)
    for name, text in told.items():
        for sentence in pages.sentences(text):
            if len(sentence.split()) >= 9:
                found[sentence].append(name)
    twice = {sentence: names for sentence, names in found.items() if len(names) > 1}
    assert not twice, twice
    return len(found)


def paths_are_there():
    count = 0
    for name, text in told.items():
        for path in {path.rstrip(".") for it in ticked(text) for path in re.findall(rf"(?<![\w/.])(?:\./)?({PATH.pattern})", it)}:
            # (a word in capitals stands for what a reader puts there)
            if not re.search("[A-Z]{3}", path):
                assert any(pathlib.Path().glob(path.rstrip("/"))), f"{name}: there is no {path}"
                count += 1
        for file in {it for it in re.findall(r"(?<![\w/])\w+_test\.py\b|(?<![\w/])\w+\.toml\b", " ".join(ticked(text)))}:
            assert any(pathlib.Path(folder, file).exists() for folder in ("tools/tests", "crates/cases/data")), f"{name}: there is no {file}"
            count += 1
    return count


def names_are_there():
    known, count = known_names(), 0
    for page, text in told.items():
        for name in {name for it in ticked(text) for name in NAME.findall(re.sub(r"\S*[/=.]\S*", " ", it))}:
            assert name in known, f"{page}: {name} stands nowhere"
            count += 1
    return count


def commands_are_there():
    usage = next(line for line in told["COMMANDS"].splitlines() if line.startswith("    usage: "))
    own, count = set(re.findall(r"[a-z]+", re.sub(r"--\w+", "", usage))), 0
    for page, text in told.items():
        for command in re.findall(r"\./pegasus ([a-z]+)\b", text):
            assert command in own, f"{page}: there is no command {command}"
            count += 1
        for tool, _, option in OPTION.findall(text):
            if pathlib.Path(tool).is_file():
                assert option in pathlib.Path(tool).read_text(encoding="utf-8"), f"{page}: {tool} knows no {option}"
                count += 1
    return count


def built_crates():
    """The crates of the program."""
    lines = [line.split(":", 1) for line in pathlib.Path("crates.txt").read_text(encoding="utf-8").splitlines() if re.match(r"\w+:", line)]
    uses, seen, todo = {name: rest.split() for name, rest in lines}, set(), ["pegasus"]
    while todo:
        name = todo.pop()
        if name in uses and name not in seen:
            seen.add(name)
            todo += uses[name]
    return seen


def lines_in(folder, ending):
    """How many lines of the program's crates aren't empty."""
    files = (it for name in built_crates() for it in pathlib.Path("crates", name, folder).glob(f"**/*{ending}"))
    return sum(bool(line.strip()) for it in files for line in it.read_text(encoding="utf-8").splitlines())


def number(text, pattern):
    return int(re.search(pattern, text)[1].replace(",", ""))


LIMITS = (
    (r"at most ([\d,]+) jobs", "workflow_reader/specs/Linking.antt", r"few Jobs (\d+)"),
    (r"([\d,]+) files and", "workflow_reader/specs/Linking.antt", r"few Files (\d+)"),
    (r"(\d+) sites, its plan", "peg_json/specs/Elements.antt", r"few Sites (\d+)"),
    (r"its plan ([\d,]+) tasks", "pegasus_commands/specs/code/Commands/Plan.antt", r"task_limit = (\d+)"),
    (r"a document ([\d,]+) bytes", "pegasus_commands/specs/Course.antt", r"document_limit = (\d+)"),
)


def limits_are_those_of_the_definitions():
    for pattern, path, defined in LIMITS:
        said, found = number(told["README"], pattern), number(pathlib.Path("crates", path).read_text(encoding="utf-8"), defined)
        assert said == found, f"README says {said}, and crates/{path} has {found}"
    table = told["COMMANDS"].split("| Transformation |")[1].split("\n\n")[0]
    shipped = [it for line in table.splitlines()[2:] for it in re.findall(r"`(\w+)`", line.split(" | ")[0])]
    assert shipped == list(TOOLS) and len(shipped) == 12 and "one of twelve shipped" in told["README"], shipped


def counts_are_right():
    for folder, ending, pattern in (("src", ".rt", r"some ([\d,]+) lines of code"), ("proofs", ".antt", r"and ([\d,]+) of proofs")):
        counted, said = lines_in(folder, ending), number(told["README"], pattern)
        assert abs(counted - said) <= counted // 200, f"README says {said} lines of {folder}, and there are {counted}"
    for folder, pattern in (("wrong", r"(\d+) stand in `crates/\*/wrong`"), ("must-fail", r"(\d+) in `crates/\*/must-fail`")):
        counted = len(list(pathlib.Path("crates").glob(f"*/{folder}/*.edit")))
        assert number(told["TESTED"], pattern) == counted, f"TESTED: there are {counted} edits in {folder}"
    headline = pathlib.Path("crates/pegasus_cli/specs/Headline.antt").read_text(encoding="utf-8")
    fields = re.findall(r"^  pub (\w+) :", headline[headline.index("pub record Headline"):headline.index("pub record EndsSo")], re.MULTILINE)
    table = told["PROVED"].split("| Field |")[1].split("\n\n")[0]
    named = [it for line in table.splitlines()[2:] for it in re.findall(r"`(\w+)`", line.split(" | ")[0])]
    assert sorted(fields) == sorted(named) and len(fields) == 17, (fields, named)
    assert set(re.findall(r"(\w+) fields", told["README"])) == {"seventeen"}, "README: another number of fields"
    of_told_stores = re.findall(r"^  pub (\w+) : ShownBy", headline, re.MULTILINE)
    said = next(line for line in told["README"].splitlines() if "seventeen fields (" in line)
    assert re.findall(r"`(\w+)`", said) == of_told_stores and len(of_told_stores) == 3, (said, of_told_stores)
    crates = [it for line in told["ARCHITECTURE"].split("\n## ")[0].splitlines() if line.startswith("| `") for it in re.findall(r"`(\w+)`", line.split(" | ")[0])]
    assert sorted(crates) == sorted(it.name for it in pathlib.Path("crates").iterdir() if (it / "src").is_dir()), crates


words, said = words_are_few(), nothing_is_said_twice()
there, named, called = paths_are_there(), names_are_there(), commands_are_there()
counts_are_right()
limits_are_those_of_the_definitions()
print(f"pages: ok, {words} words, {said} sentences, {there} paths, {named} names and {called} commands")
