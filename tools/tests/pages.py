"""The pages, and the commands on those that are typed, with the texts printed after them."""
import pathlib
import re

PAGES = ("README.md", "docs/COMMANDS.md", "docs/GUIDE.md")
# How many words a page may have, and all of them together.
MOST_WORDS = {
    "README": 1400, "GUIDE": 4500, "COMMANDS": 5000, "FORMATS": 3800, "PROVED": 2000, "TESTED": 1800, "ARCHITECTURE": 2500,
    "DEVELOPING": 2200, "DECISIONS": 1500, "GATE": 500, "MEASURED": 650,
}
MOST_IN_ALL = 27000


def all_pages():
    """Each page by its name."""
    return {it.stem: it for it in (pathlib.Path("README.md"), *sorted(pathlib.Path("docs").glob("*.md")))}


def prose(text):
    """The lines of a page that are no code."""
    is_code = False
    for line in text.splitlines():
        is_code = is_code != line.startswith("```")
        if not is_code and not line.startswith(("    ", "```")):
            yield line


def sentences(text):
    """Those of a page and of the cells of its tables, in small letters with one space between two words."""
    for line in prose(text):
        for cell in line.strip("| ").split(" | "):
            for sentence in re.split(r"(?<=[.:;!?])\s+", cell):
                yield " ".join(sentence.strip("-*# ").lower().split())


def commands_in(text):
    """Each command of a text with the lines below it."""
    found, is_open = [], False
    for line in text.splitlines():
        if line.startswith("    $ "):
            found.append([line[6:], []])
            is_open = True
        elif not line.startswith("    "):
            is_open = False
        elif is_open and found[-1][0].endswith("\\"):
            found[-1][0] = found[-1][0][:-1] + line.strip()
        elif is_open:
            found[-1][1].append(line[4:])
    return found


def experiment():
    """The commands of README's block in which the prover is called, which are typed by experiment_test.py."""
    text = pathlib.Path("README.md").read_text(encoding="utf-8")
    return next(commands_in(block) for block in re.findall(r"(?:^    .*\n)+", text, re.MULTILINE) if "rt check" in block)


def commands(page):
    """Each command of a page with the lines below it, but for those of the experiment."""
    apart = experiment() if page == "README.md" else []
    return [it for it in commands_in(pathlib.Path(page).read_text(encoding="utf-8")) if it not in apart]


def documents(page):
    """Each document on a page, or keys of it, with the name of the example's in the line above."""
    text = pathlib.Path(page).read_text(encoding="utf-8")
    for before, block in re.findall(r"(.+)\n\n((?:    .*\n)+)", text):
        name = re.findall(r"`(examples/[\w/]+\.json)`", before)
        if name and block.lstrip()[0] in '{"':
            yield name[-1], block.strip()


def blocks(page, command):
    """The texts printed after `./pegasus COMMAND`: the request, the pattern of a `grep` behind it, and the lines."""
    found, is_inside = [], False
    for line in pathlib.Path(page).read_text(encoding="utf-8").splitlines():
        call = re.fullmatch(rf"    \$ (?:\./pegasus {command} (\S+\.json)(?: \| grep (?:-E )?'?([^']*)'?)?)?(.*)", line)
        if call:
            is_inside = bool(call[1]) and not call[3]
            if is_inside:
                found.append((call[1], call[2] or "", []))
        elif not line.startswith("    "):
            is_inside = False
        elif is_inside:
            found[-1][2].append(line[4:])
    return found


def texts(command):
    """Those of the examples on all pages but what the script tells of a build, and requests that aren't there."""
    for page in PAGES:
        for request, pattern, lines in blocks(page, command):
            is_there = request.startswith("examples/") and pathlib.Path(request).exists()
            if is_there and not lines[0].startswith("pegasus: "):
                yield request, pattern, lines
