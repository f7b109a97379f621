"""Tests of what the pages show of the repository: each file of a crate that a page names and each place that it links to is
there; in the table of rules each name stands in the file before it, and what shows a rule is a case or an edit; a document
that stands below the name of an example's is that one, or keys of it; and the crates of a build are as many as the pages say.
And of the crates: none names what would hide a value that isn't `Drop`, as a part of a host's, from the compiler."""
import json
import pathlib
import re

import pages

PATH = re.compile(r"`(?:crates/)?(\w+/(?:src|specs|proofs)/[\w./-]*?)/?`(?:: ((?:`\w+`(?:, )?)+))?")
LINK = re.compile(r"\]\(([^)#]+)(#[^)]*)?\)")
SHOWS = {it.stem for it in pathlib.Path("crates").glob("*/*/*.edit")}
for cases in pathlib.Path("crates/cases/data").glob("*.toml"):
    SHOWS.update(re.findall(r'^\[case\."?([^]"]+)"?\]$', cases.read_text(encoding="utf-8"), re.MULTILINE))
paths, names, links, rules = 0, 0, 0, 0


def anchors(page):
    """The headings of a page, as links name them."""
    headings = re.findall(r"^#+ (.*)$", page.read_text(encoding="utf-8"), re.MULTILINE)
    return {"#" + re.sub(r"[^\w -]", "", it.lower()).replace(" ", "-") for it in headings}


crates = {it.name for it in pathlib.Path("crates").iterdir()}
for page in (pathlib.Path("README.md"), *sorted(pathlib.Path("docs").glob("*.md"))):
    for target, anchor in LINK.findall(page.read_text(encoding="utf-8")):
        assert (page.parent / target).exists(), f"{page}: there is no {target}"
        assert not anchor or anchor in anchors(page.parent / target), f"{page}: {target} has no {anchor}"
        links += 1
    for line in page.read_text(encoding="utf-8").splitlines():
        if line.count(" | ") == 4 and PATH.search(line):
            shown_by = re.findall(r"`([^`]+)`", line.split(" | ")[4])
            assert shown_by and SHOWS.issuperset(shown_by), f"{page}: no case and no edit {shown_by}"
            rules += 1
        for path, named in PATH.findall(line):
            if path.split("/")[0] not in crates:
                continue
            file = pathlib.Path("crates", path)
            assert file.exists(), f"{page}: there is no crates/{path}"
            paths += 1
            if named and file.is_file() and line.count(" | ") == 4:
                text = file.read_text(encoding="utf-8")
                for name in re.findall(r"`(\w+)`", named):
                    assert re.search(rf"(?<![\w-]){name}(?![\w-])", text), f"{page}: {name} doesn't stand in crates/{path}"
                    names += 1
assert names >= 60 and rules >= 40, (names, rules)
shown = 0
for page in pages.PAGES:
    for name, block in pages.documents(page):
        told = json.loads(block if block.startswith("{") else "{" + block + "}")
        found = json.loads(pathlib.Path(name).read_text(encoding="utf-8"))
        assert told == ({key: found.get(key) for key in told} if block.startswith('"') else found), f"{page}: {name} is another document"
        shown += 1
assert shown >= 6, shown
assert paths >= 100 and links >= 20, (paths, links)


def built(name, uses, seen):
    """The crates of a build in its order, each after those that it uses."""
    for other in uses.get(name, []) if name not in seen else []:
        built(other, uses, seen)
    if name in uses:
        seen[name] = None
    return list(seen)


lines = [line.split(":", 1) for line in pathlib.Path("crates.txt").read_text(encoding="utf-8").splitlines() if re.match(r"\w+:", line)]
order = built("pegasus", {name: rest.split() for name, rest in lines}, {})
guide, measured = (pathlib.Path("docs", name).read_text(encoding="utf-8") for name in ("GUIDE.md", "MEASURED.md"))
told = re.search(r"pegasus: done with (\w+), (\d+) of (\d+) crates, after", guide)
assert told and told[1] in order and int(told[2]) < int(told[3]) == len(order), (told, len(order))
assert f"proves the {len(order)} crates of the program" in measured, len(order)
sources = list(pathlib.Path("crates").glob("*/src/**/*.rt"))
assert len(sources) >= 200, len(sources)
for source in sources:
    hides = re.search(r"\b(?:forget|leak)\s*(?:::<[^()]*>)?\(|\bmem::[\w{}, :]*\bforget\b|\bManuallyDrop\b|\bunsafe\b", source.read_text(encoding="utf-8"))
    assert not hides, f"{source}: {hides[0]}"
print(f"rules: ok, {rules} rules, {paths} paths, {links} links, {names} names and {shown} documents")
