"""Pages of man, made of the page of commands: `pegasus-NAME(1)` of each section whose title is a command's name, and
`pegasus(1)` of all others. What is written so in Markdown there is a sentence or two a line, blocks indented by four places,
tables, lists, links and pictures; nothing else is known here.
"""
from __future__ import annotations

import re

import forms

SECTION = re.compile(r"## (.+)")
ABOUT = "plans and runs scientific workflows"


def sections(page):
    """Each section's title with its lines; before the first one the title is empty."""
    found = [("", [])]
    for line in page.splitlines():
        title = SECTION.fullmatch(line)
        if title:
            found.append((title[1].strip().strip("`"), []))
        elif not line.startswith("# "):
            found[-1][1].append(line)
    return found


def escaped(text):
    """Text as roff takes it: a backslash, and the hyphen that can be copied."""
    return text.replace("\\", "\\e").replace("-", "\\-").replace("'", "\\(aq")


def at_start(line):
    """A line that roff won't take for a request."""
    return "\\&" + line if line.startswith((".", "'")) else line


def inline(text):
    """Words with code in bold, links as their words and no other mark."""
    text = re.sub(r"!?\[([^\]]*)\]\([^)]*\)", r"\1", text)
    pieces = re.split(r"(`[^`]+`)", text)
    plain = (re.sub(r"\*\*?([^*]+)\*?\*", r"\1", escaped(it)) for it in pieces[::2])
    code = (f"\\fB{escaped(it[1:-1])}\\fP" for it in pieces[1::2])
    return "".join(it for pair in zip(plain, [*code, ""]) for it in pair)


def block(lines):
    """Lines that stand as they are."""
    return [".PP", ".RS 4", ".nf", *(at_start(escaped(line[4:])) for line in lines), ".fi", ".RE"]


def cells(row):
    return [it.strip() for it in re.split(r"(?<!\\)\|", row.strip().strip("|"))]


def table(lines):
    """A row after the other: its first cell, and below it the others, each after what stands above it."""
    head, *rows = (cells(it) for it in lines if not re.fullmatch(r"\|[ :|-]+\|", it))
    for first, *rest in rows:
        yield ".TP"
        yield at_start(inline(first)) or "\\&"
        named = zip(head[1:], rest) if len(rest) > 1 else (("", it) for it in rest)
        told = [f"{inline(name)}: {inline(it)}" if name else inline(it) for name, it in named if it]
        yield from "\n.br\n".join(map(at_start, told)).splitlines()


def item(line):
    """What stands before an item of a list, and the item; nothing for another line."""
    found = re.match(r"(?:([-*])|(\d+\.)) +(.*)", line)
    return found and ("\\(bu" if found[1] else found[2], found[3])


def kind_of(line):
    if line.startswith("    "):
        return block
    return table if line.startswith("|") else None


def runs(lines):
    """Lines of one kind that stand together, as the kind and the lines; an empty line within a block is of it."""
    kind, held = None, []
    for at, line in enumerate(lines):
        follows = next((it for it in lines[at:] if it), "")
        of = kind if kind is block and not line and kind_of(follows) is block else kind_of(line)
        if of is not kind and held:
            yield kind, held
            held = []
        kind = of
        held.append(line)
    if held:
        yield kind, held


def prose(lines):
    """Paragraphs, items of lists, titles of parts and what a picture shows."""
    is_new, is_item = True, False
    for line in lines:
        found = item(line)
        if not line:
            is_new = True
        elif line.startswith("### "):
            yield from (".SS " + inline(line[4:]),)
        elif found:
            yield from (f".IP {found[0]} 4", at_start(inline(found[1])))
            is_new, is_item = False, True
        elif is_item and line.startswith("  "):
            yield at_start(inline(line.strip()))
        else:
            if is_new or is_item:
                yield ".PP"
            picture = re.fullmatch(r"!\[([^\]]*)\]\((.*)\)", line)
            yield at_start(f"({inline(picture[1])}: docs/{escaped(picture[2])})" if picture else inline(line))
            is_new, is_item = False, False


def body(lines):
    for kind, held in runs(lines):
        yield from (kind or prose)(held)


def page(name, title, about, usage, version, date):
    """How a page begins."""
    yield f'.TH {name.upper()} 1 "{date}" "{version}" "pegasus"'
    yield from (".nh", ".SH NAME", f"{escaped(name)} \\- {about}", ".SH SYNOPSIS", ".nf")
    yield from (f"\\fBpegasus {escaped(form.words)}\\fP" for form in usage)
    yield from (".fi", f".SH {title}")


def of_command(form, lines, version, date):
    yield from page(f"pegasus-{form.command}", "DESCRIPTION", inline(form.about), [form], version, date)
    yield from body(lines)
    yield from (".SH SEE ALSO", "\\fBpegasus\\fP(1)")


def of_all(found, commands, usage, version, date):
    yield from page("pegasus", "DESCRIPTION", ABOUT, usage, version, date)
    yield from body(found[0][1])
    for title, lines in found[1:]:
        if title not in commands:
            yield f".SH {inline(title).upper()}"
            yield from body(lines)
    yield ".SH SEE ALSO"
    yield ",\n".join(f"\\fBpegasus\\-{name}\\fP(1)" for name in commands)


def made_of(text, version, date):
    """The pages by their names, made of the page of commands and of the table of their forms."""
    found, usage = sections(text), {form.command: form for form in forms.read()}
    commands = [title for title, _ in found if title in usage]
    texts = {f"pegasus-{title}.1": of_command(usage[title], lines, version, date) for title, lines in found if title in usage}
    texts["pegasus.1"] = of_all(found, commands, usage.values(), version, date)
    return {name: "\n".join(lines) + "\n" for name, lines in texts.items()}
