"""What is to be seen of a request's documents before anything is planned, for tools/why: the fault for which they are refused,
with the key that may be meant, and the keys that aren't acted on."""
from __future__ import annotations

import json
import os

import documents
import endings
import names
import near_keys
from findings import in_the_way, note
from model.tables import INLINED, KINDS


def tree_of(name):
    """What a document says, if it says anything."""
    try:
        with open(name, encoding="utf-8") as file:
            return json.load(file)
    except (OSError, ValueError, RecursionError):
        return None


def path_of(request, kind):
    """The path of a document of a request: of its own key, or the workflow's where the catalogue stands in it."""
    if kind == "request":
        return request
    stated = tree_of(request)
    stated = stated if isinstance(stated, dict) else {}
    found = stated.get(kind) if isinstance(stated.get(kind), str) else stated.get("workflow")
    return found if isinstance(found, str) else None


# A document that isn't there


def hints_of_absent(request, name):
    """Where it may be: beside the request, as it would be seen from there."""
    beside_request = os.path.join(os.path.dirname(request), os.path.basename(name))
    if name != request and os.path.exists(beside_request):
        yield f"{beside_request} is there: paths in a request are seen from the folder of the call, which is {os.getcwd()}"
    elif not os.path.isabs(name):
        yield f"paths are seen from the folder of the call, which is {os.getcwd()}"


# A document that is refused


def place_of_syntax(path):
    """Where a text ceases to be JSON."""
    try:
        with open(path, encoding="utf-8") as file:
            text = file.read()
        json.loads(text)
    except (OSError, UnicodeDecodeError, RecursionError) as fault:
        return f"{path}: {fault}"
    except json.JSONDecodeError as fault:
        line = text.splitlines()[fault.lineno - 1:fault.lineno]
        shown = "".join(letter if letter.isprintable() else " " for letter in (line or [""])[0])
        is_yaml = path.endswith((".yml", ".yaml")) or not text.lstrip().startswith("{")
        yaml = "; if it is YAML, tools/from-pegasus turns it into documents" if is_yaml else ""
        return f"{path} line {fault.lineno}, column {fault.colno}: {fault.msg}: {shown[:60].strip()}{yaml}"
    return f"{path} has a number or a text that no document may have, or is too deep"


def hints_of_refusal(request, words):
    """What may be meant, where a key isn't known or one is missing."""
    kind, what, *more = words
    path = path_of(request, kind) if kind in (*KINDS, "request") else None
    if path is None or what not in ("syntax", "missing", "unsupported"):
        return
    if what == "syntax":
        yield place_of_syntax(path)
        return
    pointer, tree = names.shown(more[0]), tree_of(path)
    if kind == "request" and isinstance(tree, dict) and set(tree) & {"jobs", "members"}:
        yield (f"{path} is a workflow, and a request is wanted, which names it" if "jobs" in tree
               else f"{path} is an ensemble: tools/join {path} joint writes it as the request joint/request.json")
    elif what == "missing":
        found = near_keys.written(kind, tree, pointer)
        if found is not None:
            yield f"{path} has a key {found} there: {near_keys.parts(pointer)[-1]}?"
    elif kind == "request":
        found = near_keys.meant(kind, tree, pointer)
        if found is not None:
            yield f"{found}?"


def refused(request, fault):
    """The refusal of the documents, as the program tells it."""
    line = fault.told()
    words = line.split(" ")
    if words[:2] == ["no", "document"]:
        hints = hints_of_absent(request, names.shown(words[2]))
    else:
        hints = hints_of_refusal(request, words[1:]) if words[0] == "refused" else ()
    return in_the_way("documents", line, *hints, endings.advice(line), line=line)


# Keys that aren't acted on


def meant_of(survey, kind, path):
    """The key that may be meant by one that isn't acted on."""
    inlined = path.startswith(f"/{INLINED.get(kind)}/")
    outer = {INLINED[kind]: survey.documents[kind]} if inlined else survey.documents[kind]
    return near_keys.meant("workflow" if inlined else kind, outer, path)


def ignored(survey):
    """The keys that aren't acted on, in groups by what they are but for their numbers."""
    for kind, paths in survey.ignored.items():
        for pattern, them in documents.alike(sorted(paths, key=str.encode)).items():
            first, count = them[0], len(them)
            found = meant_of(survey, kind, first)
            told = first if count == 1 else f"{pattern} {count} times, first {first}"
            asked = f": {found}?" if found else ""
            yield note("ignored", f"not acted on: {kind} {told}{asked}", document=kind, paths=them, meant=found)
