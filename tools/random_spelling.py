"""How documents are written, for tools/random-workflows: spelled in several ways, with keys that aren't acted on, and now and
then with a fault.
"""
from __future__ import annotations

import copy
import json

JUNK = (None, True, False, "", "x", "input", "job", "5.1", 0, 1, -1, 1.5, 2**41, 2**61, 2**64, 11,
        [], {}, [1], ["x"], [{}], {"x": 1})


def strewn(chance, value, table, share):
    """The same with keys that aren't acted on, and with nulls for keys that are absent, here and there."""
    if isinstance(table, list):
        return [strewn(chance, it, table[0], share) for it in value] if isinstance(value, list) else value
    if not table or not isinstance(value, dict):
        return value
    made = {key: strewn(chance, it, table.get(key), share) for key, it in value.items()}
    for key in (it for it in table if it not in value and chance.is_so(share)):
        made[key] = None
    if chance.is_so(share):
        made[chance.choice(("metadata", "a/b", "~", "x y", "hooks", ""))] = chance.choice(({"k": [1]}, None, "text", 1.5))
    return made


def letters(chance, text):
    """A text in quotes, now and then with each letter as its number."""
    if chance.is_so(0.1):
        units = text.encode("utf-16-be", "surrogatepass")
        return '"' + "".join(f"\\u{units[at]:02x}{units[at + 1]:02X}" for at in range(0, len(units), 2)) + '"'
    made = json.dumps(text, ensure_ascii=chance.is_so(0.5))
    return made.replace("/", "\\/") if chance.is_so(0.2) else made


def spelled(chance, value):
    """The same value spelled otherwise: with spaces, escapes, and keys that stood there before with another value."""
    space = chance.choice(("", "", " ", "\n", "\t", "\r\n  "))
    if isinstance(value, str):
        return letters(chance, value)
    if isinstance(value, list):
        return "[" + space + ("," + space).join(spelled(chance, it) for it in value) + space + "]"
    if not isinstance(value, dict):
        return json.dumps(value)
    members = []
    for key, it in value.items():
        if chance.is_so(0.03):
            members.append(f"{letters(chance, key)}{space}:{json.dumps(chance.choice(JUNK))}")
        members.append(f"{letters(chance, key)}{space}:{space}{spelled(chance, it)}")
    return "{" + space + ("," + space).join(members) + space + "}"


def text_of(chance, value):
    if chance.is_so(0.1):
        return spelled(chance, value).encode("utf-8", "surrogatepass")
    text = json.dumps(value, ensure_ascii=chance.is_so(0.5), indent=chance.choice((None, None, 1)))
    return text.encode("utf-8", "surrogatepass")


# Faults


def junk(chance):
    return copy.deepcopy(chance.choice(JUNK))


def tree_of(content):
    """What a document says, unless it was cut off before."""
    try:
        return json.loads(content)
    except ValueError:
        return None


def spots(value, found):
    """Each place of a tree at which something stands: what holds it, and under which key."""
    below = value.items() if isinstance(value, dict) else enumerate(value) if isinstance(value, list) else ()
    for key, it in below:
        found.append((value, key))
        spots(it, found)
    return found


def spoil_tree(chance, tree):
    """Puts something else in a place, takes it out, doubles it, or adds a key."""
    found = spots(tree, [])
    if not found:
        return
    holder, key = chance.choice(found)
    kind = chance.choice(("junk", "junk", "out", "more"))
    if kind == "junk":
        holder[key] = junk(chance)
    elif kind == "out":
        del holder[key]
    elif isinstance(holder, dict):
        holder[chance.choice(("colour", "a/b", "a0", "~"))] = junk(chance)
    else:
        holder.insert(chance.randint(0, len(holder)), copy.deepcopy(chance.choice(holder)))


def with_other_bytes(chance, content):
    """A byte or two put in, taken out or exchanged, mostly for one that means something in a document."""
    made = bytearray(content)
    for _ in range(chance.choice((1, 1, 2))):
        at = chance.randint(0, max(0, len(made) - 1))
        new = chance.choice(b'"\\{}[],:-+.0123eEtfn /\n\r\t') if chance.is_so(0.7) else chance.randrange(256)
        made[at:at + chance.randint(0, 1)] = bytes([new]) if chance.is_so(0.8) else b""
    # No name has a NUL: no file can be called so.
    return bytes(made).replace(b"\\u0000", b"\\u0001")


def spoil_documents(chance, made):
    """A fault in one of the documents, or what looks like one."""
    name = chance.choice(sorted(made.documents))
    if chance.is_so(0.07):
        made.documents[name] = made.documents[name][: chance.randint(0, len(made.documents[name]))]
    elif chance.is_so(0.25):
        made.documents[name] = with_other_bytes(chance, made.documents[name])
    elif chance.is_so(0.05):
        del made.documents[name]
    elif (tree := tree_of(made.documents[name])) is not None:
        for _ in range(chance.choice((1, 1, 2))):
            spoil_tree(chance, tree)
        made.documents[name] = text_of(chance, tree)
