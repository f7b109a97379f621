"""The text of a record: the form of its lines, and how it is read."""
import re

from .faults import OfRecord

# What follows an entry's first word, and a cause's: numbers below 2^32 (n), sizes below 2^64 (s), a digest (h), any sizes (*).
ENTRIES = {"grant": "nn", "arrive": "nns", "end": "nn*", "clean": "nn", "regrant": "nn"}
CAUSES = {"absent": "", "toolong": "s", "checksum": "h", "oversize": "nns", "declined": "n", "toolfailed": "n",
          "hostfailed": "*", "memory": "*"}
TRIED_AGAIN = ("toolfailed", "hostfailed")
SECOND = ("again", "regrant")


class Malformed(OfRecord):
    """The number, from 1, of the first line that isn't one of a record at its place."""

    line = "bad record {}"


def is_word(form, word):
    if form == "h":
        return re.fullmatch("[0-9a-f]{64}", word) is not None
    is_number = re.fullmatch("0|[1-9][0-9]{0,19}", word) is not None
    return is_number and int(word) < 2 ** (32 if form == "n" else 64)


def has_shape(shape, words):
    if shape.endswith("*"):
        shape = shape[:-1] + "s" * (len(words) - len(shape) + 1)
    return len(shape) == len(words) and all(map(is_word, shape, words))


def is_entry(words):
    kind, *more = words
    if kind in ("fail", "again"):
        cause, *rest = more[2:] or [""]
        is_known = cause in (TRIED_AGAIN if kind == "again" else CAUSES)
        return is_known and has_shape("nn", more[:2]) and has_shape(CAUSES[cause], rest)
    return kind in ENTRIES and has_shape(ENTRIES[kind], more)


def lines_of(data):
    """The lines of a text, each with its line feed: a last piece without one is a line too."""
    *whole, last = data.decode("latin-1").split("\n")
    return [line + "\n" for line in whole] + ([last] if last else [])


def read_record(data):
    """The entries of a record's text, as words. What follows its first line `closed` is no part of it."""
    lines = lines_of(data)
    may_be_second = {"record 1\n": False, "record 2\n": True}.get(lines[0] if lines else "")
    if may_be_second is None:
        raise Malformed(1)
    entries = []
    for place, line in enumerate(lines[1:], 2):
        if line == "closed\n" and may_be_second == any(it[0] in SECOND for it in entries):
            return entries
        words = line.removesuffix("\n").split(" ")
        if not line.endswith("\n") or not is_entry(words) or words[0] in SECOND and not may_be_second:
            raise Malformed(place)
        entries.append(words)
    raise Malformed(len(lines) + 1)


def written(entries):
    """The lines of a record of these entries, each a line."""
    is_second = any(entry.split(" ")[0] in SECOND for entry in entries)
    return [f"record {1 + is_second}", *entries, "closed"]
