"""How a document is read: its text as JSON, and each value as the table of its keys wants it. The first fault is refused with
its place, and the keys that aren't acted on are kept."""
import json
import math
import re
from dataclasses import dataclass, field

from .faults import Refused
from .words import printed

MOST_DEPTH = 127
# The documents in which a key of no table is a fault.
OWN = ("request", "ensemble")


# Texts


def whole(word):
    """A number in digits: one that doesn't fit into 64 bits, and minus zero, is read as a fraction is."""
    return float(word) if word == "-0" or not -2**63 <= int(word) < 2**64 else int(word)


def finite(word):
    """A fraction, which has to be one that a number of 64 bits can come near."""
    found = float(word)
    if math.isinf(found):
        raise ValueError(word)
    return found


def no_constant(word):
    raise ValueError(word)


def is_text_of_unicode(text):
    return not any(0xD800 <= ord(letter) < 0xE000 for letter in text)


def is_within(value, depth):
    """Whether a tree isn't deeper than is read, and has no text with half a pair."""
    if isinstance(value, str):
        return is_text_of_unicode(value)
    if not isinstance(value, (list, dict)):
        return True
    keys = value if isinstance(value, dict) else ()
    below = value.values() if isinstance(value, dict) else value
    return depth < MOST_DEPTH and all(map(is_text_of_unicode, keys)) and all(is_within(it, depth + 1) for it in below)


def parsed(document, content):
    """The tree of a document's bytes."""
    try:
        text = content.decode("utf-8")
        found = json.loads(text, parse_int=whole, parse_float=finite, parse_constant=no_constant)
    except (ValueError, RecursionError):
        raise Refused(f"{document} syntax") from None
    if not is_within(found, 0):
        raise Refused(f"{document} syntax")
    return found


# Kinds and places


def is_text(value):
    return isinstance(value, str)


def is_flag(value):
    return isinstance(value, bool)


def is_number(value):
    return isinstance(value, int) and not is_flag(value) and value >= 0


IS = {
    "text": is_text,
    "name": lambda value: is_text(value) and value != "",
    "number": is_number,
    "flag": is_flag,
    "digits": lambda value: is_text(value) or is_number(value),
    "list": lambda value: isinstance(value, list),
    "object": lambda value: isinstance(value, dict),
    "any": lambda value: True,
}


@dataclass
class Row:
    """A key of a table: what kind its value is of, whether it has to be there, and how its value is read."""

    key: str
    kind: str
    is_needed: bool = False
    read: object = None


def escaped(key):
    return key.replace("~", "~0").replace("/", "~1")


@dataclass
class Place:
    """Where in which document something is read, and the paths of its keys that aren't acted on."""

    document: str
    path: str = ""
    ignored: list = field(default_factory=list)

    def below(self, key):
        return Place(self.document, f"{self.path}/{escaped(str(key))}", self.ignored)

    def refuse(self, word, *more):
        """The fault of this place."""
        raise Refused(" ".join([self.document, word, printed(self.path), *more]))

    def of_kind(self, kind, value):
        if not IS[kind](value):
            self.refuse("kind")


# Objects and lists


def look(place, value, table):
    """An object as a whole: what is missing, or of another kind, in the order of its table."""
    for row in table:
        found, here = value.get(row.key), place.below(row.key)
        if found is None and row.is_needed:
            here.refuse("missing")
        if found is not None:
            here.of_kind(row.kind, found)


def read_object(place, value, table):
    look(place, value, table)
    known = {row.key for row in table}
    unknown = sorted(((place.below(key).path, key) for key in value if key not in known), key=lambda it: it[0].encode())
    if unknown and place.document in OWN:
        path, key = unknown[0]
        Place(place.document, path).refuse("unsupported", printed(key))
    place.ignored.extend(path for path, _ in unknown)
    for row in table:
        found = value.get(row.key)
        if found is not None and row.read is not None:
            row.read(place.below(row.key), found)


@dataclass
class AnObject:
    """Reads an object with these keys."""

    table: list

    def __call__(self, place, value):
        read_object(place, value, self.table)


@dataclass
class Each:
    """Reads a list, element by element: the kind of each is looked at just before it is read."""

    kind: str
    read: object = None

    def __call__(self, place, value):
        for number, it in enumerate(value):
            here = place.below(number)
            here.of_kind(self.kind, it)
            if self.read is not None:
                self.read(here, it)


def objects(table):
    return Each("object", AnObject(table))


def members(kind, read=None):
    """An object with any keys, the least first; a null is of another kind there."""
    def in_order(place, value):
        for key in sorted(value, key=str.encode):
            here = place.below(key)
            here.of_kind(kind, value[key])
            if read is not None:
                read(here, value[key])
    return in_order


def keys_of(read):
    """The known keys below a value that is read so: an object's each with those below it, a list's as a list of one."""
    if isinstance(read, Each):
        return [keys_of(read.read)]
    return {row.key: keys_of(row.read) for row in read.table} if isinstance(read, AnObject) else {}


# Values


def within(most, least=0):
    def ranged(place, value):
        if not least <= value <= most:
            place.refuse("range", str(value))
    return ranged


def one_of(*words):
    def known(place, value):
        if value not in words:
            place.refuse("unsupported", printed(value))
    return known


def like(pattern):
    def alike(place, value):
        if re.fullmatch(pattern, value) is None:
            place.refuse("kind")
    return alike


def empty(word):
    """A form that is left out: nothing may be in it, and no flag set."""
    def nothing(place, value):
        if value:
            place.refuse("unsupported", word)
    return nothing


def absent(word):
    def never(place, value):
        place.refuse("unsupported", word)
    return never
