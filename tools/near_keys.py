"""Which key may be meant by one that isn't known: the nearest of those that are known in its place."""
from __future__ import annotations

import names
from model.tables import KEYS


def parts(path):
    """The keys and numbers of a JSON pointer."""
    return [it.replace("~1", "/").replace("~0", "~") for it in path.split("/")[1:]]


def below(value, key):
    """What stands under a key or a place, or nothing."""
    if isinstance(value, dict):
        return value.get(key)
    if isinstance(value, list) and key.isdecimal() and int(key) < len(value):
        return value[int(key)]
    return None


def object_at(value, keys):
    for key in keys:
        value = below(value, key)
    return value


def table_at(name, keys):
    """The known keys of the object at a path of a document."""
    table = KEYS.get(name)
    for key in keys:
        table = table[0] if isinstance(table, list) else (table or {}).get(key)
    return table if isinstance(table, dict) else {}


def meant(name, document, path):
    """The known key that isn't there and is most like the one at a path, if one is. Keys such as `x-mine` are meant so."""
    *keys, last = parts(path)
    if last.startswith("x-"):
        return None
    here = object_at(document, keys)
    absent = [key for key in table_at(name, keys) if not isinstance(here, dict) or here.get(key) is None]
    return names.near(last, absent)


def written(name, document, path):
    """The key that is there, is none of the known ones, and is most like the missing one at a path, if one is."""
    *keys, last = parts(path)
    here, table = object_at(document, keys), table_at(name, keys)
    return names.near(last, [key for key in here if key not in table]) if isinstance(here, dict) else None
