"""What a run finds and leaves: replicas, files at sites, deliveries; in memory, or as they are read from a folder."""
import os
import re
from dataclasses import dataclass, field

from .words import unquoted

PIECE = 65536
# What stands where something else than a file is in a replica's place.
UNREADABLE = object()


def pieces(data):
    """How many reads give these bytes; one more finds their end."""
    return -(-len(data) // PIECE)


@dataclass
class Store:
    """Replicas by pfn, sites' files by site and name, deliveries by name; and the numbers of the calls that fail: a file
    that is read is opened, one that is written is a draft first and then published. Of what a call opened or made, some
    reads and appends fail: pairs of the number of that call and their own."""

    replicas: dict
    scratch: dict = field(default_factory=dict)
    failing: set = field(default_factory=set)
    failing_parts: set = field(default_factory=set)
    delivered: dict = field(default_factory=dict)
    trace: list = field(default_factory=list)
    calls: int = 0

    def call(self):
        self.calls += 1
        return self.calls not in self.failing


# Folders


def path_of(pfn):
    """The path that a pfn is, with or without `file://` before it; one with another scheme is none."""
    scheme, is_there, path = pfn.partition("://")
    if is_there and scheme == "file":
        return path
    return None if is_there and re.fullmatch("[A-Za-z][A-Za-z0-9+.-]*", scheme) else pfn


def file_name(name):
    """How a file or a site is called in the folder of a run."""
    place = name.replace("%", "%25").replace("/", "%2F")
    return "%2E" + place[1:] if place.startswith(".") else place


class Folder(dict):
    """The replicas that are files of a folder."""

    def __init__(self, folder):
        super().__init__()
        self.folder = folder

    def get(self, pfn, default=None):
        path = path_of(pfn)
        if path is None:
            return default
        try:
            with open(os.path.join(self.folder, path), "rb") as file:
                return file.read()
        except FileNotFoundError:
            return default
        except (OSError, ValueError):
            return UNREADABLE


def content_of(path):
    """A file's bytes; of what isn't a file that they can't be read."""
    if os.path.islink(path) or not os.path.isfile(path):
        return UNREADABLE
    try:
        with open(path, "rb") as file:
            return file.read()
    except OSError:
        return UNREADABLE


def names_in(top):
    """What stands in a folder; nothing where there is none that can be read."""
    try:
        return sorted(os.listdir(top))
    except OSError:
        return []


def files_of(top):
    """The files of a folder by their names, as they were before they were written in it."""
    return {unquoted(name): content_of(os.path.join(top, name)) for name in names_in(top)}


def sites_of(top):
    """The files at the sites below a folder, by site and name."""
    return {(unquoted(site), name): content
            for site in names_in(top) for name, content in files_of(os.path.join(top, site)).items()}
