"""Files of cases, read for the tests of the models. docs/DEVELOPING.md says how a case is written."""
import pathlib
import tomllib
from dataclasses import dataclass, field
from urllib.parse import quote_from_bytes, unquote_to_bytes

# What a name is printed with as it is.
PLAIN = "!\"#$&'()*+,-./:;<=>?@[\\]^_`{|}~"
FAILING = ("fetch", "write", "host", "run", "part")
OF_FILE = {"calls", "documents", "replicas", "scratch"}
OF_CASE = OF_FILE | {f"failing_{kind}" for kind in FAILING} | {
    "write_takes", "room", "first_run_held", "first_gate_held", "gate_first", "each_front", "status", "text", "after_record",
    "has_lines", "delivered", "not_delivered", "stored", "not_stored", "trace"}


@dataclass
class Case:
    """A call, what it finds and what it has to end with; nothing stands for a file that has to be absent."""

    name: str
    words: list = field(default_factory=list)
    settings: list = field(default_factory=list)
    documents: dict = field(default_factory=dict)
    replicas: dict = field(default_factory=dict)
    scratch: dict = field(default_factory=dict)
    status: int | None = None
    text: str = ""
    is_after_record: bool = False
    delivered: dict = field(default_factory=dict)
    stored: dict = field(default_factory=dict)
    trace: str | None = None

    def failing(self, kind):
        """The numbers of the calls of a kind that fail."""
        return {int(line.rsplit(" ", 1)[1]) for line in self.settings if line.startswith(f"failing {kind} ")}

    def failing_parts(self):
        """The pairs of a call of the host and of a read or an append, of what it opened or made, that fail."""
        found = [line.split(" ")[2:] for line in self.settings if line.startswith("failing part ")]
        return {(int(made), int(nth)) for made, nth in found}

    def number(self, setting, absent):
        """What the last line of a setting says."""
        found = [int(line[len(setting):]) for line in self.settings if line.startswith(setting + " ")]
        return found[-1] if found else absent


def name_of(word):
    """The name that a word of a call stands for."""
    return "" if word == "%" else unquote_to_bytes(word).decode()


def word_of(name):
    """A name as the program prints it."""
    return quote_from_bytes(name.encode(), safe=PLAIN) or "%"


def piece_of(piece):
    if isinstance(piece, str):
        return piece.encode()
    if isinstance(piece, list):
        return bytes(piece)
    assert piece.keys() == {"times", "text"}, piece
    return "".join(piece["text"].replace("<n>", str(number)) for number in range(piece["times"])).encode()


def content_of(content):
    return content.encode() if isinstance(content, str) else b"".join(map(piece_of, content))


def contents_of(files):
    return {name: content_of(content) for name, content in files.items()}


def sites_of(sites, reading):
    return {(site, name): content for site, files in sites.items() for name, content in reading(files).items()}


def settings_of(table):
    """The settings as lines of words."""
    for kind in FAILING:
        for number in table.get(f"failing_{kind}", []):
            yield f"failing {kind} {number}" if kind != "part" else "failing part {} {}".format(*number)
    for key in ("write_takes", "room"):
        if key in table:
            yield f"{key.replace('_', ' ')} {table[key]}"
    yield from (key.replace("_", " ") for key in ("first_run_held", "first_gate_held", "gate_first") if table.get(key))
    if "each_front" in table:
        yield f"each front {word_of(table['each_front'])}"


def case_of(name, table):
    """A case, or what stands for all cases of a file."""
    delivered, stored = table.get("delivered", {}), table.get("stored", {})
    nothing = dict.fromkeys
    return Case(
        name, [" ".join(["words", *map(word_of, call)]) for call in table.get("calls", [])], list(settings_of(table)),
        contents_of(table.get("documents", {})), contents_of(table.get("replicas", {})),
        sites_of(table.get("scratch", {}), contents_of), table.get("status"), table.get("text", ""),
        table.get("after_record", False), contents_of(delivered) | nothing(table.get("not_delivered", [])),
        sites_of(stored, contents_of) | sites_of(table.get("not_stored", {}), nothing), table.get("trace"))


def read(path):
    """The cases of a file, each with the calls, documents and files that hold for it."""
    file = tomllib.loads(pathlib.Path(path).read_text(encoding="utf-8"))
    cases = file.pop("case")
    assert OF_FILE.issuperset(file), (path, file.keys() - OF_FILE)
    common = case_of("", file)
    for name, table in cases.items():
        assert OF_CASE.issuperset(table) and {"status", "text"} <= table.keys(), (path, name, table.keys() - OF_CASE)
        found = case_of(name, table)
        found.words = found.words or common.words
        found.documents = {**common.documents, **found.documents}
        found.replicas = {**common.replicas, **found.replicas}
        found.scratch = {**common.scratch, **found.scratch}
        yield found


def look_at_store(path, case, store):
    """Whether a model's store has what a case wants to be delivered, left at sites and done, in this order."""
    for name, content in case.delivered.items():
        assert store.delivered.get(name) == content, (path, case.name, name)
    for place, content in case.stored.items():
        assert store.scratch.get(place) == content, (path, case.name, place)
    if case.trace is not None:
        assert case.trace == "".join(line + "\n" for line in store.trace), (path, case.name, store.trace)
