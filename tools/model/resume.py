"""A run that goes on from a record, over the files that it left."""
from .book import State
from .engine import Engine, Failed, engine_of
from .faults import OfRecord
from .judge import judged
from .record import read_record
from .store import UNREADABLE
from .words import printed


class Resumed(Engine):
    """A run that goes on from the entries of a record, without its failures for good."""

    def enter(self, entry):
        words = entry.split(" ")
        assert self.state.enter(words), words
        super().enter(entry)

    def replay(self, entries):
        found, _ = judged(self.plan, entries)
        if found.startswith("illegal "):
            raise OfRecord(found.replace("illegal ", "illegal record "))
        self.state = State(self.plan)
        for words in entries:
            if words[0] != "fail":
                self.enter(" ".join(words))
        self.again = dict(self.state.tried)

    def look(self):
        """Each file that by the record is at a site has to be there with the length that it says; else the fault."""
        for (site, file), length in self.state.stored().items():
            place = self.site(site), self.name(file)
            if not self.store.call() or self.store.scratch.get(place) is UNREADABLE:
                return "host -"
            words = " ".join(map(printed, place))
            if place not in self.store.scratch:
                return f"pair {words}"
            if len(self.store.scratch[place]) != length:
                return f"length {words} {length} {len(self.store.scratch[place])}"
        return None

    def tasks(self):
        """Those that were under way or had failed, by number, each by its worker; and the rest by worker 0."""
        for number, worker in sorted(self.state.runs.items()):
            self.worker = int(worker)
            self.is_ended(number, is_begun=True)
        self.worker = 0
        while (number := self.state.choice()) is not None:
            self.is_ended(number)

    def work(self):
        fault = self.look()
        if fault:
            self.record = []
            return fault
        try:
            self.tasks()
        except Failed as failed:
            return failed.outcome
        return None


def resumed(survey, store, failing_runs=frozenset()):
    """The status and the lines of `resume` from a survey's record; the store shows what it did."""
    made = engine_of(survey, store, failing_runs, Resumed)
    made.replay(read_record(survey.record))
    return made.ended()
