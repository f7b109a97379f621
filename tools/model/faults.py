"""How a call ends that has no other answer: a line, and a status, as the table of docs/COMMANDS.md has them."""

class Refused(Exception):
    """A fault of documents or of planning: its line after `refused`."""

    line, status = "refused {}", 4

    def told(self):
        return self.line.format(self)

    def answer(self):
        return self.status, [self.told()]


class Unread(Refused):
    """A document that isn't there or can't be read: its line."""

    line, status = "{}", 3


class Exceeds(Refused):
    """A bound that is passed: its line after `exceeds`, the place, and the task that would bring it so far."""

    line, status = "exceeds {}", 5

    def __init__(self, words, place, task):
        super().__init__(words)
        self.place, self.task = place, task


class FailedAtWork(Refused):
    """What is found out only at work: its line after `failed`."""

    line, status = "failed {}", 6


class OfRecord(Refused):
    """A record that is none, or that the plan doesn't allow: its line."""

    line, status = "{}", 8
