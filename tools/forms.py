"""The forms in which the program is called, read from the table of its commands."""
from __future__ import annotations

import pathlib
import re
from dataclasses import dataclass

TABLE = pathlib.Path(__file__).resolve().parent / "commands.txt"
# A command's line; of what a word in capitals stands for there is another one.
LINE = re.compile(r"([a-z]+) (.+?)  +(.+)")


@dataclass
class Form:
    """A command, what stands after it, and what it does."""

    command: str
    rest: str
    about: str

    @property
    def words(self):
        return f"{self.command} {self.rest}"

    @property
    def files(self):
        """What has to stand after the command, one after the other: REQ, RECORD, ENS or N."""
        return re.sub(r"\[[^]]*\]|--\w+ N", "", self.rest).split()

    @property
    def has_workers(self):
        return "--workers" in self.rest


def read():
    return [Form(*found.groups()) for found in map(LINE.fullmatch, TABLE.read_text(encoding="utf-8").splitlines()) if found]
