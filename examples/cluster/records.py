"""What is written to the streams: lines of sessions, marks and edits, and how a line becomes one of a script."""

import zlib
from dataclasses import dataclass
from typing import List, Union

# The lines of a script that speak of one conversation. Any other word could open a module text in the monitor.
VERBS = frozenset({"open", "join", "send", "recv", "ask", "turn", "close"})
MARK = "!mark "


class BadRecord(Exception):
    """A record of another form."""


@dataclass(frozen=True)
class Stream:
    """One append-only log of the engine."""
    topic: str
    partition: int

    def __str__(self) -> str:
        return f"{self.topic}.{self.partition}"


@dataclass(frozen=True)
class Streams:
    """The streams of one generation of logs, which has a name and a fixed number of partitions."""
    name: str
    partitions: int

    def log(self, partition: int) -> Stream:
        return Stream(f"{self.name}.log", partition)

    def replies(self, partition: int) -> Stream:
        return Stream(f"{self.name}.replies", partition)

    def edits(self) -> Stream:
        return Stream(f"{self.name}.edits", 0)

    def all(self) -> List[Stream]:
        numbers = range(self.partitions)
        return [self.edits(), *map(self.log, numbers), *map(self.replies, numbers)]

    def partition_of(self, session: str) -> int:
        """The partition of a session. The producer computes it, so that no router of the engine can change it."""
        return zlib.crc32(session.encode("utf-8")) % self.partitions


@dataclass(frozen=True)
class Line:
    """A producer's line of a session, with its number among them, from 1."""
    session: str
    producer: str
    number: int
    verb: str
    arguments: str = ""

    def text(self) -> str:
        """The line as it is published."""
        return f"{self.session} {self.producer} {self.number} {self.verb} {self.arguments}".rstrip()

    def script(self, tag: str) -> str:
        """The line of a script, with the tag that its reply will have."""
        return f"@{tag} {self.verb} {self.session} {self.arguments}".rstrip()


@dataclass(frozen=True)
class Mark:
    """A place in a log at which its monitor takes all edits up to a number."""
    edit: int

    def text(self) -> str:
        return f"{MARK}{self.edit}"


def parse_record(text: str) -> Union[Line, Mark]:
    """The line or mark that a log has.

    Raises BadRecord where the text is neither.
    """
    if text.startswith(MARK):
        return Mark(whole_number(text[len(MARK):]))
    fields = text.split(" ", 4)
    if len(fields) < 4 or not all(fields[:4]) or fields[3] not in VERBS or not text.isprintable():
        raise BadRecord(text)
    number = whole_number(fields[2])
    if number < 1:
        raise BadRecord(text)
    return Line(fields[0], fields[1], number, fields[3], fields[4] if len(fields) > 4 else "")


def whole_number(digits: str) -> int:
    """A number in decimal digits."""
    if not (digits.isascii() and digits.isdigit()):
        raise BadRecord(digits)
    return int(digits)


@dataclass(frozen=True)
class Edit:
    """An edit of the protocols. Its id is the editor's own; its number is its offset in the stream of edits."""
    id: str
    verb: str
    argument: str

    def text(self) -> str:
        """The edit as it is published. The argument of a put is the module's text."""
        return f"{self.id} {self.verb}\n{self.argument}"

    def script(self, number: int) -> str:
        """The lines of a script, tagged with the edit's number."""
        if self.verb == "put":
            return f"@edit.{number} put\n{self.argument.rstrip()}\n%%\n"
        return f"@edit.{number} {self.verb} {self.argument}\n"


def parse_edit(text: str) -> Edit:
    """The edit that the stream of edits has.

    Raises BadRecord where its lines could run into those around it: a module text must not end early, and the argument
    of the other verbs is one word.
    """
    head, _, argument = text.partition("\n")
    fields = head.split(" ")
    if len(fields) != 2 or not all(fields):
        raise BadRecord(text)
    edit = Edit(fields[0], fields[1], argument)
    if edit.verb == "put":
        is_right = all(line.rstrip("\r") != "%%" for line in argument.split("\n"))
    else:
        is_right = edit.verb in ("withdraw", "profile") and argument.isprintable() and len(argument.split()) == 1
    if not is_right:
        raise BadRecord(text)
    return edit
