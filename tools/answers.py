"""How the answers of the program are read."""
from __future__ import annotations

import re
from dataclasses import dataclass
from typing import IO

import formats
from formats import Shape
from spelling import to_str

# Stands behind a command of which it isn't known how many lines answer it. It is always refused, and its answer is no
# line of a listing, so it ends what came before.
MARK = "alike 1 1"
MARKED = "no member"


@dataclass(frozen=True)
class Answer:
    """What answers one command: its first line, and the lines of a listing."""

    line: str
    listed: tuple[str, ...] = ()

    @property
    def refusal(self) -> str | None:
        """The word with which the command is refused, if it is."""
        return self.line[3:] if self.line.startswith("no ") else None

    @property
    def value(self) -> str:
        """What stands behind `ok`."""
        return self.line[3:] if self.line.startswith("ok ") else ""

    @property
    def lines(self) -> tuple[str, ...]:
        return (self.line, *self.listed)


@dataclass(frozen=True)
class Row:
    """A line of `ls`: a name, as it is shown and by itself, and the object to which it leads."""

    shown: str
    identifier: str
    kind: str
    is_in_conflict: bool

    @property
    def name(self) -> str:
        return self.shown.partition("#")[0]

    @property
    def is_directory(self) -> bool:
        return self.kind == "dir"

    @property
    def is_link(self) -> bool:
        return self.kind == "symlink"


def read_row(line: str) -> Row:
    shown, identifier, kind, *rest = line.split(" ")
    return Row(shown, identifier, kind, rest == ["conflict"])


@dataclass(frozen=True)
class Version:
    """A line of `versions`."""

    vector: str
    text: str


def read_version(line: str) -> Version:
    vector, _, text = line.partition(" ")
    return Version(vector, text)


def shape_of(command: str) -> Shape:
    """How many lines answer this command, where the document says so."""
    usage = formats.usage_of(command)
    return usage.shape if usage else Shape.UNKNOWN


def _take_line(written: IO[bytes]) -> str | None:
    """The next line, where it was written whole."""
    line = written.readline()
    return to_str(line[:-1]) if line.endswith(b"\n") else None


def take_answer(written: IO[bytes], shape: Shape) -> Answer | None:
    """The next answer, or nothing where the program ended before it had written the whole of it."""
    line = _take_line(written)
    if line is None:
        return None
    listed: list[str] = []
    counted = re.fullmatch(r"ok (\d+)", line) if shape is Shape.LISTING else None
    while shape is Shape.UNKNOWN or (counted and len(listed) < int(counted[1])):
        further = _take_line(written)
        if further is None:
            return None
        if shape is Shape.UNKNOWN and further == MARKED:
            break
        listed.append(further)
    return Answer(line, tuple(listed))
