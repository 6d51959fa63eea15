"""What `docs/FORMATS.md` says of commands, refusals and codes: its tables, read where they stand."""
from __future__ import annotations

import pathlib
import re
from dataclasses import dataclass
from enum import Enum
from functools import lru_cache

FORMATS = pathlib.Path(__file__).resolve().parent.parent / "docs" / "FORMATS.md"

# The first cell of the head of each table.
_COMMANDS, _REFUSALS, _KINDS, _CODES = "command", "word", "kind", "status"
# The line that only a script of a replica on a machine of its own has.
TAKE_NAME = "take"
TAKE = f"{TAKE_NAME} NAME"
# The first cell of the head of the table of its lines.
_LINES = "line of a member's script"
# The second cell of the head of the statuses of the launcher and the tools.
_COMES = "comes"


class Shape(Enum):
    """How many lines an answer that is no refusal has."""

    LINE = "one"
    LISTING = "one that says how many follow"
    UNKNOWN = "the document doesn't say it in a form that is known here"


@dataclass(frozen=True)
class Usage:
    """A command, as the table of commands has it."""

    words: tuple[str, ...]
    does: str
    answer: str

    @property
    def name(self) -> str:
        return self.words[1] if self.is_of_replica else self.words[0]

    @property
    def is_of_replica(self) -> bool:
        return self.words[0] == "R"

    @property
    def shape(self) -> Shape:
        if "`ok C`, then C lines" in self.answer:
            return Shape.LISTING
        return Shape.UNKNOWN if "line" in self.answer else Shape.LINE

    def __str__(self) -> str:
        return " ".join(self.words)


@lru_cache(maxsize=None)
def _rows(first: str, second: str = "") -> list[list[str]]:
    """The rows of the first table whose head begins with this word, or these words."""
    rows: list[list[str]] = []
    within = False
    for line in FORMATS.read_text(encoding="utf-8").splitlines():
        if not line.startswith("|"):
            if within:
                break
            continue
        cells = [cell.strip() for cell in line.strip("|").split(" | ")]
        if within and not set(line) <= set("|-"):
            rows.append(cells)
        within = within or cells[0] == first and (not second or cells[1] == second)
    return rows


def _code(cell: str) -> str:
    """What stands between the first two backquotes of a cell."""
    found = re.search(r"`([^`]*)`", cell)
    return found[1] if found else ""


def _usages(first: str) -> dict[str, Usage]:
    usages = [Usage(tuple(_code(row[0]).split()), row[1], row[2]) for row in _rows(first) if len(row) == 3]
    return {usage.name: usage for usage in usages if usage.words}


@lru_cache(maxsize=None)
def commands() -> dict[str, Usage]:
    """Each command by its name, in the order of the table."""
    return _usages(_COMMANDS)


@lru_cache(maxsize=None)
def lines_alone() -> dict[str, Usage]:
    """The lines that a replica on a machine of its own answers otherwise than in a run of all, by their names."""
    return _usages(_LINES)


# What stands in front of a line that says of which volume it is.
_VOLUME = re.compile(r"@[1-9] ")


def of_volume(line: str) -> tuple[str, str]:
    """The number of a volume in front of a line, with its sign and space, or nothing; and the line without it."""
    found = _VOLUME.match(line)
    return (found[0], line[found.end():]) if found else ("", line)


def usage_of(line: str) -> Usage | None:
    """The command that a line of a script has, where the table has it."""
    words = of_volume(line)[1].split(" ")
    name = words[1] if words[0].isdigit() and len(words) > 1 else words[0]
    usage = lines_alone().get(name) if name == TAKE_NAME else commands().get(name)
    return usage if usage and usage.is_of_replica == words[0].isdigit() else None


@lru_cache(maxsize=None)
def refusals() -> dict[str, str]:
    """When each word of a refusal comes."""
    return {_code(row[0]): row[1] for row in _rows(_REFUSALS)}


@lru_cache(maxsize=None)
def codes() -> dict[int, str]:
    """When the program, the launcher or a tool ends with each code."""
    rows = [*_rows(_CODES, _COMES), *_rows(_CODES)]
    return {int(row[0]): row[1] for row in sorted(rows, key=lambda row: int(row[0]))}


def kinds() -> list[str]:
    """The kinds of files."""
    return [_code(row[0]) for row in _rows(_KINDS)]


def orders() -> list[str]:
    """The orders in which a sweep pulls."""
    said = re.search(r"\bORDER\s+is\s+([^.]*)\.", FORMATS.read_text(encoding="utf-8"))
    return re.findall(r"`([^`]*)`", said[1]) if said else []
