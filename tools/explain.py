"""Where a command was refused, and why, in words."""
from __future__ import annotations

from collections.abc import Callable

import spelling
from answers import Answer, read_row
from formats import of_volume, usage_of
from refusals import in_words

Look = Callable[[str], Answer]

# What a path of each kind leads to has to be there: all of it, or all but its last part.
_WHOLE, _NEW = ("PATH", "ENTRY"), "NEW"
# Refusals that come on a walk.
_ON_A_WALK = ("noentry", "ambiguous", "notdir", "notorphan", "isdir")


def _walks(line: str) -> list[spelling.Path]:
    """The paths along which a command walks, in their order."""
    usage = usage_of(line)
    if not usage:
        return []
    walks = []
    for kind, word in zip(usage.words, of_volume(line)[1].split(" ")):
        path = spelling.read_path(word)
        if path and kind in _WHOLE:
            walks.append(path)
        elif path and kind == _NEW:
            walks.append(path.parent())
    return walks


def _entries(look: Look, replica: str, directory: spelling.Path, name: str) -> list[str]:
    """As what the objects of a name are shown."""
    rows = map(read_row, look(f"{replica} ls {directory}").listed)
    return [str(directory.below(row.shown)) for row in rows if row.name == name]


def _where(look: Look, line: str, refusal: str) -> str | None:
    """The part of a path at which a walk is refused so, and what is there."""
    volume, command = of_volume(line)
    replica = volume + command.partition(" ")[0]
    for walk in _walks(line):
        for front in walk.fronts():
            answer = look(f"{replica} ls {front}")
            if answer.refusal == "ambiguous" and refusal == "ambiguous":
                shown = _entries(look, replica, front.parent(), front.parts[-1])
                return f"{front}, which may be {' or '.join(shown)}"
            if answer.refusal == refusal:
                return str(front)
    return None


def refused(look: Look, line: str, refusal: str) -> str:
    """A refusal in words, with the part of the path at which it came."""
    where = _where(look, line, refusal) if refusal in _ON_A_WALK else None
    return in_words(refusal) + (f": {where}" if where else "")
