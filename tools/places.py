"""Words that say which volume is meant."""
from __future__ import annotations

from argparse import ArgumentParser, ArgumentTypeError, Namespace
from collections.abc import Callable
from pathlib import Path

import spelling
from modes import BYTES, IDS, MEMBERS, VOLUMES, Option
from program import Memory

MOST_MEMBERS = MEMBERS.most


def _root(word: str) -> Path:
    if not word:
        raise ArgumentTypeError("it is empty")
    return Path(word)


def add_root(parser: ArgumentParser) -> None:
    parser.add_argument("root", metavar="ROOT", type=_root, help="the folder of a volume")


def add_replica(parser: ArgumentParser) -> None:
    parser.add_argument("replica", metavar="R", type=_replica, help="the number of the replica")


def _replica(word: str) -> int:
    if not (word.isascii() and word.isdigit() and len(word) == 1 and 1 <= int(word) <= MOST_MEMBERS):
        raise ArgumentTypeError(f"{word!r} is no replica: they have the numbers 1 to {MOST_MEMBERS}")
    return int(word)


def number(option: Option) -> Callable[[str], str]:
    """What looks at a number of an option, which goes to the program as it is."""
    def look(word: str) -> str:
        why = option.why_none(word)
        if why:
            raise ArgumentTypeError(why)
        return word
    return look


def volume_path(word: str) -> spelling.Path:
    path = spelling.read_path(word)
    if path is None:
        raise ArgumentTypeError(f"{word!r} is no path in a volume: it begins with / or with ~r.k")
    return path


def add_memory(parser: ArgumentParser, *, required: bool) -> None:
    parser.add_argument("--members", metavar="N", required=required, type=number(MEMBERS),
                        help="how many replicas it has, 2 to 8")
    parser.add_argument("--ids", metavar="I", type=number(IDS), help="how many updates each of them may make")
    parser.add_argument("--bytes", metavar="B", type=number(BYTES), help="how many bytes each of them may write")


def add_volumes(parser: ArgumentParser, *, required: bool) -> None:
    parser.add_argument("--volumes", metavar="V", required=required, type=number(VOLUMES),
                        help="how many volumes there are, 1 to 4, joined by names")


def memory(words: Namespace) -> Memory:
    return Memory(words.members, words.ids, words.bytes, getattr(words, "volumes", None))
