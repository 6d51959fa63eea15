"""Why a line of a script is no command.

The program alone decides that, and names the first such line. This says what is wrong with it and where, by the grammar
of `docs/FORMATS.md`; `.ci/tools` compares both over lines of all kinds.
"""
from __future__ import annotations

import re
from collections.abc import Callable, Iterator
from dataclasses import dataclass
from typing import NoReturn

import formats
from formats import TAKE, Usage
from modes import likely
from program import is_command
from spelling import PATH_PARTS, read_name, read_text, spell_name, spell_text, to_bytes, why_no_name

MARK_OF_ENCODING = "\ufeff"
MOST = 4_294_967_295
# Commands that no line of several volumes has.
OF_ONE_VOLUME = ("sweep", "why")
# Commands that no line of a replica has which is on a machine of its own, and what to do instead.
OF_ALL_REPLICAS = {
    "give": f"`{TAKE}` takes a message that came as a file", "pull": "`ask R OTHER`, carry the message, and take the reply",
    "alike": "compare what both answer", "sweep": "let each replica ask the others, and then collect",
    "stop": "use replay", "why": "use a run of all replicas in one folder",
}
NUMBERS = {"R": (1, 255), "OTHER": (1, 255), "MESSAGE": (0, MOST), "CALLS": (0, MOST), "PICK": (0, 3)}
IDENTIFIER = re.compile(r"([1-8])\.([1-9][0-9]{0,9})")
VOLUME = re.compile(r"@([^ ]*)(?: (.*))?", re.DOTALL)


class Wrong(Exception):
    """What is wrong with a line, and at which of its characters, from 1."""

    def __init__(self, column: int, why: str) -> None:
        super().__init__(why)
        self.column = column
        self.why = why


@dataclass(frozen=True)
class Word:
    """A word of a line, and the column at which it begins."""

    column: int
    text: str

    def wrong(self, why: str, at: int = 0) -> NoReturn:
        raise Wrong(self.column + at, why)


def why_none(line: str, volumes: int = 0, number: int = 0, *, is_alone: bool = False) -> Wrong | None:
    """Why the line, of this number in a script, is no command; nothing where it is one, or needs no answer. `volumes` is
    how many there are in the mode that joins several, and in that of a replica on a machine of its own it `is_alone`."""
    try:
        if number == 1 and line.startswith(MARK_OF_ENCODING):
            raise Wrong(1, "the file begins with a byte order mark: save it as UTF-8 without one")
        if is_command(line):
            if is_alone:
                _look_at_line_alone(line)
            else:
                _look_at_line(line, volumes)
    except Wrong as wrong:
        return wrong
    return None


def bad_lines(script: str, volumes: int = 0, *, is_alone: bool = False) -> Iterator[tuple[int, str, Wrong]]:
    """Each line of the script that is no command: its number, the line, and why."""
    for number, line in enumerate(script.split("\n"), 1):
        wrong = why_none(line, volumes, number, is_alone=is_alone)
        if wrong:
            yield number, line, wrong


def _look_at_line_alone(line: str) -> None:
    """Looks at a line of a replica on a machine of its own. A name is the rest of its line, whatever it is."""
    name, _, rest = line.partition(" ")
    if name == formats.TAKE_NAME:
        if not rest:
            raise Wrong(len(line) + 1, f"the name of a file is missing: {TAKE}")
        return
    if line.startswith("@"):
        raise Wrong(1, "a replica on a machine of its own is of one volume, without a number")
    if name in OF_ALL_REPLICAS:
        raise Wrong(1, _why_not_alone(name))
    _look_at_line(line, 0)
    words = line.split(" ")
    if words[1] in OF_ALL_REPLICAS:
        raise Wrong(len(name) + 2, _why_not_alone(words[1]))


def _why_not_alone(name: str) -> str:
    return f"a replica on a machine of its own has no {name}: {OF_ALL_REPLICAS[name]}"


def _look_at_line(line: str, volumes: int) -> None:
    if line.startswith(f"{formats.TAKE_NAME} ") or line == formats.TAKE_NAME:
        raise Wrong(1, f"{TAKE} is only for a replica on a machine of its own, in the mode member")
    if line.endswith("\r"):
        raise Wrong(len(line), "the line ends with CR (byte 13): is it a file from Windows?")
    start = 0
    if volumes and line.startswith("@"):
        start = _volume(line, volumes)
    words = _words(line, start)
    usage = _usage(words)
    if volumes and usage.name in OF_ONE_VOLUME:
        words[0].wrong(f"a script over several volumes has no {usage.name}")
    _arguments(usage, words, len(line))


def _volume(line: str, volumes: int) -> int:
    """Where the command begins behind the number of a volume."""
    found = VOLUME.fullmatch(line)
    assert found
    if not re.fullmatch(r"[1-9][0-9]*", found[1]) or int(found[1]) > volumes:
        raise Wrong(2, f"behind @ stands the number of a volume, 1 to {volumes}")
    if not is_command(found[2] or ""):
        raise Wrong(len(line), "a command comes behind the number of a volume")
    return found.start(2)


def _words(line: str, start: int) -> list[Word]:
    """The words, of which a text may have spaces in it."""
    words: list[Word] = []
    place = start
    while True:
        if line.startswith('"', place):
            end = _end_of_text(line, place)
        else:
            end = line.find(" ", place)
            end = len(line) if end < 0 else end
        word = Word(place + 1, line[place:end])
        if not word.text:
            word.wrong(_why_empty(line, place, start))
        if not word.text.startswith('"') and "\t" in word.text:
            word.wrong("a tab: one space stands between two words", word.text.index("\t"))
        words.append(word)
        if end == len(line):
            return words
        place = end + 1


def _why_empty(line: str, place: int, start: int) -> str:
    if place == start:
        return "a space in front of the first word"
    return "a space behind the last word" if not line[place:].strip(" ") else "two spaces between two words"


def _end_of_text(line: str, place: int) -> int:
    """Where the text ends that begins there."""
    found = re.compile(r'"(?:[^"\\]|\\.)*"', re.DOTALL).match(line, place)
    if not found:
        raise Wrong(place + 1, "the text has no quotation mark at its end")
    if found.end() < len(line) and line[found.end()] != " ":
        raise Wrong(found.end() + 1, 'nothing stands right behind a text: within one a quotation mark is written \\"')
    return found.end()


def _usage(words: list[Word]) -> Usage:
    """The command that the words are to be."""
    first = words[0]
    names = formats.commands()
    if not re.match(r"[0-9+-]", first.text):
        usage = names.get(first.text)
        if usage is None:
            bare = [it.name for it in names.values() if not it.is_of_replica]
            first.wrong(f"no command is called {first.text}{likely(first.text, [*bare, *names])}")
        if usage.is_of_replica:
            first.wrong(f"the number of a replica comes first: {usage}")
        return usage
    _number(first, "R", "the number of a replica")
    if len(words) == 1:
        first.wrong("a command comes behind the number of a replica", len(first.text))
    verb = words[1]
    usage = names.get(verb.text)
    if usage is None:
        own = [it.name for it in names.values() if it.is_of_replica]
        verb.wrong(f"no command is called {verb.text}{likely(verb.text, own)}")
    if not usage.is_of_replica:
        first.wrong(f"no number stands in front of this command: {usage}")
    return usage


def _arguments(usage: Usage, words: list[Word], length: int) -> None:
    for place, kind in enumerate(usage.words):
        if place >= len(words):
            raise Wrong(length + 1, f"{_meaning(kind)} is missing: {usage}")
        if place > usage.is_of_replica:
            _KINDS.get(kind, _nothing)(words[place], kind)
        if usage.name == "symlink" and kind == "TEXT" and words[place].text == '""':
            words[place].wrong("the text of a symbolic link isn't empty")
    if len(words) > len(usage.words):
        words[len(usage.words)].wrong(f"nothing stands behind that: {usage}")


_MEANINGS = {
    "R": "the number of a replica", "OTHER": "the number of another replica", "MESSAGE": "the number of a message",
    "CALLS": "the number of calls before the first that fails", "PICK": "a number from 0 to 3", "PATH": "a path",
    "NEW": "a new path", "ENTRY": "the path of an entry", "TEXT": "a text, between quotation marks", "KIND": "a kind",
    "ORDER": "an order", "~ID": "the identifier of an orphan, ~r.k",
}


def _meaning(kind: str) -> str:
    return _MEANINGS.get(kind, kind)


def _nothing(word: Word, kind: str) -> None:
    """What is not looked at: the command's own name."""


def _number(word: Word, kind: str, what: str = "") -> None:
    least, most = NUMBERS[kind]
    said = what or _meaning(kind)
    if not re.fullmatch(r"[0-9]+", word.text):
        word.wrong(f"{word.text} is no number: {said} is wanted")
    if len(word.text) > 1 and word.text.startswith("0"):
        word.wrong(f"{word.text} has zeros in front")
    if len(word.text) > 10 or not least <= int(word.text) <= most:
        word.wrong(f"{word.text} is out of range: {said} is {least:,} to {most:,}")


def _one_of(listed: Callable[[], list[str]]) -> Callable[[Word, str], None]:
    def look(word: Word, kind: str) -> None:
        known = listed()
        if word.text not in known:
            word.wrong(f"{word.text} is none of {', '.join(known)}{likely(word.text, known)}")
    return look


def _identifier(word: Word, kind: str) -> None:
    if not word.text.startswith("~") or not _is_identifier(word.text[1:]):
        word.wrong(f"{_meaning(kind)}, is wanted: r is 1 to 8, and k a number from 1 on")


def _is_identifier(text: str) -> bool:
    found = IDENTIFIER.fullmatch(text)
    return bool(found and int(found[2]) <= MOST)


def _text(word: Word, kind: str) -> None:
    if not word.text.startswith('"'):
        word.wrong("a text stands between two quotation marks")
    _spelled(word, word.text, spell_text(read_text(word.text)), 0)


def _path(word: Word, kind: str) -> None:
    base, *parts = word.text.split("/")
    if base and not (base.startswith("~") and _is_identifier(base[1:])):
        word.wrong("a path begins with / or with the identifier of an orphan, ~r.k")
    if word.text != "/":
        _parts(word, len(base), parts)
    if kind in ("NEW", "ENTRY") and (word.text == "/" or not parts):
        word.wrong(f"{_meaning(kind)} has a name at its end")
    if kind == "NEW" and "#" in parts[-1]:
        word.wrong("a new name has no identifier behind it", len(word.text) - len(parts[-1]))


def _parts(word: Word, start: int, parts: list[str]) -> None:
    """Looks at each component of a path, the first of which begins behind a slash at that place."""
    if not parts and not start:
        word.wrong("a path begins with / or with the identifier of an orphan, ~r.k")
    if len(parts) > PATH_PARTS:
        word.wrong(f"the path has {len(parts)} components, and {PATH_PARTS} is the most")
    place = start
    for part in parts:
        place += 1
        _component(word, part, place)
        place += len(part)


def _component(word: Word, part: str, place: int) -> None:
    if not part:
        word.wrong("a name is missing: no / stands at the end of a path or behind another one", place)
    spelled, mark, identifier = part.partition("#")
    if mark and not _is_identifier(identifier):
        word.wrong("behind # stands an identifier, r.k", place + len(spelled))
    _spelled(word, spelled, spell_name(read_name(spelled)), place)
    why = why_no_name(read_name(spelled))
    if why:
        word.wrong(why, place)


def _spelled(word: Word, spelled: str, right: str, place: int) -> None:
    """Refuses a spelling other than the right one of the same bytes."""
    if spelled == right:
        return
    same = next((at for at, (one, other) in enumerate(zip(spelled, right)) if one != other), min(len(spelled), len(right)))
    backslash = spelled.rfind("\\", 0, same + 1)
    at = backslash if 0 <= backslash and same - backslash <= 3 else same
    shown = re.match(r"\\x[0-9a-fA-F]{2}|\\.?|.", spelled[at:], re.DOTALL)
    what = shown[0] if shown else ""
    if not what.startswith("\\"):
        what = "".join(f"byte {byte}" for byte in to_bytes(what)[:1]) if not what.isprintable() or what == " " else what
    word.wrong(f"{what} isn't written so: see \"Bytes in names\" and \"Texts\" in docs/FORMATS.md", place + at)


_KINDS: dict[str, Callable[[Word, str], None]] = {
    **{kind: _number for kind in NUMBERS}, "PATH": _path, "NEW": _path, "ENTRY": _path, "TEXT": _text,
    "~ID": _identifier, "KIND": _one_of(formats.kinds), "ORDER": _one_of(formats.orders),
}
