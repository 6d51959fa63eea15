"""Answers of the program as JSON: one value on a line for each command, which `docs/FORMATS.md` describes.

A name or a text is a string where its bytes are text in UTF-8. Else its key has `_base64` behind it, and the string has
the bytes in that spelling.
"""
from __future__ import annotations

import base64
import io
import json
import re
from collections.abc import Callable, Iterable

import formats
from answers import Answer, read_row, read_version, shape_of, take_answer
from program import is_command
from spelling import read_name, read_text, to_str

JUDGED = re.compile(r"replica (\d+) (?:(empty|damaged)|members (\d+) generation (\d+) live (\d+) dead (\d+) objects (\d+))")
Value = object


def of_script(script: bytes, written: bytes) -> bytes:
    """The answers to the commands of a script, as far as they were written whole."""
    answers = io.BytesIO(written)
    told = []
    for line in filter(is_command, to_str(script).split("\n")):
        answer = take_answer(answers, shape_of(line))
        if answer is None:
            break
        told.append(_answer(line, answer))
    return _lines(told)


def of_check(written: bytes) -> bytes:
    """What `check` tells, a value for each replica."""
    return _lines(_judged(found) for found in map(JUDGED.fullmatch, to_str(written).splitlines()) if found)


def _lines(values: Iterable[Value]) -> bytes:
    return b"".join(json.dumps(value, separators=(",", ":")).encode() + b"\n" for value in values)


def _judged(found: re.Match[str]) -> dict[str, Value]:
    replica, state, *figures = found.groups()
    if state:
        return {"replica": int(replica), "state": state}
    keys = ("members", "generation", "live", "dead", "objects")
    return {"replica": int(replica), "state": "sound", **dict(zip(keys, map(int, figures)))}


def _answer(command: str, answer: Answer) -> Value:
    if answer.refusal:
        return {"no": answer.refusal}
    usage = formats.usage_of(command)
    name = usage.name if usage else ""
    if name in _LISTS:
        return {"ok": [_LISTS[name](line) for line in answer.listed]}
    if name in _VALUES:
        return {"ok": _VALUES[name](answer)}
    return {"ok": answer.value or True}


def _bytes(key: str, content: bytes) -> dict[str, Value]:
    try:
        return {key: content.decode("utf-8")}
    except UnicodeDecodeError:
        return {f"{key}_base64": base64.b64encode(content).decode()}


def _name(spelled: str) -> dict[str, Value]:
    return _bytes("name", read_name(spelled))


def _kind(words: list[str]) -> dict[str, Value]:
    return {"kind": words[0], "conflict": words[1:] == ["conflict"]}


def _entry(line: str) -> dict[str, Value]:
    row = read_row(line)
    return {**_name(row.name), "id": row.identifier, **_kind(line.split(" ")[2:])}


def _entry_of_tree(line: str) -> dict[str, Value]:
    directory, name, identifier, *kind = line.split(" ")
    return {"directory": directory, **_name(name.partition("#")[0]), "id": identifier, **_kind(kind)}


def _conflict(line: str) -> dict[str, Value]:
    words = line.split(" ")
    return {"directory": words[1], **_name(words[2])} if words[0] == "name" else {"file": words[1]}


def _orphan(line: str) -> dict[str, Value]:
    identifier, *kind = line.split(" ")
    return {"id": identifier.removeprefix("~"), **_kind(kind)}


def _version(line: str) -> dict[str, Value]:
    version = read_version(line)
    return {"vector": json.loads(version.vector), **_bytes("text", read_text(version.text))}


def _mark(line: str) -> dict[str, Value]:
    entry, directory, name, target, *sets = line.split(" ")
    known: dict[str, Value] = {key: [int(one) for one in members if one.isdigit()]
                               for key, _, members in (it.partition("=") for it in sets)}
    return {"entry": entry, "directory": directory, **_name(name), "id": target, **known}


def _text(answer: Answer) -> Value:
    return _bytes("text", read_text(answer.value))


def _counts(*keys: str) -> Callable[[Answer], Value]:
    return lambda answer: dict(zip(keys, map(int, answer.line.split(" ")[1:])))


def _taken(answer: Answer) -> Value:
    return _counts("pieces", "state")(answer) if answer.value else True


def _message(answer: Answer) -> Value:
    words = answer.value.split(" ")
    if words[1:2] == ["to"]:
        return {"first": int(words[0]), "last": int(words[2])}
    if words[1:2] == ["of"]:
        return {"taken": int(words[0]), "of": int(words[2])}
    return int(words[0]) if words[0] else True


_LISTS: dict[str, Callable[[str], Value]] = {
    "ls": _entry, "tree": _entry_of_tree, "conflicts": _conflict, "orphans": _orphan, "detached": str, "why": json.loads,
    "versions": _version, "marks": _mark,
}
_VALUES: dict[str, Callable[[Answer], Value]] = {
    "read": _text, "readlink": _text, "ask": _message, "give": _message, "take": _taken, "collect": _counts("entries", "objects"),
    "sweep": _counts("pulls", "entries", "objects"),
}
