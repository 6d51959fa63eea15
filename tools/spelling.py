"""Bytes in names, texts and paths, as scripts and answers spell them (`docs/FORMATS.md`).

A spelled line is a `str` in which each byte from 0x80 on that is part of no character of UTF-8 is a surrogate, so that
every line of bytes is one such `str` and comes out as it came in.
"""
from __future__ import annotations

import re
from typing import NamedTuple

FILE_BYTES = 16_384
LINK_BYTES = 1_024
NAME_BYTES = 64
PATH_PARTS = 32

_ESCAPE = re.compile(rb"\\(x[0-9a-f]{2}|.)", re.DOTALL)
_REFUSED_IN_NAMES = {0: "byte 0", ord("/"): "a /", ord("#"): "a #"}


def to_bytes(line: str) -> bytes:
    return line.encode("utf-8", "surrogateescape")


def to_str(line: bytes) -> str:
    return line.decode("utf-8", "surrogateescape")


def _spelled_byte(byte: int) -> bytes:
    if byte == ord("\\"):
        return b"\\\\"
    if byte == ord("\n"):
        return b"\\n"
    if 0x21 <= byte <= 0x7E or byte >= 0x80:
        return bytes([byte])
    return b"\\x%02x" % byte


_NAME = {bytes([byte]): _spelled_byte(byte) for byte in range(256)}
_TEXT = _NAME | {b'"': b'\\"', b" ": b" "}
# The bytes that are spelled otherwise than by themselves.
_OTHERS_OF_NAMES = re.compile(rb"[\x00-\x20\x7f\\]")
_OTHERS_OF_TEXTS = re.compile(rb"[\x00-\x1f\x7f\\\"]")


def spell_name(name: bytes) -> str:
    return to_str(_OTHERS_OF_NAMES.sub(lambda found: _NAME[found[0]], name))


def spell_text(text: bytes) -> str:
    return to_str(b'"' + _OTHERS_OF_TEXTS.sub(lambda found: _TEXT[found[0]], text) + b'"')


def _meant(escape: re.Match[bytes]) -> bytes:
    what = escape[1]
    if len(what) == 3:
        return bytes([int(what[1:], 16)])
    return b"\n" if what == b"n" else what


def read_name(spelled: str) -> bytes:
    """The bytes of a name that the program spelled."""
    return _ESCAPE.sub(_meant, to_bytes(spelled))


def read_text(spelled: str) -> bytes:
    """The bytes of a text that the program spelled, with its quotation marks."""
    return _ESCAPE.sub(_meant, to_bytes(spelled)[1:-1])


def why_no_name(name: bytes) -> str | None:
    """Why these bytes can't be a name, or nothing where they can."""
    if len(name) > NAME_BYTES:
        return f"the name has {len(name)} bytes, and {NAME_BYTES} is the most"
    for byte, what in _REFUSED_IN_NAMES.items():
        if byte in name:
            return f"the name has {what}, which no name may have"
    return "this is no name" if name in (b"", b".", b"..") else None


class Path(NamedTuple):
    """A path of a script, as it is spelled: what it begins at, nothing or `~r.k`, and its components."""

    base: str
    parts: tuple[str, ...]

    def __str__(self) -> str:
        return self.base + "".join(f"/{part}" for part in self.parts) or "/"

    def parent(self) -> Path:
        return Path(self.base, self.parts[:-1])

    def below(self, part: str) -> Path:
        return Path(self.base, (*self.parts, part))

    def fronts(self) -> list[Path]:
        """It and what is above it, the shortest first."""
        return [Path(self.base, self.parts[:count]) for count in range(len(self.parts) + 1)]


def read_path(word: str) -> Path | None:
    """The path that a word spells, where it is one as far as its slashes and its beginning say."""
    base, *parts = word.split("/")
    if base and not re.fullmatch(r"~\d+\.\d+", base):
        return None
    if word == "/":
        return Path("", ())
    if "" in parts or not (base or parts):
        return None
    return Path(base, tuple(parts))
