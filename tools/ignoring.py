"""Git's patterns of names, as `.ficusignore` and `.ficus/kinds` have them."""
from __future__ import annotations

import re
from collections.abc import Iterator
from dataclasses import dataclass

FILE = b".ficusignore"


@dataclass(frozen=True)
class Pattern:
    """A line of patterns: where its file stands, what it fits, and whether it takes back what earlier ones said."""

    base: bytes
    fits: re.Pattern[bytes]
    takes_back: bool
    directories_only: bool

    def meets(self, where: bytes, is_directory: bool) -> bool:
        if self.directories_only and not is_directory:
            return False
        return where.startswith(self.base) and self.fits.fullmatch(where[len(self.base):]) is not None


def read(base: bytes, text: bytes) -> list[Pattern]:
    """The patterns of a file whose folder has this path, which ends with a `/` unless it is empty."""
    return [pattern for line in text.splitlines() if (pattern := _read_line(base, line))]


def _read_line(base: bytes, line: bytes) -> Pattern | None:
    # (spaces at the end count where a \ stands in front)
    line = re.sub(rb"(?<!\\)[ \t]+$", b"", line)
    if not line or line.startswith(b"#"):
        return None
    takes_back = line.startswith(b"!")
    line = line[takes_back:]
    directories_only = line.endswith(b"/")
    line = line.rstrip(b"/")
    is_anchored = b"/" in line
    line = line.lstrip(b"/")
    if not line:
        return None
    front = b"" if is_anchored else b"(?:.*/)?"
    try:
        return Pattern(base, re.compile(front + b"".join(_translated(line)), re.DOTALL), takes_back, directories_only)
    except re.error:
        return None


def _translated(pattern: bytes) -> Iterator[bytes]:
    """The parts of the regular expression that fits what the pattern does."""
    at = 0
    while at < len(pattern):
        if pattern.startswith(b"**/", at) and (at == 0 or pattern[at - 1:at] == b"/"):
            yield b"(?:.*/)?"
            at += 3
        elif pattern[at:] == b"**" and (at == 0 or pattern[at - 1:at] == b"/"):
            yield b".+"
            at += 2
        elif pattern[at:at + 1] == b"*":
            yield b"[^/]*"
            at += 1
        elif pattern[at:at + 1] == b"?":
            yield b"[^/]"
            at += 1
        elif pattern[at:at + 1] == b"[" and (end := pattern.find(b"]", at + 2)) > 0:
            inside = pattern[at + 1:end]
            negated = inside[:1] in (b"!", b"^")
            inside = inside[negated:].replace(b"\\", b"\\\\").replace(b"[", b"\\[").replace(b"^", b"\\^")
            yield b"(?!/)[" + b"^" * negated + inside + b"]"
            at = end + 1
        else:
            at += pattern[at:at + 1] == b"\\" and at + 1 < len(pattern)
            yield re.escape(pattern[at:at + 1])
            at += 1


def is_ignored(patterns: list[Pattern], where: bytes, is_directory: bool) -> bool:
    """Whether the last pattern that fits says so."""
    return next((not it.takes_back for it in reversed(patterns) if it.meets(where, is_directory)), False)


class Kinds:
    """Which kind new files get: that of the last line `PATTERN KIND` whose pattern fits, or `plain`."""

    def __init__(self, text: bytes, known: list[str]) -> None:
        self.rows: list[tuple[Pattern, str]] = []
        # Lines that are none.
        self.unknown: list[bytes] = []
        for line in text.splitlines():
            front, _, kind = line.rstrip().rpartition(b" ")
            pattern = _read_line(b"", front.rstrip())
            if pattern and kind.decode("ascii", "replace") in known:
                self.rows.append((pattern, kind.decode("ascii")))
            elif line.strip() and not line.startswith(b"#"):
                self.unknown.append(line)

    def of(self, where: bytes) -> str:
        return next((kind for pattern, kind in reversed(self.rows) if pattern.meets(where, False)), "plain")
