"""What stands in the folder."""
from __future__ import annotations

import hashlib
import os
import stat
import unicodedata
from collections.abc import Collection, Mapping
from dataclasses import dataclass, field

import ignoring
from home import NAME
from ignoring import Pattern
from shown import DIRECTORY, FILE, LINK, Record, Stat, stat_of
from spelling import FILE_BYTES, LINK_BYTES, PATH_PARTS, why_no_name

LOST = b"lost+found"
# How often a file is read that changes meanwhile.
TRIES = 3


@dataclass
class Found:
    """What stands at a path: what it is, its content, or why it can't be kept in step."""

    kind: str
    stat: Stat = None
    digest: str = ""
    bytes: bytes | None = None
    executable: bool = False
    why: str | None = None

    @property
    def inode(self) -> int:
        return self.stat[3] if self.stat else 0


def is_lost(where: bytes) -> bool:
    """Whether it is among the orphans."""
    return where == LOST or where.startswith(LOST + b"/")


def digest_of(content: bytes) -> str:
    return hashlib.sha256(content).hexdigest()


def read_file(path: bytes) -> tuple[bytes, os.stat_result]:
    """The bytes of a file, no more than one too many, and what it was like while they were read."""
    opened = os.open(path, os.O_RDONLY | os.O_NOFOLLOW | os.O_NONBLOCK)
    with open(opened, "rb") as file:
        content = file.read(FILE_BYTES + 1)
        return content, os.fstat(opened)


@dataclass
class Scan:
    """All that stands in the folder, by its paths, the upper ones first."""

    folder: bytes
    records: Mapping[bytes, Record]
    # What the replica has there besides.
    known: Collection[bytes] = ()
    found: dict[bytes, Found] = field(default_factory=dict)
    # Names that are spelled otherwise than another one in the same directory, and look the same.
    spellings: dict[bytes, bytes] = field(default_factory=dict)

    def do(self) -> Scan:
        self._tracked = {front for path in (*self.records, *self.known) for front in _fronts(path)}
        self._look_into(b"", [], False)
        return self

    def _look_into(self, below: bytes, patterns: list[Pattern], is_ignored: bool) -> None:
        with os.scandir(os.path.join(self.folder, below)) as entries:
            listed = sorted(entries, key=lambda entry: entry.name)
        if any(entry.name == ignoring.FILE for entry in listed):
            patterns = patterns + self._patterns(below)
        spelled: dict[str, bytes] = {}
        for entry in listed:
            if entry.name == NAME:
                continue
            where = os.path.join(below, entry.name)
            is_directory = entry.is_dir(follow_symlinks=False)
            ignored = is_ignored or ignoring.is_ignored(patterns, where, is_directory)
            if ignored and where not in self._tracked:
                continue
            self.found[where] = self._found(entry, where)
            self._look_at_spelling(where, entry.name, spelled)
            if is_directory and not self.found[where].why:
                try:
                    self._look_into(where, patterns, ignored)
                except OSError as error:
                    self._leave(where, f"it can't be read: {(error.strerror or str(error)).lower()}")

    def _leave(self, where: bytes, why: str) -> None:
        """What can't be looked at is neither changed nor missing, as far as is known, nor what lies in it."""
        self.found[where].why = why
        for path, record in self.records.items():
            if path.startswith(where + b"/"):
                self.found[path] = Found(record.kind, why=why)

    def _patterns(self, below: bytes) -> list[Pattern]:
        try:
            content = read_file(os.path.join(self.folder, below, ignoring.FILE))[0]
        except OSError:
            return []
        return ignoring.read(below + b"/" if below else b"", content)

    def _look_at_spelling(self, where: bytes, name: bytes, spelled: dict[str, bytes]) -> None:
        """Two names of one spelling in Unicode are two names."""
        if name.isascii():
            return
        same = unicodedata.normalize("NFC", name.decode("utf-8", "surrogateescape"))
        if same in spelled:
            self.spellings[where] = spelled[same]
        spelled[same] = where

    def _found(self, entry: os.DirEntry[bytes], where: bytes) -> Found:
        try:
            return self._read(entry, where)
        except OSError as error:
            return Found(FILE, why=f"it can't be read: {(error.strerror or str(error)).lower()}")

    def _read(self, entry: os.DirEntry[bytes], where: bytes) -> Found:
        told = entry.stat(follow_symlinks=False)
        record = self.records.get(where)
        # (what is shown may have a name that is none of a volume)
        why = None if where in self._tracked or where == LOST else _why_not(where, entry.name)
        if stat.S_ISDIR(told.st_mode):
            return Found(DIRECTORY, stat_of(told), why=why)
        if stat.S_ISLNK(told.st_mode):
            return self._link(entry.path, told, why)
        if not stat.S_ISREG(told.st_mode):
            return Found("other", why=why or "it is neither a directory, a file nor a symbolic link")
        found = Found(FILE, stat_of(told), executable=bool(told.st_mode & 0o100), why=why)
        if why and not is_lost(where):
            return found
        if record and record.kind == FILE and record.stat == found.stat:
            found.digest = record.digest
        elif told.st_size > FILE_BYTES:
            found.why = why or f"the file has {told.st_size:,} bytes, and {FILE_BYTES:,} is the most"
        else:
            self._read_into(found, entry.path)
        return found

    def _link(self, path: bytes, told: os.stat_result, why: str | None) -> Found:
        target = os.readlink(path)
        if len(target) > LINK_BYTES:
            why = why or f"the symbolic link has {len(target):,} bytes, and {LINK_BYTES:,} is the most"
        return Found(LINK, stat_of(told), digest_of(target), target, why=why)

    def _read_into(self, found: Found, path: bytes) -> None:
        for _ in range(TRIES):
            content, told = read_file(path)
            after = os.lstat(path)
            if stat_of(after) == stat_of(told) and len(content) == told.st_size:
                break
        else:
            found.why = "it is being written: the next sync looks at it again"
            return
        found.stat, found.bytes, found.digest = stat_of(told), content, digest_of(content)
        found.executable = bool(told.st_mode & 0o100)


def _fronts(path: bytes) -> list[bytes]:
    """The path and what is above it."""
    parts = path.split(b"/")
    return [b"/".join(parts[:count]) for count in range(1, len(parts) + 1)]


def _why_not(where: bytes, name: bytes) -> str | None:
    if is_lost(where):
        return f"{LOST.decode()} is for what lost its name: move it elsewhere"
    if where.count(b"/") >= PATH_PARTS:
        return f"its path has more than {PATH_PARTS} parts"
    return why_no_name(name)
