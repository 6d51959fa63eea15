"""What of a replica stands in the folder, as it was when it was last looked at or written.

It is kept so that what didn't change isn't read again, and so that it is known which version whoever changed a file had
before them. Where it is lost, contents are compared, and what differs on both sides is kept twice.
"""
from __future__ import annotations

import os
import time
from collections.abc import Iterator
from dataclasses import dataclass, field
from typing import Any, Optional

from home import SHOWN, Home
from spelling import to_bytes, to_str

DIRECTORY, FILE, LINK = "dir", "file", "link"
# A directory that is left only for what isn't kept in it.
LEFT = "left"
# Times of files are as coarse as this on some file systems, in nanoseconds.
COARSE = 2_100_000_000

Stat = Optional[tuple[int, int, int, int]]


def stat_of(found: os.stat_result) -> Stat:
    """By what it is seen that a file has changed: its size, both its times and its number."""
    return found.st_size, found.st_mtime_ns, found.st_ctime_ns, found.st_ino


@dataclass
class Record:
    """What stands at a path: of which object it is, which version, and what it was like."""

    kind: str
    identifier: str
    digest: str = ""
    vector: str = ""
    stat: Stat = None
    inode: int = 0
    executable: bool = False
    # Where the file in conflict stands of which this is a further version; and whether that was deleted here.
    version_of: bytes | None = None
    is_hidden: bool = False

    def as_json(self) -> list[Any]:
        version_of = None if self.version_of is None else to_str(self.version_of)
        return [self.kind, self.identifier, self.digest, self.vector, self.stat, self.inode, self.executable, version_of,
                self.is_hidden]


def record_of(found: list[Any]) -> Record:
    kind, identifier, digest, vector, stat, inode, executable, version_of, is_hidden = found
    return Record(kind, identifier, digest, vector, tuple(stat) if stat else None, inode, executable,
                  None if version_of is None else to_bytes(version_of), is_hidden)


@dataclass
class Shown:
    """The records by their paths, and what was the mark of the replica when all of it was shown."""

    mark: str = ""
    records: dict[bytes, Record] = field(default_factory=dict)
    # What is being written into the replica, by its digest, as long as it isn't known whether it was.
    pending: dict[bytes, str] = field(default_factory=dict)
    # What isn't kept in step and why, which is told once.
    told: dict[bytes, str] = field(default_factory=dict)
    # What waits for somebody: files in conflict, names with several objects, and orphans.
    conflicts: list[bytes] = field(default_factory=list)
    clashes: list[bytes] = field(default_factory=list)
    orphans: list[bytes] = field(default_factory=list)

    @property
    def waits(self) -> bool:
        return bool(self.conflicts or self.clashes or self.orphans)

    def versions_of(self, where: bytes) -> dict[bytes, Record]:
        """The files of the further versions of a file in conflict."""
        return {path: record for path, record in self.records.items() if record.version_of == where}

    def mains(self) -> set[bytes]:
        """Where a file stands that was in conflict."""
        return {record.version_of for record in self.records.values() if record.version_of is not None}

    def below(self, where: bytes) -> Iterator[bytes]:
        front = where + b"/"
        return (path for path in self.records if path.startswith(front))

    def move(self, one: bytes, other: bytes) -> None:
        """The directory has another name."""
        moved = {}
        for path, record in self.records.items():
            if record.version_of is not None:
                record.version_of = renamed(record.version_of, one, other)
            moved[renamed(path, one, other)] = record
        self.records = moved


def renamed(path: bytes, one: bytes, other: bytes) -> bytes:
    """A path, where a directory on it may have another name now."""
    if path == one or path.startswith(one + b"/"):
        return other + path[len(one):]
    return path


def read(home: Home) -> Shown:
    found = home.read(SHOWN)
    if not found:
        return Shown()
    try:
        return Shown(
            found["mark"], {to_bytes(path): record_of(it) for path, it in found["records"].items()},
            {to_bytes(path): digest for path, digest in found["pending"].items()},
            {to_bytes(path): why for path, why in found["told"].items()},
            *([to_bytes(path) for path in found[key]] for key in ("conflicts", "clashes", "orphans")))
    except (KeyError, TypeError, ValueError):
        return Shown()


def write(home: Home, shown: Shown) -> None:
    _forget_fresh(shown)
    home.write(SHOWN, {
        "mark": shown.mark, "records": {to_str(path): it.as_json() for path, it in shown.records.items()},
        "pending": {to_str(path): digest for path, digest in shown.pending.items()},
        "told": {to_str(path): why for path, why in shown.told.items()},
        **{key: [to_str(path) for path in getattr(shown, key)] for key in ("conflicts", "clashes", "orphans")}})


def _forget_fresh(shown: Shown) -> None:
    """What was written a moment ago is read again next time: it may change without its time."""
    since = time.time_ns() - COARSE
    for record in shown.records.values():
        if record.stat and record.stat[1] > since:
            record.stat = None
