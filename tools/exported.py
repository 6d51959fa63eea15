"""A real folder that an export wrote, with the note of what that was, so that a later one finds what was changed since.

The note stands beside the folder, so that nothing stands in it but what the volume has.
"""
from __future__ import annotations

import hashlib
import json
import os
import stat
from collections.abc import Mapping
from dataclasses import dataclass

import unfit
from counting import counted
from faults import Fault, Status
from spelling import to_bytes, to_str
from unfit import Unfit, show

SUFFIX = b".exported"
# What a note has of a path at which there is nothing.
NOTHING = "nothing"


@dataclass(frozen=True)
class Content:
    """What is at a path: a directory, a symbolic link with its text, or a file with its bytes."""

    kind: str
    bytes: bytes = b""

    @property
    def mark(self) -> str:
        """What a note has of it."""
        return f"{self.kind} {hashlib.sha256(self.bytes).hexdigest()}"


DIRECTORY, LINK, FILE = "dir", "link", "file"
Contents = Mapping[bytes, Content]


def _there(path: bytes) -> Content | None:
    """What is at a real path, where it is of a kind that is written here."""
    try:
        mode = os.lstat(path).st_mode
    except FileNotFoundError:
        return None
    if stat.S_ISDIR(mode):
        return Content(DIRECTORY)
    if stat.S_ISLNK(mode):
        return Content(LINK, os.readlink(path))
    if not stat.S_ISREG(mode):
        return Content("other")
    with open(path, "rb") as file:
        return Content(FILE, file.read())


def _walk(folder: bytes, below: bytes = b"") -> list[bytes]:
    """Each path in the folder, from it on, what lies in a directory behind the directory."""
    found: list[bytes] = []
    for entry in sorted(os.scandir(os.path.join(folder, below)), key=lambda entry: entry.name):
        path = os.path.join(below, entry.name)
        found.append(path)
        if entry.is_dir(follow_symlinks=False):
            found += _walk(folder, path)
    return found


class Exported:
    """The folder, and of what it is: the volume's folder, the replica and the path."""

    def __init__(self, folder: bytes, source: list[str]) -> None:
        self.folder = folder.rstrip(b"/") or folder
        self.source = source
        self.note = os.path.abspath(self.folder) + SUFFIX
        # What may be at each path, as it was written, or as an export that was interrupted would have written it.
        self.marks: dict[str, list[str]] = {}

    def find(self) -> None:
        """Reads the note, where something lies in the folder. What no export of the same wrote isn't written to."""
        name = os.fsdecode(self.folder)
        if os.path.lexists(self.folder) and not os.path.isdir(self.folder):
            raise Fault(f"{name} is no folder", Status.UNFIT)
        if not os.path.isdir(self.folder) or not os.listdir(self.folder):
            return
        try:
            with open(self.note, encoding="ascii") as file:
                noted = json.load(file)
        except (FileNotFoundError, ValueError):
            raise Fault(f"something lies in {name} that no export wrote, and would be mixed with what goes out",
                        Status.UNFIT) from None
        if noted["of"] != self.source:
            raise Fault(f"{name} was exported from {' '.join(map(str, noted['of']))}, and not from {' '.join(self.source)}",
                        Status.UNFIT)
        self.marks = noted["paths"]

    def refuse_changes(self) -> None:
        """Lists what isn't as it was written, and ends where there is some."""
        if not self.marks:
            return
        paths = {to_str(path) for path in _walk(self.folder)} | set(self.marks)
        changed = [Unfit(show(os.path.join(self.folder, to_bytes(path))), "it was changed since it was written")
                   for path in sorted(paths) if not self._is_as_written(path)]
        unfit.tell(changed)
        if changed:
            raise Fault(f"nothing was done, since {counted(len(changed), 'change')} in {os.fsdecode(self.folder)} would be "
                        "lost: export to another folder, or move what was changed", Status.UNFIT)

    def _is_as_written(self, path: str) -> bool:
        there = _there(os.path.join(self.folder, to_bytes(path)))
        return (there.mark if there else NOTHING) in self.marks.get(path, [])

    def write(self, contents: Contents) -> int:
        """Makes the folder have these contents, and gives how many names it took away."""
        os.makedirs(self.folder, exist_ok=True)
        after = {to_str(path): content.mark for path, content in contents.items()}
        self._note({path: [NOTHING, *self.marks.get(path, []), *([after[path]] if path in after else [])]
                    for path in (*self.marks, *after)})
        gone = [path for path in reversed(_walk(self.folder)) if self._is_to_go(path, contents)]
        for path in gone:
            self._remove(path)
        for path, content in contents.items():
            self._put(path, content)
        self._note({path: [mark] for path, mark in after.items()})
        return sum(path not in contents for path in gone)

    def _is_to_go(self, path: bytes, contents: Contents) -> bool:
        there = _there(os.path.join(self.folder, path))
        return path not in contents or there is None or there.kind != contents[path].kind

    def _remove(self, path: bytes) -> None:
        place = os.path.join(self.folder, path)
        if os.path.isdir(place) and not os.path.islink(place):
            os.rmdir(place)
        else:
            os.unlink(place)

    def _put(self, path: bytes, content: Content) -> None:
        place = os.path.join(self.folder, path)
        if _there(place) == content:
            return
        if content.kind == DIRECTORY:
            os.mkdir(place)
        elif content.kind == LINK:
            if os.path.lexists(place):
                os.unlink(place)
            os.symlink(content.bytes, place)
        else:
            with open(place, "wb") as file:
                file.write(content.bytes)

    def _note(self, marks: dict[str, list[str]]) -> None:
        beside = self.note + b".new"
        with open(beside, "w", encoding="ascii") as file:
            json.dump({"of": self.source, "paths": marks}, file)
        os.replace(beside, self.note)
