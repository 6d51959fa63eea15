"""Shows in the folder what its replica shows: written beside and renamed, and never over what changed since it was looked
at."""
from __future__ import annotations

import os
import stat
from dataclasses import dataclass, field

import placing
from home import BIG_BATCH, Home
from progress import followed
from scanning import Found, digest_of, read_file
from shown import DIRECTORY, FILE, LEFT, LINK, Record, Shown, renamed, stat_of
from view import Node, Version, View, counts_of

CHANGED = "it changed while it was being looked at: the next sync takes that in first"
IN_THE_WAY = "what others did can't be shown there, since something is in its way that isn't kept in step"


@dataclass
class Item:
    """What is to stand at a path."""

    kind: str
    identifier: str
    version: Version | None = None
    executable: bool = False
    version_of: bytes | None = None

    @property
    def digest(self) -> str:
        return self.version.digest if self.version else ""

    @property
    def vector(self) -> str:
        return self.version.vector if self.version else ""


@dataclass
class Showing:
    """What is to stand in the folder, what stands there, and what was done."""

    home: Home
    shown: Shown
    found: dict[bytes, Found]
    view: View
    is_quiet: bool = False
    items: dict[bytes, Item] = field(default_factory=dict)
    records: dict[bytes, Record] = field(default_factory=dict)
    # What was done at which path, and what couldn't be, with why.
    done: dict[bytes, str] = field(default_factory=dict)
    blocked: dict[bytes, str] = field(default_factory=dict)
    conflicts: list[bytes] = field(default_factory=list)
    unmoved: set[bytes] = field(default_factory=set)

    def plan(self) -> Showing:
        for node in self.view.at.values():
            if node.is_directory:
                self.items[node.where] = Item(DIRECTORY, node.identifier)
            elif node.is_link and node.versions:
                self.items[node.where] = Item(LINK, node.identifier, node.versions[0])
            elif node.is_in_conflict:
                self._plan_conflict(node)
            elif node.versions:
                self.items[node.where] = self._item(node, node.versions[0])
        return self

    def _item(self, node: Node, version: Version) -> Item:
        return Item(FILE, node.identifier, version, node.identifier in self.view.executable)

    def _plan_conflict(self, node: Node) -> None:
        """Under its name stands the version that lies here, or the first one; the others stand beside it."""
        self.conflicts.append(node.where)
        main = self._main(node)
        record, found = self.shown.records.get(node.where), self.found.get(node.where)
        if main:
            self.items[node.where] = self._item(node, main)
        elif not record and found and not found.why:
            self.shown.records[node.where] = Record(FILE, node.identifier, found.digest, inode=found.inode)
        hidden = {it.vector for it in self.shown.versions_of(node.where).values() if it.is_hidden}
        for version in node.versions:
            is_base = main is None and record is not None and version.vector == record.vector
            if version is main or is_base or version.vector in hidden or (main and version.digest == main.digest):
                continue
            item = Item(FILE, node.identifier, version, version_of=node.where)
            self.items[self._beside(node.where, version)] = item

    def _beside(self, where: bytes, version: Version) -> bytes:
        """Where a further version stands."""
        path = where + b".version-" + counts_of(version.vector)
        while path in self.view.at:
            path += b"~"
        return path

    def _main(self, node: Node) -> Version | None:
        """Which version stands under the name; none, where that was changed here since."""
        found, record = self.found.get(node.where), self.shown.records.get(node.where)
        if found:
            same = [version for version in node.versions if version.digest == found.digest]
            if same or not record or record.digest != found.digest:
                return same[0] if same else None
        if record:
            same = [version for version in node.versions if version.vector == record.vector]
            if same:
                return same[0]
        return node.versions[0]

    # Doing it.

    def do(self) -> None:
        self._rename_directories()
        self._remove()
        self._make_directories()
        self._put_files()
        self._keep_others()
        self.shown.records = self.records
        self.shown.conflicts = sorted(self.conflicts)
        self.shown.clashes = sorted(node.where for node in self.view.at.values() if node.is_clash)
        self.shown.orphans = sorted(node.where for node in self.view.orphans)

    def _count(self, where: bytes, does: str) -> None:
        self.done.setdefault(where, does)

    def _block(self, where: bytes, why: str) -> None:
        self.blocked.setdefault(where, why)

    def _rename_directories(self) -> None:
        """Directories that have another name now, the upper ones first, with all that stands in them."""
        while pair := self._renamed_directory():
            one, other = pair
            try:
                os.rename(self.home.real(one), self.home.real(other))
            except OSError as error:
                self.unmoved.add(one)
                self._block(other, _why(error))
                continue
            self._count(other, "renamed")
            self.shown.move(one, other)
            self.found = {renamed(path, one, other): it for path, it in self.found.items()}

    def _renamed_directory(self) -> tuple[bytes, bytes] | None:
        places = {item.identifier: path for path, item in self.items.items() if item.kind == DIRECTORY}
        for one, record in sorted(self.shown.records.items()):
            other = places.get(record.identifier, one)
            if record.kind != DIRECTORY or one == other or one not in self.found or one in self.items or one in self.unmoved:
                continue
            above = os.path.dirname(other)
            if (not above or self._is_directory(above)) and not os.path.lexists(self.home.real(other)):
                return one, other
        return None

    def _is_directory(self, where: bytes) -> bool:
        try:
            return stat.S_ISDIR(os.lstat(self.home.real(where)).st_mode)
        except OSError:
            return False

    def _remove(self) -> None:
        """What isn't to stand there any more, what lies in a directory before the directory."""
        for where in sorted(self.shown.records, reverse=True):
            record, item = self.shown.records[where], self.items.get(where)
            if (item and item.kind == record.kind) or where not in self.found:
                continue
            if record.kind in (DIRECTORY, LEFT):
                self._remove_directory(where, record)
            else:
                self._remove_file(where, record)

    def _remove_file(self, where: bytes, record: Record) -> None:
        why: str | None = CHANGED
        if self._is_as_recorded(where):
            try:
                why = None if self._take_away(where, record) else CHANGED
            except OSError as error:
                why = _why(error)
        if why:
            self.records[where] = record
            self._block(where, why)
        else:
            del self.found[where]
            self._count(where, "removed")

    def _remove_directory(self, where: bytes, record: Record) -> None:
        try:
            os.rmdir(self.home.real(where))
        except OSError:
            # (something lies in it that isn't kept in step)
            self.records[where] = Record(LEFT, "", inode=record.inode)
        else:
            del self.found[where]
            if record.kind == DIRECTORY:
                self._count(where, "removed")

    def _is_as_recorded(self, where: bytes) -> bool:
        """Whether there is still what was shown, as far as it was looked at."""
        found, record = self.found.get(where), self.shown.records.get(where)
        return bool(found and record and found.kind == record.kind and found.digest == record.digest and not found.why)

    def _take_away(self, where: bytes, record: Record) -> bool:
        return placing.take_away(self.home.real(where), self._place_beside(), lambda path: _is(path, record))

    def _make_directories(self) -> None:
        for where, item in sorted(self.items.items()):
            if item.kind != DIRECTORY:
                continue
            found = self.found.get(where)
            if found is None and self._may_stand(where):
                try:
                    os.mkdir(self.home.real(where))
                except OSError as error:
                    self._block(where, _why(error))
                else:
                    self._count(where, "made")
            if self._is_directory(where):
                inode = os.lstat(self.home.real(where)).st_ino
                self.records[where] = Record(DIRECTORY, item.identifier, inode=inode)
            else:
                self._block(where, IN_THE_WAY)

    def _may_stand(self, where: bytes) -> bool:
        above = os.path.dirname(where)
        return not above or above in self.records

    def _place_beside(self) -> bytes:
        self._count_beside = getattr(self, "_count_beside", 0) + 1
        return os.path.join(self._new, b"%d" % self._count_beside)

    @property
    def _new(self) -> bytes:
        if not hasattr(self, "_new_folder"):
            self._new_folder = self.home.clear_new()
        return self._new_folder

    def _put_files(self) -> None:
        """All are written before the first is renamed, so that the disk is waited for once where they are many."""
        beside: list[tuple[bytes, Item, bytes]] = []
        files = sorted((where, item) for where, item in self.items.items() if item.kind != DIRECTORY)
        for where, item in files if self.is_quiet else followed(files, len(files), "writing"):
            why = self._why_not(where, item)
            if why:
                self._leave(where, why)
            elif self._stands(where, item):
                self._record(where, item)
            else:
                try:
                    beside.append((where, item, self._write_beside(where, item, len(beside))))
                except OSError as error:
                    self._leave(where, _why(error))
        if len(beside) > BIG_BATCH:
            os.sync()
        for where, item, path in beside:
            try:
                why = None if self._put(where, item, path) else CHANGED
            except OSError as error:
                why = _why(error)
            if why:
                self._leave(where, why)
                continue
            self._count(where, "written" if where in self.found else "made")
            self.found.pop(where, None)
            self._record(where, item)

    def _leave(self, where: bytes, why: str) -> None:
        """It can't stand there: what does stays, and is known as before."""
        self._block(where, why)
        if where in self.shown.records:
            self.records[where] = self.shown.records[where]

    def _why_not(self, where: bytes, item: Item) -> str | None:
        """Why it can't stand there, or nothing where it can."""
        found = self.found.get(where)
        if not self._may_stand(where):
            return IN_THE_WAY
        if found is None or (found.kind == item.kind and not found.why and found.digest == item.digest):
            return None
        if where not in self.shown.records or found.why:
            return found.why or IN_THE_WAY
        return None if self._is_as_recorded(where) else CHANGED

    def _stands(self, where: bytes, item: Item) -> bool:
        found = self.found.get(where)
        return bool(found and found.kind == item.kind and found.digest == item.digest)

    def _text(self, item: Item) -> bytes:
        return self.view.texts[item.digest]

    def _write_beside(self, where: bytes, item: Item, count: int) -> bytes:
        path = self._place_beside()
        if item.kind == LINK:
            os.symlink(self._text(item), path)
            return path
        mode = self._mode(where, item)
        opened = os.open(path, os.O_WRONLY | os.O_CREAT | os.O_EXCL, 0o666 if mode is None else 0o600)
        with open(opened, "wb") as file:
            file.write(self._text(item))
            file.flush()
            if mode is not None:
                os.fchmod(opened, mode)
            elif item.executable:
                os.fchmod(opened, _with_bits(os.fstat(opened).st_mode, True))
            if count < BIG_BATCH:
                os.fsync(opened)
        return path

    def _mode(self, where: bytes, item: Item) -> int | None:
        """The mode of what stood there, but for the executable bit."""
        if where not in self.found or item.kind != FILE:
            return None
        try:
            return _with_bits(os.lstat(self.home.real(where)).st_mode, item.executable)
        except OSError:
            return None

    def _put(self, where: bytes, item: Item, beside: bytes) -> bool:
        place = self.home.real(where)
        if where not in self.found:
            return placing.put_new(beside, place)
        record = self.shown.records[where]
        return placing.put_over(beside, place, lambda path: _is(path, record))

    def _record(self, where: bytes, item: Item) -> None:
        """Notes what stands there now, and makes the executable bit what it is to be."""
        place = self.home.real(where)
        try:
            told = os.lstat(place)
            if item.kind == FILE and item.version_of is None and bool(told.st_mode & 0o100) != item.executable:
                if where in self.found and self.found[where].executable == bool(told.st_mode & 0o100):
                    os.chmod(place, _with_bits(told.st_mode, item.executable))
                    told = os.lstat(place)
                    self._count(where, "made executable" if item.executable else "made not executable")
        except OSError:
            return
        found = self.found.get(where)
        looked = found.stat if found else stat_of(told)
        # (what was looked at and has changed since is read again)
        stat_now = stat_of(told)
        if looked is None or stat_now is None or looked[:2] != stat_now[:2] or looked[3] != stat_now[3]:
            stat_now = None
        self.records[where] = Record(item.kind, item.identifier, item.digest, item.vector, stat_now, told.st_ino,
                                     bool(told.st_mode & 0o100), item.version_of)

    def _keep_others(self) -> None:
        """What else was recorded and is still there, or was deleted of a conflict that goes on."""
        for where, record in self.shown.records.items():
            if where in self.records:
                continue
            if record.is_hidden and record.version_of in self.conflicts:
                self.records[where] = record
            elif where in self.found and record.kind != LEFT and where not in self.items:
                self.records[where] = record
            elif where in self.found and where in self.conflicts:
                self.records[where] = record


def _why(error: OSError) -> str:
    return f"what others did can't be shown there: {(error.strerror or str(error)).lower()}"


def _is(path: bytes, record: Record) -> bool:
    """Whether what stands there is what was recorded."""
    try:
        content = os.readlink(path) if record.kind == LINK else read_file(path)[0]
    except OSError:
        return False
    return digest_of(content) == record.digest


def _with_bits(mode: int, executable: bool) -> int:
    """A mode, in which who may read may also execute, or nobody may."""
    plain = stat.S_IMODE(mode) & ~0o111
    return plain | (plain >> 2 & 0o111) if executable else plain
