"""What was changed in the folder, as commands to its replica.

A write takes the place of all versions that the replica knows. So a file is written, removed or settled only where what
the replica shows is what stood in the folder before; else both are kept, one beside the other.
"""
from __future__ import annotations

import os
from collections.abc import Callable, Mapping
from dataclasses import dataclass, field

from ignoring import Kinds
from scanning import LOST, Found, digest_of, is_lost
from shown import DIRECTORY, FILE, LEFT, LINK, Record, Shown
from spelling import NAME_BYTES, spell_name, spell_text
from view import Node, View, counts_of

# Refusals behind which the replica takes nothing in any more.
SPENT = ("spent", "quota")


@dataclass
class Command:
    """A line for the replica, without its number, where it comes from, and what it does."""

    line: str
    where: bytes
    does: str


@dataclass
class Plan:
    """What the folder has that the replica doesn't, or the other way round."""

    shown: Shown
    found: Mapping[bytes, Found]
    view: View
    kinds: Kinds
    # Reads the bytes of a file that is as it was shown, which weren't read.
    read: Callable[[bytes], bytes | None]
    commands: list[Command] = field(default_factory=list)
    # What is listed of the changes: what was done at which path.
    told: dict[bytes, str] = field(default_factory=dict)
    # Real names that are to be given, since another thing has theirs.
    aside: list[tuple[bytes, bytes]] = field(default_factory=list)
    # Directories that are to be made, and those that are there, by their paths in the folder, as scripts name them.
    made: dict[bytes, str] = field(default_factory=dict)
    gone: set[bytes] = field(default_factory=set)
    written: dict[str, str] = field(default_factory=dict)
    taken: set[bytes] = field(default_factory=set)

    def make(self) -> Plan:
        # (names that several objects have, of which none stands without its identifier)
        self.clashes = {node.where.rpartition(b"#")[0] for node in self.view.at.values() if node.is_clash}
        self._sort()
        self._settle()
        self._make_directories()
        self._rename_files()
        self._remove()
        self._change()
        self._make_files()
        self._clear_shared_names()
        return self

    def ask(self, line: str, where: bytes, does: str) -> None:
        self.commands.append(Command(line, where, does))
        self.told.setdefault(where, does)

    # What differs.

    def _sort(self) -> None:
        records, found = self.shown.records, self.found
        conflicts = self.shown.mains()
        self.conflicts = sorted(path for path in conflicts if path in records)
        apart = set(conflicts) | {path for path, record in records.items() if record.version_of is not None}
        apart -= {path for path in apart if self._is_new_version(path)}
        self.missing = {path: record for path, record in records.items() if path not in apart and record.kind != LEFT
                        and (path not in found or self._is_other_kind(path))}
        self.new = {path: it for path, it in found.items() if path not in apart and not it.why and path != LOST
                    and (path not in records or self._is_other_kind(path) or records[path].version_of is not None)}
        self.new = {path: it for path, it in self.new.items() if not self._is_left(path)}
        self.changed = {path: it for path, it in found.items() if path in records and path not in apart and not it.why
                        and path not in self.new and it.kind in (FILE, LINK) and it.digest != records[path].digest}

    def _is_other_kind(self, path: bytes) -> bool:
        found, record = self.found.get(path), self.shown.records.get(path)
        return bool(found and record and not found.why and record.kind != LEFT and found.kind != record.kind)

    def _is_new_version(self, path: bytes) -> bool:
        """Whether a further version was changed here, and its file isn't in conflict any more: it is one by itself."""
        record = self.shown.records.get(path)
        if not record or record.version_of is None or path not in self.found:
            return False
        node = self.view.node(record.identifier, record.version_of)
        return self.found[path].digest != record.digest and not (node and node.is_in_conflict)

    def _is_left(self, path: bytes) -> bool:
        """Whether a directory was only left for what isn't kept in it."""
        record = self.shown.records.get(path)
        front = path + b"/"
        return bool(record and record.kind == LEFT and not any(
            other.startswith(front) and it.kind != DIRECTORY and not it.why for other, it in self.found.items()))

    # Conflicts.

    def _settle(self) -> None:
        for main in self.conflicts:
            record, found = self.shown.records[main], self.found.get(main)
            node = self.view.node(record.identifier, main)
            versions = self.shown.versions_of(main)
            if node is None or not node.is_in_conflict:
                # (somebody else settled it)
                if found and not found.why and found.digest != record.digest:
                    self.changed[main] = found
                continue
            known = {record.digest, *(it.digest for it in versions.values())}
            remain = [path for path in versions if path in self.found]
            if remain or not versions or not node.digests <= known or (found and found.why):
                continue
            if found and found.kind == FILE:
                self._give(main, node, found, "settle", "settled")
            elif not found:
                self._take_away(main, node)

    def _give(self, where: bytes, node: Node, found: Found, command: str, does: str) -> None:
        content = self.read(where) if found.bytes is None else found.bytes
        if content is None or digest_of(content) != found.digest:
            # (it changed a moment ago: the next look finds it)
            return
        self.ask(f"{command} {node.path} {spell_text(content)}", where, does)
        self.written[node.identifier] = found.digest
        self.taken.add(where)

    # Directories.

    def _path_of(self, where: bytes) -> str | None:
        """How a script names a directory, where the replica has it or gets it before."""
        if not where:
            return ""
        if where in self.made:
            return self.made[where]
        node = self.view.at.get(where)
        return node.path if node and node.is_directory and node.path and where not in self.gone else None

    def _new_path(self, where: bytes) -> str | None:
        """How a script names what isn't there yet, where it may be made."""
        above, name = os.path.split(where)
        path = self._path_of(above)
        return None if path is None or where in self.clashes else f"{path}/{spell_name(name)}"

    def _make_directories(self) -> None:
        for where, found in sorted(self.new.items()):
            there = self.view.at.get(where)
            if found.kind != DIRECTORY or (there and there.is_directory) or self._is_renamed(where):
                continue
            if there and not self._clears(where, there):
                self._step_aside(where)
                continue
            path = self._new_path(where)
            if path is not None:
                self.made[where] = path
                self.ask(f"mkdir {path}", where, "made")

    def _clears(self, where: bytes, there: Node) -> bool:
        """Whether what the replica has there is what stood here before and is of another kind now: it is removed."""
        record = self.missing.get(where)
        if record and record.identifier == there.identifier and self._is_as_shown(record, there):
            if there.is_directory:
                return self._remove_directory(where)
            self._take_away(where, there)
            return True
        return False

    def _step_aside(self, where: bytes) -> None:
        """Something else came to have this name: what stands here gets another one, and is made by the next look."""
        self.aside.append((where, self._free(where + b".version-here")))

    def _is_renamed(self, where: bytes) -> bool:
        """What stood here under a name that only the tool gives, and is no longer so, gets the name without that."""
        above, name = os.path.split(where)
        if b"#" not in name:
            return False
        self.aside.append((where, self._free(os.path.join(above, name.rpartition(b"#")[0]))))
        return True

    def _free(self, where: bytes) -> bytes:
        """A path like this at which there is nothing."""
        above, name = os.path.split(where)
        count = 0
        while True:
            behind = b".%d" % count if count else b""
            path = os.path.join(above, name[:NAME_BYTES - len(behind)] + behind)
            if path not in self.found and path not in self.view.at and path not in self.made:
                return path
            count += 1

    # Names.

    def _rename_files(self) -> None:
        """A missing file whose bytes stand under one new name has that name now."""
        gone: dict[str, list[bytes]] = {}
        for path, record in self.missing.items():
            if record.kind == FILE and not self._is_other_kind(path):
                gone.setdefault(record.digest, []).append(path)
        came: dict[str, list[bytes]] = {}
        for path, found in self.new.items():
            if found.kind == FILE and not is_lost(path):
                came.setdefault(found.digest, []).append(path)
        for digest, paths in gone.items():
            for one, other in self._pairs(paths, came.get(digest, [])):
                self._rename(one, other)

    def _pairs(self, gone: list[bytes], came: list[bytes]) -> list[tuple[bytes, bytes]]:
        """Which of these is which of those, as far as that is certain."""
        pairs = []
        for one in gone:
            same = [other for other in came if self.found[other].inode == self.shown.records[one].inode]
            if len(same) == 1:
                pairs.append((one, same[0]))
        if not pairs and len(gone) == len(came) == 1 and self.shown.records[gone[0]].digest != EMPTY:
            pairs.append((gone[0], came[0]))
        return pairs

    def _rename(self, one: bytes, other: bytes) -> None:
        record = self.missing[one]
        path = self._new_path(other)
        if not self.view.is_at(record.identifier, one) or path is None or other in self.view.at:
            return
        node = self.view.at[one]
        self.ask(f"{'adopt' if node.is_orphan else 'mv'} {node.path} {path}", other, "renamed")
        self.gone.add(one)
        del self.missing[one]
        del self.new[other]

    # Removals.

    def _is_as_shown(self, record: Record, node: Node) -> bool:
        """Whether the replica has there what was shown."""
        if record.kind != FILE:
            return True
        return node.vectors == {record.vector} and record.digest in node.digests

    def _take_away(self, where: bytes, node: Node) -> None:
        self.ask(f"{'discard' if node.is_orphan else 'rm'} {node.path}", where, "removed")
        self.gone.add(where)

    def _remove(self) -> None:
        """What lies in a directory goes before the directory."""
        for where in sorted(self.missing, reverse=True):
            record = self.missing[where]
            node = self.view.at.get(where)
            if where in self.gone or node is None or node.identifier != record.identifier or not record.identifier:
                continue
            if node.is_directory:
                self._remove_directory(where)
            elif self._is_as_shown(record, node) and not self._is_still_there(record, where):
                self._take_away(where, node)

    def _is_still_there(self, record: Record, where: bytes) -> bool:
        """Whether an orphan was only given another name among the orphans."""
        return is_lost(where) and any(
            is_lost(path) and path not in self.shown.records and it.digest == record.digest
            for path, it in self.found.items())

    def _remove_directory(self, where: bytes) -> bool:
        """Removes a directory, unless something lies in it that wasn't here."""
        node = self.view.at[where]
        if any(below.where not in self.gone for below in self.view.below(where)):
            return False
        if node.is_orphan:
            self.gone.add(where)
        else:
            self._take_away(where, node)
        return True

    # Contents.

    def _change(self) -> None:
        for where, found in sorted(self.changed.items()):
            record = self.shown.records[where]
            node = self.view.node(record.identifier, where)
            if node is None or node.is_directory or node.where in self.gone or (is_lost(node.where) and not is_lost(where)):
                self.new[where] = found
            elif found.kind == LINK:
                self._change_link(where, found, node)
            elif found.digest in node.digests:
                pass
            elif self._may_write(where, record, node):
                self._give(where, node, found, "write", "written")
            elif self.written.get(node.identifier, found.digest) != found.digest and node.where == where:
                # (another name of the same file was given other bytes: from now on they are two)
                self._take_away(where, node)
                self.new[where] = found
            elif not node.is_in_conflict:
                self._keep_both(where, found, node)

    def _may_write(self, where: bytes, record: Record, node: Node) -> bool:
        """Whether the replica has what stood here, or what was being written when that was broken off."""
        if node.identifier in self.written or node.is_in_conflict:
            return False
        return self._is_as_shown(record, node) or self._is_pending(where, node)

    def _is_pending(self, where: bytes, node: Node) -> bool:
        version = node.versions[0] if node.versions else None
        return version is None or version.size == 0 or self.shown.pending.get(where) == version.digest

    def _change_link(self, where: bytes, found: Found, node: Node) -> None:
        if found.digest in node.digests:
            return
        if self.shown.records[where].digest in node.digests and node.where == where:
            self._take_away(where, node)
            self.new[where] = found
        else:
            self._step_aside(where)

    def _keep_both(self, where: bytes, found: Found, node: Node) -> None:
        """Others wrote the file too, which wasn't known here: their bytes stand beside it from now on, as a file."""
        version = node.versions[0]
        # (among the orphans nothing is made)
        front = os.path.basename(node.where) if is_lost(node.where) else node.where
        beside = self._free(front + b".version-" + counts_of(version.vector))
        path = self._new_path(beside)
        if path is None:
            return
        self.made[beside] = path
        self._create(beside, path, self.view.texts[version.digest], "kept beside")
        self._give(where, node, found, "write", "written")

    def _make_files(self) -> None:
        for where, found in sorted(self.new.items()):
            if found.kind == DIRECTORY:
                continue
            there = None if where in self.gone else self.view.at.get(where)
            if there is None:
                if not self._is_renamed(where):
                    self._make_file(where, found)
            elif found.digest in there.digests and there.is_link == (found.kind == LINK):
                continue
            elif there.is_directory or there.is_link or found.kind == LINK:
                if self._clears(where, there):
                    self._make_file(where, found)
                else:
                    self._step_aside(where)
            elif there.is_in_conflict:
                continue
            elif self._is_pending(where, there):
                self._give(where, there, found, "write", "written")
            else:
                self._keep_both(where, found, there)

    def _clear_shared_names(self) -> None:
        """What is new under a name that several objects have gets another one, unless one of these goes now."""
        for where in self.new:
            if where in self.clashes and not any(path.rpartition(b"#")[0] == where for path in self.gone):
                self._step_aside(where)

    def _make_file(self, where: bytes, found: Found) -> None:
        if self._is_version_file(where, found):
            return
        path = self._new_path(where)
        content = self.read(where) if found.bytes is None else found.bytes
        if path is None or content is None:
            return
        if found.kind == LINK:
            self.ask(f"symlink {path} {spell_text(content)}", where, "made")
        else:
            self._create(where, path, content, "made")
        self.taken.add(where)

    def _create(self, where: bytes, path: str, content: bytes, does: str) -> None:
        self.ask(f"create {path} {self.kinds.of(where)}", where, does)
        if content:
            self.ask(f"write {path} {spell_text(content)}", where, does)

    def _is_version_file(self, where: bytes, found: Found) -> bool:
        """Whether it is the file of a version that was shown before, which was forgotten."""
        main, _, counts = where.rpartition(b".version-")
        node = self.view.at.get(main)
        return bool(node and node.is_in_conflict and any(
            counts_of(version.vector) == counts and version.digest == found.digest for version in node.versions))


EMPTY = digest_of(b"")


def renamed_directories(shown: Shown, found: Mapping[bytes, Found], view: View) -> list[tuple[bytes, bytes]]:
    """Which missing directories have another name in the same directory, those of the uppermost level where there are
    some. Only such ones are renamed as a whole: what lies in one that went elsewhere goes one by one, so that no two
    directories ever come to lie in each other."""
    by_inode = {it.inode: path for path, it in found.items()
                if it.kind == DIRECTORY and path not in shown.records and not it.why}
    pairs = []
    for path, record in sorted(shown.records.items()):
        other = by_inode.get(record.inode)
        if record.kind != DIRECTORY or path in found or other is None or is_lost(path):
            continue
        if os.path.dirname(other) != os.path.dirname(path) or other in view.at or not view.is_at(record.identifier, path):
            continue
        pairs.append((path, other))
    least = min((path.count(b"/") for path, _ in pairs), default=0)
    return [(one, other) for one, other in pairs if one.count(b"/") == least]
