"""What a replica shows, and where each of it stands in a folder that is kept in step with it."""
from __future__ import annotations

from collections.abc import Iterator, Mapping
from dataclasses import dataclass, field

from answers import Answer, Row, read_row, read_version
from home import NAME
from member import Member
from scanning import LOST, digest_of
from spelling import PATH_PARTS, Path, read_name, read_text, to_bytes
from tree import list_below

# The root and the directory in which no path ends.
ROOT, ATTIC = "0.0", "0.1"
# Where the volume keeps which files are executable: an empty file for each, by its identifier.
MARKS, EXECUTABLE = NAME.decode(), "executable"
NO_NAME = b"nameless"


@dataclass
class Version:
    """A version of a file, or the target of a symbolic link."""

    vector: str
    digest: str
    size: int


@dataclass
class Node:
    """An object where it is shown: how a script names it, and where it stands in the folder."""

    identifier: str
    kind: str
    path: str
    where: bytes
    versions: list[Version] = field(default_factory=list)
    # Where the directory, or the name, is in the volume; whether it is an orphan itself; whether others have its name.
    is_orphan: bool = False
    is_clash: bool = False

    @property
    def is_directory(self) -> bool:
        return self.kind == "dir"

    @property
    def is_link(self) -> bool:
        return self.kind == "symlink"

    @property
    def is_in_conflict(self) -> bool:
        return len(self.versions) > 1

    @property
    def vectors(self) -> set[str]:
        return {version.vector for version in self.versions}

    @property
    def digests(self) -> set[str]:
        return {version.digest for version in self.versions}


class View:
    """All that a replica shows."""

    def __init__(self) -> None:
        self.at: dict[bytes, Node] = {}
        self.of: dict[str, list[Node]] = {}
        self.texts: dict[str, bytes] = {}
        # Marks of executable files: by the identifier of each the paths of its marks.
        self.executable: dict[str, list[str]] = {}
        # Whether the volume has the directories for them.
        self.has_marks = False
        # Further names of directories that have one already.
        self.further_names: list[str] = []
        # What can't be shown, and why.
        self.unseen: dict[bytes, str] = {}
        # Whether a collection has something to delete.
        self.is_collectable = False

    def add(self, node: Node) -> None:
        self.at[node.where] = node
        self.of.setdefault(node.identifier, []).append(node)

    def node(self, identifier: str, where: bytes) -> Node | None:
        """The object, there or else where it stands first."""
        there = self.at.get(where)
        if there and there.identifier == identifier:
            return there
        return next(iter(self.of.get(identifier, [])), None)

    def is_at(self, identifier: str, where: bytes) -> bool:
        there = self.at.get(where)
        return there is not None and there.identifier == identifier

    def below(self, where: bytes) -> Iterator[Node]:
        front = where + b"/" if where else b""
        return (node for path, node in self.at.items() if path.startswith(front) and path != where)

    @property
    def orphans(self) -> list[Node]:
        return [node for node in self.at.values() if node.is_orphan]


def look(member: Member, names: Mapping[str, bytes]) -> View:
    """Asks the replica for all that it shows. The names are those of orphans of which
    nothing else tells."""
    view = View()
    tree, orphans, marks = member.ask([member.line("tree"), member.line("orphans"), member.line("marks")])
    children: dict[str, list[Row]] = {}
    for line in tree.listed:
        directory, _, rest = line.partition(" ")
        children.setdefault(directory, []).append(read_row(rest))
    _read_marks(view, children)
    _walk(view, children)
    view.is_collectable = any(len(line.rpartition("two=")[2]) == member.members for line in marks.listed)
    _add_orphans(view, member, orphans, {**names, **_former_names(marks)})
    _read_texts(view, member)
    return view


def _read_marks(view: View, children: dict[str, list[Row]]) -> None:
    """Which files are executable."""
    for top in (row for row in children.get(ROOT, []) if row.name == MARKS and row.is_directory):
        for kept in (row for row in children.get(top.identifier, []) if row.name == EXECUTABLE and row.is_directory):
            view.has_marks = True
            for row in children.get(kept.identifier, []):
                view.executable.setdefault(row.name, []).append(f"/{top.shown}/{kept.shown}/{row.shown}")


def _walk(view: View, children: dict[str, list[Row]]) -> None:
    """Adds what can be reached from the root, one level after the other. A directory stands where it is met first."""
    level: list[tuple[str, Path, bytes]] = [(ROOT, Path("", ()), b"")]
    seen = {ROOT}
    while level:
        deeper = []
        for identifier, path, where in level:
            for row in children.get(identifier, []):
                if not where and row.name == MARKS and row.is_directory:
                    continue
                node = _node(row, path, where, seen, view)
                if node and row.is_directory:
                    deeper.append((row.identifier, path.below(row.shown), node.where))
        level = deeper


def _node(row: Row, path: Path, where: bytes, seen: set[str], view: View) -> Node | None:
    place = path.below(row.shown)
    name, rest = _name(row, where)
    below = (where + b"/" if where else b"") + name + rest
    if row.is_directory and row.identifier in seen:
        view.further_names.append(str(place))
        return None
    if len(place.parts) > PATH_PARTS:
        view.unseen[below] = f"its path has more than {PATH_PARTS} parts"
        return None
    if row.is_directory:
        seen.add(row.identifier)
    node = Node(row.identifier, row.kind, str(place), below, is_clash=row.shown != row.name)
    view.add(node)
    return node


def _name(row: Row, where: bytes) -> tuple[bytes, bytes]:
    """The name under which it stands, and what is behind it where something else has that name."""
    name = read_name(row.name)
    is_taken = row.shown != row.name or name == NAME or (not where and name == LOST)
    return name, b"#" + row.identifier.encode() if is_taken else b""


def _former_names(marks: Answer) -> dict[str, bytes]:
    """What objects were called last that have lost a name."""
    found = []
    for line in marks.listed:
        entry, directory, name, target, *_ = line.split(" ")
        if directory != ATTIC:
            replica, number = entry.split(".")
            found.append((int(number), int(replica), target, read_name(name)))
    return {target: name for _, _, target, name in sorted(found)}


def _add_orphans(view: View, member: Member, orphans: Answer, names: dict[str, bytes]) -> None:
    """Adds the orphans, in the folder for them, with all that is below them."""
    listed = []
    for line in orphans.listed:
        word, kind, *_ = line.split(" ")
        identifier = word[1:]
        if identifier not in view.of:
            listed.append((identifier, kind, names.get(identifier, NO_NAME)))
    called = [name for _, _, name in listed]
    seen = set(view.of)
    if listed:
        view.add(Node("", "dir", "", LOST))
    for identifier, kind, name in listed:
        is_taken = called.count(name) > 1 or name == NO_NAME or name == NAME
        where = LOST + b"/" + name + (b"#" + identifier.encode() if is_taken else b"")
        view.add(Node(identifier, kind, f"~{identifier}", where, is_orphan=True))
        if kind == "dir":
            seen.add(identifier)
            shown = list_below(member, member.number, Path(f"~{identifier}", ()))
            above = {f"~{identifier}": where}
            for below in shown.walk():
                front = above.get(str(below.path.parent()))
                if front is not None:
                    node = _node(below.row, below.path.parent(), front, seen, view)
                    if node:
                        above[str(below.path)] = node.where


def _read_texts(view: View, member: Member) -> None:
    """Reads the versions of each file, and the target of each symbolic link."""
    first = [nodes[0] for nodes in view.of.values() if not nodes[0].is_directory]
    answers = member.ask(member.line("readlink" if node.is_link else "versions", node.path) for node in first)
    for node, answer in zip(first, answers):
        told = [("", answer.value)] if node.is_link else [
            (version.vector, version.text) for version in map(read_version, answer.listed)]
        versions = _joined([_version(view, vector, text) for vector, text in told if text])
        for same in view.of[node.identifier]:
            same.versions = versions


def _joined(versions: list[Version]) -> list[Version]:
    """The versions, as one where all have the same bytes."""
    if len({version.digest for version in versions}) != 1:
        return versions
    return [Version("".join(version.vector for version in versions), versions[0].digest, versions[0].size)]


def _version(view: View, vector: str, text: str) -> Version:
    content = read_text(text)
    digest = digest_of(content)
    view.texts[digest] = content
    return Version(vector, digest, len(content))


def counts_of(vector: str) -> bytes:
    """The counts of a vector, as they stand in the name of a version's file."""
    return to_bytes(vector.strip("[]").replace("][", "+").replace(",", "."))
