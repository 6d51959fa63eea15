"""What a replica shows at a path and below it."""
from __future__ import annotations

from collections.abc import Iterator
from dataclasses import dataclass, field

from answers import Answer, Row, Version, read_row, read_version
from faults import Fault, Status
from program import Folder, Place, ask_all
from refusals import in_words
from spelling import PATH_PARTS, Path, read_text


@dataclass
class Node:
    """A name that is shown, with what it leads to. What lies in a directory is there once it was looked at."""

    path: Path
    row: Row
    below: list[Node] = field(default_factory=list)

    def walk(self) -> Iterator[Node]:
        """It and all below it, what lies in a directory behind the directory."""
        yield self
        for node in self.below:
            yield from node.walk()


@dataclass(frozen=True)
class Shown:
    """What a replica shows below a directory, and what of it can't be looked at, with why."""

    below: list[Node]
    unseen: list[tuple[Path, str]]

    def walk(self) -> Iterator[Node]:
        for node in self.below:
            yield from node.walk()


def list_below(volume: Place, replica: int, path: Path) -> Shown:
    """Looks into the directory at the path and into all below it, one level after the other."""
    top = Node(path, Row("", "", "dir", False))
    unseen: list[tuple[Path, str]] = []
    # Each directory with the identifiers of those that lead to it.
    level: list[tuple[Node, tuple[str, ...]]] = [(top, ())]
    while level:
        # (the answers come first in each pair, so that how their run ends is seen too)
        answers = ask_all(volume, (f"{replica} ls {node.path}" for node, _ in level))
        deeper = []
        for answer, (node, above) in zip(answers, level):
            if answer.refusal:
                raise Fault(f"{node.path} at replica {replica}: {in_words(answer.refusal)}", Status.REFUSED)
            node.below = [Node(node.path.below(row.shown), row) for row in map(read_row, answer.listed)]
            for child in node.below:
                why = _why_unseen(child, above)
                if why:
                    unseen.append((child.path, why))
                elif child.row.is_directory:
                    deeper.append((child, (*above, child.row.identifier)))
        level = deeper
    return Shown(top.below, unseen)


def _why_unseen(node: Node, above: tuple[str, ...]) -> str | None:
    if len(node.path.parts) > PATH_PARTS:
        return f"its path has more than {PATH_PARTS} parts"
    return "the directory leads back up to itself" if node.row.identifier in above else None


def read_files(volume: Folder, replica: int, files: list[Node]) -> Iterator[list[Version]]:
    """The versions of each file: more than one where it is in conflict, none where its bytes aren't told. A symbolic
    link has one, its text."""
    looks = (f"{replica} {_telling(file.row)} {file.path}" for file in files)
    for answer, file in zip(ask_all(volume, looks), files):
        yield _versions(file, answer)


def _telling(row: Row) -> str:
    """The command that tells its bytes."""
    if row.is_link:
        return "readlink"
    return "versions" if row.is_in_conflict else "read"


def _versions(file: Node, answer: Answer) -> list[Version]:
    if answer.refusal:
        return []
    if file.row.is_in_conflict:
        return [read_version(line) for line in answer.listed]
    return [Version("", answer.value)] if answer.value.startswith('"') else []


def content(version: Version) -> bytes:
    return read_text(version.text)
