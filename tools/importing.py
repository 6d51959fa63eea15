"""`./ficus import`: a real folder into a volume."""
from __future__ import annotations

import os
import stat
import sys
from argparse import ArgumentParser, Namespace, RawDescriptionHelpFormatter
from collections import Counter
from dataclasses import dataclass, field

import formats
import places
import unfit
from counting import counted
from faults import Fault, Status
from program import Folder, ask, ask_all, locked
from progress import followed
from refusals import in_words
from spelling import FILE_BYTES, LINK_BYTES, PATH_PARTS, Path, spell_name, spell_text, to_bytes, why_no_name
from tree import Node, content, list_below, read_files
from unfit import Unfit

# The most that one replica does over its life.
LIFE_UPDATES = 100_000
LIFE_BYTES = 4_194_304

DESCRIPTION = """\
Copies the directories, files and symbolic links of the real FOLDER into the volume in ROOT, as changes of replica R, to
PATH or to its root. Only what differs is changed, so an interrupted import can be repeated and does the rest. Whatever
else is in the volume stays, or is removed with --delete. What can't be imported is listed before anything is done."""
WHAT_STAYS = "what was done until then stays, and the same again does the rest"
WHAT_IS_SPENT = "what was done until then stays; this replica takes no more of it, and another one of the volume may"
# Refusals behind which the same again does nothing.
SPENT = ("spent", "quota")


def add(parser: ArgumentParser) -> None:
    parser.description = DESCRIPTION
    parser.formatter_class = RawDescriptionHelpFormatter
    places.add_root(parser)
    places.add_replica(parser)
    parser.add_argument("folder", metavar="FOLDER", type=os.fsencode, help="the folder to import")
    parser.add_argument("path", metavar="PATH", nargs="?", type=places.volume_path, default=Path("", ()),
                        help="the directory of the volume, which is made if it is missing")
    parser.add_argument("--delete", action="store_true",
                        help="remove what the volume has there and FOLDER hasn't, after listing it")
    parser.add_argument("--list", dest="lists", action="store_true", help="only list what would be made, written and removed")
    parser.add_argument("--kind", choices=formats.kinds(), default="plain", help="the kind of new files (plain)")
    unfit.add_skip(parser)


def run(words: Namespace) -> int:
    with locked(words.root) as volume:
        made = missing_above(volume, words.replica, words.path)
        found = [] if made else list_below(volume, words.replica, words.path).below
        plan = Plan(words.replica, words.kind)
        plan.make_directories(made)
        plan.compare(scan(words.folder), words.path, found)
        plan.compare_bytes(volume)
        if words.delete:
            plan.remove_others()
        plan.weigh()
        unfit.settle(plan.unfit, words.skip, "in")
        if words.lists or words.delete:
            plan.list_commands(words.lists)
        if words.lists:
            return Status.DONE
        plan.tell_not_kept()
        plan.carry_out(volume)
        plan.tell()
    return Status.DONE


@dataclass
class Real:
    """A name of the real folder: a directory with what lies in it, a file with its bytes, a symbolic link with its
    text, or why it is unfit."""

    where: bytes
    name: bytes
    below: list[Real] | None = None
    bytes: bytes = b""
    is_link: bool = False
    why: str | None = None
    # What isn't kept of a file, in the words of `NOT_KEPT`.
    not_kept: tuple[str, ...] = ()


def scan(folder: bytes) -> list[Real]:
    """What lies in the folder, by the bytes of its names."""
    with os.scandir(folder) as entries:
        return [_real(entry) for entry in sorted(entries, key=lambda entry: entry.name)]


def _real(entry: os.DirEntry[bytes]) -> Real:
    real = Real(entry.path, entry.name, why=why_no_name(entry.name))
    if real.why:
        return real
    try:
        found = entry.stat(follow_symlinks=False)
        if stat.S_ISDIR(found.st_mode):
            real.below = scan(entry.path)
        elif stat.S_ISLNK(found.st_mode):
            real.is_link = True
            real.bytes = os.readlink(entry.path)
            if len(real.bytes) > LINK_BYTES:
                real.why = f"the symbolic link has {len(real.bytes):,} bytes, and {LINK_BYTES:,} is the most"
        elif not stat.S_ISREG(found.st_mode):
            real.why = "it is neither a directory, a file nor a symbolic link"
        elif found.st_size > FILE_BYTES:
            real.why = f"the file has {found.st_size:,} bytes, and {FILE_BYTES:,} is the most"
        else:
            real.not_kept = _not_kept(found)
            with open(entry.path, "rb") as file:
                real.bytes = file.read(FILE_BYTES + 1)
    except OSError as error:
        real.why = f"it can't be read: {error.strerror}"
    return real


# What isn't kept of files, and how it is said of one and of more.
NOT_KEPT = {"executable": ("is executable", "are executable"), "owned": ("has another owner", "have another owner"),
            "named": ("has a further name", "have further names")}


def _not_kept(found: os.stat_result) -> tuple[str, ...]:
    marks = {"executable": found.st_mode & 0o111, "owned": found.st_uid != os.getuid(), "named": found.st_nlink > 1}
    return tuple(mark for mark, holds in marks.items() if holds)


def missing_above(volume: Folder, replica: int, path: Path) -> list[Path]:
    """The directories to be made so that the path is one, the upper ones first."""
    fronts = path.fronts()
    answers = list(ask(volume, [f"{replica} ls {front}" for front in fronts]))
    for front, answer in zip(fronts, answers):
        if answer.refusal and (answer.refusal != "noentry" or "#" in str(front)):
            raise Fault(f"{front} at replica {replica}: {in_words(answer.refusal)}", Status.REFUSED)
    return [front for front, answer in zip(fronts, answers) if answer.refusal]


# What each command does, as it is listed.
LISTED = {"mkdir": "make", "create": "make", "symlink": "make", "write": "write", "rm": "remove"}


@dataclass
class Plan:
    """What is to be asked of a replica, and what can't be."""

    replica: int
    kind: str
    commands: list[tuple[str, str]] = field(default_factory=list)
    unfit: list[Unfit] = field(default_factory=list)
    same: list[tuple[Node, Real]] = field(default_factory=list)
    others: list[Node] = field(default_factory=list)
    not_kept: Counter[str] = field(default_factory=Counter)
    removed: int = 0
    directories: int = 0
    files: int = 0
    links: int = 0
    written: int = 0
    written_bytes: int = 0
    equal: int = 0
    equal_links: int = 0

    def ask(self, path: Path, name: str, *arguments: str) -> None:
        self.commands.append((str(path), " ".join([str(self.replica), name, str(path), *arguments])))

    def refuse(self, where: bytes, why: str) -> None:
        self.unfit.append(Unfit(unfit.show(where), why))

    def make_directories(self, paths: list[Path]) -> None:
        for path in paths:
            self.ask(path, "mkdir")
        self.directories += len(paths)

    def compare(self, reals: list[Real], path: Path, nodes: list[Node]) -> None:
        """What is to be made at the path, where the volume has these names."""
        shown: dict[str, list[Node]] = {}
        for node in nodes:
            shown.setdefault(node.row.name, []).append(node)
        for real in reals:
            name = spell_name(real.name)
            why = real.why or _why_not_there(real, path, shown.get(name, []))
            if why:
                self.refuse(real.where, why)
            else:
                self.take(real, path.below(name), shown.get(name, []))
        here = {spell_name(real.name) for real in reals}
        self.others += [node for node in nodes if node.row.name not in here]

    def remove_others(self) -> None:
        """Removes what the volume has and the folder hasn't, what lies in a directory before the directory."""
        for node in self.others:
            conflicts = [below for below in node.walk() if below.row.is_in_conflict]
            for below in conflicts:
                self.refuse(to_bytes(str(below.path)), "the volume's file is in conflict, which comes first")
            if not conflicts:
                self.remove(node)

    def remove(self, node: Node) -> None:
        for below in node.below:
            self.remove(below)
        self.ask(node.path, "rm")
        self.removed += 1

    def list_commands(self, all_of_them: bool) -> None:
        """Lists what is to be removed, or all that is to be done."""
        for _, command in self.commands:
            _, name, path, *_ = command.split(" ")
            if name == "rm" or all_of_them:
                sys.stdout.buffer.write(to_bytes(f"{LISTED[name]} {path}\n"))
        sys.stdout.flush()

    def tell_not_kept(self) -> None:
        """Says what of the files that are made isn't kept, where that is anything."""
        counts = {mark: self.not_kept[mark] for mark in NOT_KEPT if mark in self.not_kept}
        told = [f"{counted(count, 'file')} {NOT_KEPT[mark][count > 1]}" for mark, count in counts.items()]
        if told:
            print(f"{', '.join(told)}: that isn't kept", file=sys.stderr)

    def take(self, real: Real, path: Path, there: list[Node]) -> None:
        if real.below is not None:
            if not there:
                self.make_directories([path])
            self.compare(real.below, path, there[0].below if there else [])
        elif there:
            self.same.append((there[0], real))
        elif real.is_link:
            self.ask(path, "symlink", spell_text(real.bytes))
            self.links += 1
            self.written_bytes += len(real.bytes)
        else:
            self.not_kept.update(real.not_kept)
            self.ask(path, "create", self.kind)
            self.files += 1
            if real.bytes:
                self.write(path, real.bytes)

    def write(self, path: Path, bytes_there: bytes) -> None:
        self.ask(path, "write", spell_text(bytes_there))
        self.written += 1
        self.written_bytes += len(bytes_there)

    def compare_bytes(self, volume: Folder) -> None:
        """Which of the files that are there have other bytes. The text of a symbolic link stays."""
        versions = read_files(volume, self.replica, [node for node, _ in self.same])
        for told, (node, real) in followed(zip(versions, self.same), len(self.same), "comparing"):
            if len(told) != 1:
                self.refuse(real.where, "the volume has no file of bytes there")
            elif content(told[0]) == real.bytes:
                self.equal += not real.is_link
                self.equal_links += real.is_link
            elif real.is_link:
                self.refuse(real.where, "the volume has a symbolic link of another text there")
            else:
                self.write(node.path, real.bytes)

    def weigh(self) -> None:
        """What is more than one replica does in its life can't go in, nor any part of it."""
        if len(self.commands) > LIFE_UPDATES:
            raise Fault(f"nothing was done: these are {len(self.commands):,} updates, and {LIFE_UPDATES:,} are the "
                        "most of a replica's life", Status.UNFIT)
        if self.written_bytes > LIFE_BYTES:
            raise Fault(f"nothing was done: these are {self.written_bytes:,} bytes, and {LIFE_BYTES:,} are the most "
                        "that a replica writes over its life", Status.UNFIT)

    def carry_out(self, volume: Folder) -> None:
        answers = ask_all(volume, (command for _, command in self.commands))
        refused: list[Unfit] = []
        is_spent = False
        try:
            for answer, (path, _) in followed(zip(answers, self.commands), len(self.commands), "importing"):
                if answer.refusal:
                    refused.append(Unfit(path, in_words(answer.refusal)))
                    is_spent = is_spent or answer.refusal in SPENT
        except KeyboardInterrupt:
            raise Fault(f"interrupted; {WHAT_STAYS}", Status.INTERRUPTED) from None
        unfit.report(refused, WHAT_IS_SPENT if is_spent else WHAT_STAYS)

    def tell(self) -> None:
        print(f"{counted(self.directories, 'directory', 'directories')} and {counted(self.files, 'file')} made, "
              f"{counted(self.written, 'file')} written, {counted(self.equal, 'file')} equal")
        if self.links or self.equal_links:
            print(f"{counted(self.links, 'symbolic link')} made, {self.equal_links:,} equal")
        if self.removed:
            print(f"{counted(self.removed, 'name')} removed")
        if self.unfit:
            print(f"{len(self.unfit):,} left out")


def _why_not_there(real: Real, path: Path, there: list[Node]) -> str | None:
    """Why the volume can't take it there, or nothing where it can."""
    if len(path.parts) == PATH_PARTS:
        return f"its path in the volume has more than {PATH_PARTS} parts"
    if len(there) > 1:
        return "the volume has several objects of this name"
    if there and there[0].row.is_directory != (real.below is not None):
        return "the volume has a directory there" if there[0].row.is_directory else "the volume has no directory there"
    if there and there[0].row.is_link != real.is_link:
        return f"the volume has {'a' if there[0].row.is_link else 'no'} symbolic link there"
    if there and there[0].row.is_in_conflict:
        return "the volume's file is in conflict, which comes first"
    return None
