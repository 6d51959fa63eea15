"""`./ficus export`: what a replica shows, into a real folder."""
from __future__ import annotations

import os
from argparse import ArgumentParser, Namespace, RawDescriptionHelpFormatter
from collections.abc import Iterator

import places
import unfit
from answers import Version
from counting import counted
from exported import DIRECTORY, FILE, LINK, Content, Exported
from faults import Status
from program import ask, locked
from progress import followed
from spelling import read_name, to_bytes
from tree import Node, content, list_below, read_files
from unfit import Unfit

DESCRIPTION = """\
Copies what replica R of the volume in ROOT shows, at PATH or at its root and below, into the real FOLDER. FOLDER has to be
missing or empty, or written by the same export before. In that case it is updated, unless something in it was changed
since. FOLDER.exported notes what was written. If a name leads to several objects, each is exported as `ls` shows it, as
NAME#r.k; of a file in conflict each version is exported, as NAME#[VECTOR]. A file with several names is exported under
each of them. A symbolic link is exported as one, with its target, wherever that leads. What can't be exported is listed
before anything is done."""


def add(parser: ArgumentParser) -> None:
    parser.description = DESCRIPTION
    parser.formatter_class = RawDescriptionHelpFormatter
    places.add_root(parser)
    places.add_replica(parser)
    parser.add_argument("path", metavar="PATH", nargs="?", type=places.volume_path, default=places.volume_path("/"),
                        help="a directory of the volume")
    parser.add_argument("folder", metavar="FOLDER", type=os.fsencode, help="the folder to write")
    unfit.add_skip(parser)


def run(words: Namespace) -> int:
    exported = Exported(words.folder, [os.path.abspath(words.root), str(words.replica), str(words.path)])
    exported.find()
    with locked(words.root) as volume:
        shown = list_below(volume, words.replica, words.path)
        nodes = list(shown.walk())
        files = [node for node in nodes if not node.row.is_directory]
        told = list(followed(read_files(volume, words.replica, files), len(files), "reading"))
        (orphans,) = ask(volume, [f"{words.replica} orphans"])
    why_not = {str(path): why for path, why in shown.unseen}
    why_not |= {str(node.path): "its bytes aren't told" for node, versions in zip(files, told)
                if not versions and str(node.path) not in why_not}
    why_not |= {str(node.path): "the text of the symbolic link has a byte 0" for node, versions in zip(files, told)
                if node.row.is_link and any(b"\0" in content(version) for version in versions)}
    exported.refuse_changes()
    unfit.settle([Unfit(path, why) for path, why in why_not.items()], words.skip, "out")
    contents = {str(node.path): versions for node, versions in zip(files, told)}
    going = [node for node in nodes if str(node.path) not in why_not]
    skip = len(words.path.parts)
    out = dict(it for node in going for it in contents_of(node, skip, contents.get(str(node.path), [])))
    removed = exported.write(out)
    tell(going, removed, len(why_not), len(orphans.listed))
    return Status.DONE


def contents_of(node: Node, skip: int, versions: list[Version]) -> Iterator[tuple[bytes, Content]]:
    """A directory, a symbolic link, or a file for each version, with its path in the folder. The first parts of its path
    in the volume are left out."""
    # (no byte of a `#r.k` is spelled otherwise)
    target = os.path.join(*map(read_name, node.path.parts[skip:]))
    if node.row.is_directory:
        yield target, Content(DIRECTORY)
    elif node.row.is_link:
        yield target, Content(LINK, content(versions[0]))
    else:
        for version in versions:
            suffix = f"#{version.vector}" if version.vector else ""
            yield target + to_bytes(suffix), Content(FILE, content(version))


def tell(nodes: list[Node], removed: int, left_out: int, orphans: int) -> None:
    directories = sum(node.row.is_directory for node in nodes)
    links = sum(node.row.is_link for node in nodes)
    conflicts = sum(node.row.is_in_conflict for node in nodes)
    files = len(nodes) - directories - links
    print(f"{counted(directories, 'directory', 'directories')} and {counted(files, 'file')} written, "
          f"{conflicts:,} of them in conflict")
    if links:
        print(f"{counted(links, 'symbolic link')} written")
    if removed:
        print(f"{counted(removed, 'name')} removed")
    if orphans:
        print(f"{counted(orphans, 'orphan has', 'orphans have')} no name, and {'goes' if orphans == 1 else 'go'} out by "
              "~r.k as PATH")
    if left_out:
        print(f"{left_out:,} left out")
