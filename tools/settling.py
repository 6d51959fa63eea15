"""`./ficus settle`: ends the conflict of a file by the bytes of a real file."""
from __future__ import annotations

from argparse import ArgumentParser, Namespace
from pathlib import Path

import explain
import places
from faults import Fault, Status
from program import ask, locked
from spelling import FILE_BYTES, spell_text

DESCRIPTION = """\
Ends the conflict of the file at PATH, at replica R of the volume in ROOT, with the bytes of the real FILE. `export`
writes the versions of a file in conflict beside each other."""


def add(parser: ArgumentParser) -> None:
    parser.description = DESCRIPTION
    places.add_root(parser)
    places.add_replica(parser)
    parser.add_argument("path", metavar="PATH", type=places.volume_path, help="the file that is in conflict")
    parser.add_argument("file", metavar="FILE", type=Path, help="the file whose bytes it gets")


def run(words: Namespace) -> int:
    with open(words.file, "rb") as file:
        content = file.read(FILE_BYTES + 1)
    if len(content) > FILE_BYTES:
        raise Fault(f"{words.file} has more than {FILE_BYTES:,} bytes, which is the most of a file", Status.UNFIT)
    line = f"{words.replica} settle {words.path} {spell_text(content)}"
    with locked(words.root) as volume:
        (answer,) = ask(volume, [line])
        if answer.refusal:
            raise Fault(explain.refused(lambda look: next(iter(list(ask(volume, [look])))), line, answer.refusal),
                        Status.REFUSED)
    return Status.DONE
