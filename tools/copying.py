"""A copy of a volume that can't be written, over which a script goes that only looks."""
from __future__ import annotations

import os
import shutil
from collections.abc import Iterator, Sequence
from contextlib import contextmanager
from tempfile import TemporaryDirectory

import causes
from faults import say
from modes import RUN, Call
from program import is_command
from sessions import LOOKS
from spelling import to_str


@contextmanager
def over_copy(call: Call, script: bytes) -> Iterator[Sequence[str]]:
    """The words for the program: over a copy, where each file of the volume can be read and no line changes anything."""
    root = call.root or ""
    there = [(replica, disk) for replica in causes.members(root) for disk in causes.disks_of(root, replica)
             if os.path.exists(disk)]
    if not all(os.access(disk, os.R_OK) for _, disk in there) or not only_looks(script):
        yield call.words
        return
    with TemporaryDirectory() as room:
        for replica, disk in there:
            os.makedirs(os.path.join(room, str(replica)), exist_ok=True)
            shutil.copyfile(disk, os.path.join(room, str(replica), os.path.basename(disk)))
        say(f"{root} can't be written; the script has only queries, so it runs over a copy")
        yield [RUN.name, "--", room]


def only_looks(script: bytes) -> bool:
    lines = filter(is_command, to_str(script).split("\n"))
    return all(LOOKS & set(line.split(" ")[:2]) for line in lines)
