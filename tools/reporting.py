"""What is said of a folder that is kept in step: what was done, what waits, and what is left of the limits."""
from __future__ import annotations

import os
import sys
from collections.abc import Iterable, Mapping

import joining
from counting import counted
from faults import Status
from home import Home
from keeping import Keeping

# So many paths are listed one by one.
LISTED = 40


def here(home: Home) -> str:
    return joining.here(home)


def put(line: bytes) -> None:
    sys.stdout.flush()
    sys.stdout.buffer.write(line + b"\n")
    sys.stdout.buffer.flush()


def listed(paths: Iterable[bytes], front: str) -> None:
    paths = list(paths)
    for path in paths[:LISTED]:
        put(os.fsencode(front) + path)
    if len(paths) > LISTED:
        put(f"{front}and {len(paths) - LISTED:,} more".encode())


def changes_of(keeping: Keeping) -> dict[bytes, str]:
    """What would be taken in of what was changed in the folder."""
    return {} if keeping.is_same() else keeping.plan().told


def tell_changes(told: Mapping[bytes, str], would_be: str) -> None:
    for does in sorted(set(told.values())):
        listed(sorted(path for path, it in told.items() if it == does), f"{would_be} {does}: ")


def waiting(keeping: Keeping) -> None:
    """Lists what waits for somebody."""
    shown = keeping.shown
    listed(shown.conflicts, "in conflict: ")
    listed(shown.clashes, "one name of several: ")
    listed(shown.orphans, "orphan: ")


def tell_taken(keeping: Keeping) -> None:
    print(f"{counted(len(keeping.taken), 'change')} taken in")
    keeping.tell()


def tell(keeping: Keeping, sent: int, others: int, failed: int) -> None:
    """The summary of a sync."""
    waiting(keeping)
    shown = keeping.shown
    parts = [f"{counted(len(keeping.taken), 'change')} taken in", f"{sent:,} shown there", f"{len(keeping.done):,} came"]
    counts = ((shown.conflicts, "conflict"), (shown.clashes, "shared name"), (shown.orphans, "orphan"))
    parts += [counted(len(paths), what) for paths, what in counts if paths]
    if not others:
        parts.append("no other folder is known here")
    elif failed:
        parts.append(f"{failed} of {counted(others, 'peer')} not reached")
    print(", ".join(parts))
    keeping.tell()


def status(keeping: Keeping) -> int:
    """How a command ends: where something was refused, it isn't in step."""
    if any(keeping.refused.values()):
        return Status.REFUSED
    return Status.WAITS if keeping.shown.waits else Status.DONE
