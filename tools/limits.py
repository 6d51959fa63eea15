"""What is left to a replica of the updates and bytes of its life, read from its disks as `docs/FORMATS.md` spells them."""
from __future__ import annotations

from dataclasses import dataclass

import causes
from counting import counted
from faults import say

# The first bytes of images.
IMAGES = (b"FIC1", b"FIC2")
SLOT_HEAD, RECORD_HEAD = 17, 13
# Records that are no updates, and where the length of what an update writes stands in its record.
NO_UPDATES = (10, 11, 12)
WRITES, LINKS = (5, 6, 7), 13
LENGTH_OF_WRITE, NAME_OF_LINK = 6, 6
# From this part on it is told.
TOLD_FROM = 0.9
WHAT_THEN = "then it takes nothing in any more: change files on another machine, or start a new folder of what is there"


@dataclass(frozen=True)
class Left:
    """How many updates a replica has made, how many bytes it has written, and the most of each."""

    updates: int
    most_updates: int
    bytes: int
    most_bytes: int

    @property
    def is_low(self) -> bool:
        return self.updates >= TOLD_FROM * self.most_updates or self.bytes >= TOLD_FROM * self.most_bytes

    def __str__(self) -> str:
        return (f"{counted(self.most_updates - self.updates, 'update')} of {self.most_updates:,} and "
                f"{counted(self.most_bytes - self.bytes, 'byte')} of {self.most_bytes:,} are left")


def of_member(root: str, replica: int) -> Left | None:
    """What is left to the replica with the files in ROOT/R, where that can be read."""
    best: tuple[int, Left] | None = None
    for disk in causes.disks_of(root, replica):
        try:
            with open(disk, "rb") as file:
                found = _read(file.read())
        except (OSError, IndexError):
            continue
        if found and (best is None or found[0] > best[0]):
            best = found
    return best[1] if best else None


def _number(data: bytes, at: int, size: int) -> int:
    return int.from_bytes(data[at:at + size], "big")


def _read(data: bytes) -> tuple[int, Left] | None:
    """The generation of a disk's slot and what is left behind it and its records."""
    if len(data) <= SLOT_HEAD or data[0] != 1 or data[SLOT_HEAD:SLOT_HEAD + 4] not in IMAGES:
        return None
    generation, length = _number(data, 1, 8), _number(data, 9, 8)
    image = data[SLOT_HEAD:SLOT_HEAD + length]
    most_updates, most_bytes, made, written = (_number(image, at, 4) for at in (6, 10, 14, 18))
    made -= 1
    at, last = SLOT_HEAD + length, generation
    # (each record begins with its gate, which is the tail of what is before it)
    while at + RECORD_HEAD < len(data) and data[at] == 1 and _number(data, at + 1, 8) == last + 1:
        body = data[at + RECORD_HEAD:at + RECORD_HEAD + _number(data, at + 9, 4)]
        if body[0] not in NO_UPDATES:
            made += 1
            written += _written(body)
        at, last = at + RECORD_HEAD + len(body), last + 1
    return generation, Left(made, most_updates, written, most_bytes)


def _written(record: bytes) -> int:
    """How many bytes the update of a record writes."""
    if record[0] in WRITES:
        return _number(record, LENGTH_OF_WRITE, 2)
    if record[0] == LINKS:
        return _number(record, NAME_OF_LINK + 1 + record[NAME_OF_LINK], 2)
    return 0


def tell(who: str, left: Left | None) -> None:
    """Says what is left where that is little, and what then."""
    if left and left.is_low:
        say(f"{who}: {left}; {WHAT_THEN}")
