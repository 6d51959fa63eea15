"""The advisory lock on the folder of a volume, or of a replica in it that is on a machine of its own."""
from __future__ import annotations

import fcntl
import os
import time

from faults import Fault, Status

# How long a folder above one that is to be made is waited for, in seconds.
PATIENCE = 10.0


def _holder(folder: int) -> str:
    """Who has the lock on an open folder, as far as the system tells."""
    number = os.fstat(folder).st_ino
    try:
        with open("/proc/locks", encoding="ascii") as told:
            locks = [line.split() for line in told]
    except OSError:
        return "another process"
    for lock in locks:
        # (a line with an arrow is of one that waits)
        if lock[1] == "FLOCK" and lock[5].rpartition(":")[2] == str(number):
            return _process(lock[4])
    return "another process"


def _process(number: str) -> str:
    try:
        with open(f"/proc/{number}/cmdline", "rb") as told:
            words = told.read().split(b"\0")
    except OSError:
        return f"process {number}"
    return f"process {number} ({os.fsdecode(b' '.join(words)).strip()})"


def take(root: str) -> int | None:
    """Locks the folder of a volume for as long as this process has it open, and gives that. Where the folder can't be
    opened or locked it gives nothing: the program says what is wrong with it."""
    return _take(root, root, 0)


def take_to_make(root: str) -> int | None:
    """The same for a volume that is to be made. Where its folder is missing, the lowest one above it that is there is
    locked, and is waited for, since whoever makes another volume beside it is soon done."""
    # (what may not be looked at is missing too, as far as can be told)
    if os.path.exists(root):
        return take(root)
    above = os.path.dirname(os.path.abspath(root))
    while not os.path.exists(above):
        above = os.path.dirname(above)
    return _take(root, above, PATIENCE)


def _take(root: str, there: str, patience: float) -> int | None:
    try:
        folder = os.open(there, os.O_RDONLY | os.O_DIRECTORY)
    except OSError:
        return None
    until = time.monotonic() + patience
    while True:
        try:
            fcntl.flock(folder, fcntl.LOCK_EX | fcntl.LOCK_NB)
            return folder
        except BlockingIOError:
            if time.monotonic() >= until:
                holder = _holder(folder)
                os.close(folder)
                raise Fault(f"{root} is in use by {holder}", Status.IN_USE) from None
            time.sleep(0.01)
        except OSError:
            # (a file system without locks)
            os.close(folder)
            return None
