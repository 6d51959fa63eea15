"""Runs programs, and tells how each ended and what memory it had at its peak.

Of a process the system tells as its peak no less than what the process had that started it. So a program is started by
`setsid`, which has little, ends at once, and leaves it to this process.
"""
import ctypes
import os
import subprocess
from dataclasses import dataclass

# That processes are left to this one when those end that started them (prctl).
SET_CHILD_SUBREAPER = 36


@dataclass(frozen=True)
class Ended:
    """How a program ended: with a status, or by a signal, below 0; after so many seconds of a processor; and the bytes
    that it had in memory at its peak."""
    status: int
    seconds: float
    peak: int


def launched(command, given, put):
    """Runs a command from one open file into another. What it says beside that is dropped. This process has no child
    meanwhile."""
    if ctypes.CDLL(None, use_errno=True).prctl(SET_CHILD_SUBREAPER, 1, 0, 0, 0):
        raise OSError(ctypes.get_errno(), "prctl")
    subprocess.run(["setsid", "--fork", *command], stdin=given, stdout=put, stderr=subprocess.DEVNULL, check=True)
    _, status, used = os.wait4(-1, 0)
    # `ru_maxrss` counts 1,024 bytes.
    return Ended(os.waitstatus_to_exitcode(status), used.ru_utime + used.ru_stime, used.ru_maxrss * 1024)
