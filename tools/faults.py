"""Why the launcher or a tool ends before its end, and what it says beside its answers."""
from __future__ import annotations

import sys


class Status:
    """The statuses of the launcher and the tools. Where the program ended with another than 0, they end with that."""

    DONE = 0
    USAGE = 1
    # (of a folder that is kept in step: conflicts or orphans wait)
    WAITS = 1
    BAD_LINE = 2
    WRITE_FAULT = 5
    STORE_FAULT = 6
    NO_IMAGE = 7
    OCCUPIED = 9
    UNBUILT = 70
    IN_USE = 71
    UNFIT = 72
    OUTSIDE = 73
    REFUSED = 74
    DAMAGED = 75
    INTERRUPTED = 130


class Fault(Exception):
    """It can't go on: in plain words, and with the status with which it ends."""

    def __init__(self, words: str, status: int) -> None:
        super().__init__(words)
        self.status = status


def say(line: str) -> None:
    print(f"ficus: {line}", file=sys.stderr, flush=True)
