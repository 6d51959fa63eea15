"""How far a tool is."""
from __future__ import annotations

import sys
import time
from collections.abc import Iterable, Iterator
from typing import TypeVar

Thing = TypeVar("Thing")

# From when on a bar is shown, and how often it is drawn.
PATIENCE = 1.0
PAUSE = 0.1
WIDTH = 30


def followed(things: Iterable[Thing], count: int, what: str) -> Iterator[Thing]:
    """The same things, of which there are so many; on a terminal a bar shows how far they are, from a second on."""
    if not sys.stderr.isatty():
        yield from things
        return
    shown = False
    due = time.monotonic() + PATIENCE
    try:
        for done, thing in enumerate(things, 1):
            yield thing
            if time.monotonic() >= due:
                filled = WIDTH * done // max(count, 1)
                bar = "#" * filled + "." * (WIDTH - filled)
                print(f"\r{what} [{bar}] {done} of {count}", end="", file=sys.stderr, flush=True)
                due = time.monotonic() + PAUSE
                shown = True
    finally:
        if shown:
            print("\r\033[K", end="", file=sys.stderr, flush=True)
