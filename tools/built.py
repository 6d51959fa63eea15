"""Where the program is, and whether it is built of the sources as they stand.

`./ficus` looks whether anything has changed since that was noted in build/built, before it begins this; only where
something has, or it isn't known, are the sources read. What is installed (`release.py`) has no sources.
"""
from __future__ import annotations

import os

TOP = os.path.dirname(os.path.dirname(os.path.abspath(__file__)))
# The program, where it is installed beside the tools, or where it is built.
INSTALLED = os.path.join(TOP, "ficus_cli")
IS_INSTALLED = os.path.exists(INSTALLED)
# As what it is called.
COMMAND = "ficus" if IS_INSTALLED else "./ficus"
CRATE = os.path.join(TOP, "crates", "ficus_cli")
BUILD = os.path.join(TOP, "build")
NOTE = os.path.join(TOP if IS_INSTALLED else BUILD, "built")
# With this in the environment the tools ask that program and none is built, as checks of them do; `./ficus` takes it away.
VARIABLE = "FICUS_PROGRAM"
# What of the sources has changed since the note, as `./ficus` found it: nothing is an empty text.
IS_UNCHANGED = os.environ.pop("FICUS_CHANGED", "not noted") == ""


def program() -> str:
    """The program that is asked."""
    return os.environ.get(VARIABLE) or (INSTALLED if IS_INSTALLED else os.path.join(CRATE, "out", "ficus_cli"))


def is_built() -> bool:
    """Whether there is a program, of the sources as they stand."""
    if IS_INSTALLED or VARIABLE in os.environ:
        return True
    if not os.access(program(), os.X_OK) or not os.path.exists(NOTE):
        return False
    if IS_UNCHANGED:
        return True
    from building import is_of_sources
    return is_of_sources()
