"""How long the proofs and the tests of the crates took, as files tell that a run from nothing left in their folders `out`.

A library was begun when its folder `rlib` was made, and done when `format` was written there; the tests of a crate were
begun when `out` was made, and done when their program was written. What a run took from an earlier one is older than the
folder in which it stands, and has no time. Nothing is left of the wrong bodies.
"""
import re
import subprocess
from functools import cache
from pathlib import Path

TOP = Path(__file__).resolve().parent.parent
PROGRAM = "ficus_cli"


@cache
def listed():
    """Returns for each crate of crates.txt those of the repository that it stands on."""
    lines = [it.partition(":") for it in (TOP / "crates.txt").read_text().splitlines() if re.match("[a-z]", it)]
    names = [name for name, _, _ in lines]
    return {name: [it for it in below.split() if it in names] for name, _, below in lines}


def made(path):
    """Returns when the file or folder was made."""
    return int(subprocess.run(["stat", "-c", "%W", path], capture_output=True, check=True).stdout)


def done(name):
    """Returns when the crate's library, or the program, was done."""
    out = TOP / "crates" / name / "out"
    return (out / name if name == PROGRAM else out / "rlib" / f"{name}.rlib" / "format").stat().st_mtime


@cache
def proof_seconds(name):
    """Returns how long the crate's proof took: 0 where an earlier run kept it, and none where its library isn't there."""
    try:
        begun = max(map(done, listed()[name])) if name == PROGRAM else made(TOP / "crates" / name / "out/rlib")
        return max(done(name) - begun, 0)
    except (OSError, subprocess.CalledProcessError):
        return None


def test_seconds(name):
    """Returns how long the crate's tests took at most, since they may have waited: 0 or none as of its proof."""
    out = TOP / "crates" / name / "out"
    try:
        return max((out / f"{name}_tests").stat().st_mtime - made(out), 0)
    except (OSError, subprocess.CalledProcessError):
        return None


@cache
def chain(name=PROGRAM):
    """Returns the seconds of the longest chain of crates that ends in this one, and its crates, lowest first; or none where
    the library of one isn't there."""
    below, own = list(map(chain, listed()[name])), proof_seconds(name)
    if own is None or None in below:
        return None
    seconds, crates = max(below, default=(0, ()))
    return seconds + own, (*crates, name)
