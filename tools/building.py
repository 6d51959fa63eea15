"""How the program is proved and built, and what it is built of.

That is noted in build/built: the sum of the sources, and below it the kit that proved them. The note has the time at
which its sources were read, so that `./ficus` sees whether anything has changed since. A built checkout needs no kit.
"""
from __future__ import annotations

import fcntl
import hashlib
import os
import subprocess
import threading
import time
from collections.abc import Iterator
from contextlib import contextmanager, suppress
from dataclasses import dataclass
from pathlib import Path
from shutil import which
from typing import IO

import built
from faults import Fault, Status, say

TOP = Path(built.TOP)
NOTE = Path(built.NOTE)
BUILD = Path(built.BUILD)
LOG = BUILD / "log"
SUFFIXES = (".rt", ".antt")
PARTS = ("src", "specs", "proofs")
# How often it is looked which crate the build is at, in seconds, and how much of its log is shown where it fails.
PAUSE = 1.0
TAIL = 40
# How far the time of the note lies before its sources were read, in seconds: times of files are somewhat coarse.
BEFORE = 1.0


@dataclass(frozen=True)
class Built:
    """What a program was built of, and from when that is so."""

    sources: str
    kit: str
    since: float


def _files() -> Iterator[str]:
    """Each file from which the program is made, below the top, in order."""
    yield from ("HANDLES", "crates.txt")
    for crate in sorted(os.listdir(TOP / "crates")):
        for part in PARTS:
            yield from _below(f"crates/{crate}/{part}")


def _below(folder: str) -> Iterator[str]:
    try:
        entries = sorted(os.scandir(TOP / folder), key=lambda entry: entry.name)
    except OSError:
        return
    for entry in entries:
        if entry.name.endswith(SUFFIXES):
            yield f"{folder}/{entry.name}"
        elif entry.is_dir():
            yield from _below(f"{folder}/{entry.name}")


def sources() -> str:
    """A sum of the sources."""
    summed = hashlib.sha256()
    for name in _files():
        with suppress(FileNotFoundError):
            content = hashlib.sha256((TOP / name).read_bytes()).hexdigest()
            summed.update(f"{name} {content}\n".encode())
    return summed.hexdigest()


def kit() -> str:
    """What the toolchain at hand calls itself, or nothing where there is none."""
    if not which("rt"):
        return ""
    ran = subprocess.run(["rt", "version"], stdin=subprocess.DEVNULL, capture_output=True, text=True, check=False)
    return ran.stdout.strip()


def as_it_stands() -> Built:
    """What a program that is built now is built of."""
    since = time.time() - BEFORE
    return Built(sources(), kit(), since)


def noted() -> Built | None:
    """What the program that is there was built of, if that is noted."""
    try:
        summed, _, rest = NOTE.read_text(encoding="utf-8").partition("\n")
        return Built(summed, rest.strip(), NOTE.stat().st_mtime)
    except (OSError, ValueError):
        return None


def is_of_sources() -> bool:
    """Whether the program that is there is built of the sources, all of which are read."""
    found = noted()
    since = time.time() - BEFORE
    if found is None or found.sources != sources():
        return False
    note(Built(found.sources, found.kit, since))
    return True


def note(found: Built) -> None:
    """Notes what the program was built of, where the folder may be written."""
    with suppress(OSError):
        BUILD.mkdir(exist_ok=True)
        beside = NOTE.with_name(f"built-{os.getpid()}")
        beside.write_text(f"{found.sources}\n{found.kit}\n", encoding="utf-8")
        os.utime(beside, (found.since, found.since))
        beside.replace(NOTE)


def need_kit() -> None:
    if not which("rt"):
        raise Fault("the program isn't built yet, and that needs Rattle's kit, with its command rt: see README.md",
                    Status.UNBUILT)


def prove() -> None:
    """Proves and builds the program, unless that is done. Who comes second waits, and finds it done."""
    if built.is_built():
        return
    need_kit()
    BUILD.mkdir(exist_ok=True)
    with _alone():
        if not built.is_built() and not _make():
            lines = LOG.read_text(encoding="utf-8", errors="replace").splitlines()
            raise Fault("\n".join(["the program isn't built; the end of build/log says why:", *lines[-TAIL:]]),
                        Status.UNBUILT)


@contextmanager
def _alone() -> Iterator[None]:
    with open(BUILD / "lock", "w", encoding="ascii") as lock:
        fcntl.flock(lock, fcntl.LOCK_EX)
        yield


def _make() -> bool:
    """Proves the crates, side by side where none stands on another, then builds the program and runs it over no script."""
    now = as_it_stands()
    crates = crates_of_the_program()
    say(f"the program isn't built from these sources yet: first its {len(crates)} crates are proved, and then it is built.")
    say("this takes about an hour on four processors from nothing; build/log has what the toolchain says")
    began = time.time()
    with open(LOG, "wb") as log:
        ended = threading.Event()
        follower = threading.Thread(target=_follow, args=(crates, began, ended))
        follower.start()
        try:
            done = all(_logged(words, log) for words in (
                ["rt", "all", "check", "--jobs", str(os.cpu_count())], ["rt", "run", "--", "replay", "--members", "2"]))
        finally:
            ended.set()
            follower.join()
    if not done:
        return False
    took = int(time.time() - began)
    say(f"built in {took // 60} min {took % 60} s")
    note(now)
    return True


def _logged(words: list[str], log: IO[bytes]) -> bool:
    # (unbuffered, so that the log has what is said as it is said)
    ran = subprocess.run(words, cwd=built.CRATE, stdin=subprocess.DEVNULL, stdout=log, stderr=log,
                         env={**os.environ, "PYTHONUNBUFFERED": "1"}, check=False)
    return ran.returncode == 0


def crates_of_the_program() -> list[str]:
    """The crate of the program and all that it stands on, each behind those that it stands on."""
    below: dict[str, list[str]] = {}
    for line in (TOP / "crates.txt").read_text(encoding="utf-8").splitlines():
        name, colon, names = line.partition(":")
        if colon and name.startswith("ficus_"):
            below[name] = names.split()
    found: list[str] = []

    def take(name: str) -> None:
        if name in below and name not in found:
            for other in below[name]:
                take(other)
            if name not in found:
                found.append(name)

    take("ficus_cli")
    return found


def _follow(crates: list[str], began: float, ended: threading.Event) -> None:
    """Names each crate as the build begins with it, until the build has ended."""
    named: set[str] = set()
    last = False
    while not last:
        last = ended.wait(PAUSE)
        done = LOG.read_bytes().count(b"== ficus_") if LOG.exists() else 0
        for crate in crates:
            if crate not in named and _is_begun(crate, began, done, len(crates)):
                named.add(crate)
                say(f"{crate} ({done} of {len(crates)} done)")


def _is_begun(crate: str, began: float, done: int, count: int) -> bool:
    """Whether the build has begun with the crate: it makes the library of each anew, and the program when all else is
    done."""
    if crate == "ficus_cli":
        return done >= count - 1
    try:
        return (TOP / "crates" / crate / "out" / "rlib").stat().st_mtime >= began
    except OSError:
        return False
