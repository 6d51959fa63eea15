"""What a folder that is kept in step has beside its files, in its folder `.ficus`: the replica with its disks and messages,
which one it is, who the others are and how they are reached, and what was last shown.

Each file is written beside and renamed, so that one that is read is whole.
"""
from __future__ import annotations

import json
import os
import shutil
import time
from dataclasses import dataclass, field
from typing import Any

import lock
from built import COMMAND
from faults import Fault, Status
from spelling import to_bytes, to_str

NAME = b".ficus"
# The files in it.
MEMBER, PEERS, HEARD, SHOWN, KINDS = "member", "peers", "heard", "shown", "kinds"
# Where what is to be renamed is written, and where a replica is made.
NEW, MAKING = "new", "making"
# Who waits for a folder that is in use waits so long, in seconds.
PATIENCE = 3.0
# From so many files on the disk is waited for once for all that are written.
BIG_BATCH = 16


@dataclass
class Home:
    """The folder, and the locks on it."""

    folder: bytes
    locks: list[int] = field(default_factory=list)

    @property
    def path(self) -> bytes:
        return os.path.join(self.folder, NAME)

    @property
    def shown_name(self) -> str:
        return to_str(self.folder)

    def place(self, name: str) -> bytes:
        return os.path.join(self.path, to_bytes(name))

    def real(self, where: bytes) -> bytes:
        """The path of what stands there in the folder."""
        return os.path.join(self.folder, where)

    def read(self, name: str) -> Any:
        """What a file of its own says, or nothing where there is none that can be understood."""
        try:
            with open(self.place(name), encoding="ascii") as file:
                return json.load(file)
        except (FileNotFoundError, ValueError):
            return None

    def write(self, name: str, what: Any) -> None:
        beside = self.place(name + ".new")
        with open(beside, "w", encoding="ascii") as file:
            file.write(json.dumps(what))
            file.flush()
            os.fsync(file.fileno())
        os.replace(beside, self.place(name))
        sync_folder(self.path)

    def remove(self, name: str) -> None:
        try:
            os.unlink(self.place(name))
        except FileNotFoundError:
            pass

    def take_lock(self, patience: float = PATIENCE) -> None:
        """Locks it, and the replica in it, which a script of it may use alone."""
        until = time.monotonic() + patience
        while not self.locks:
            try:
                self._take_locks()
            except Fault:
                self.give_lock()
                if time.monotonic() >= until:
                    raise
                time.sleep(0.05)

    def _take_locks(self) -> None:
        member = self.read(MEMBER)
        places = [self.path, *([self.place(str(member["number"]))] if member else [])]
        for place in places:
            held = lock.take(os.fsdecode(place))
            if held is not None:
                os.set_inheritable(held, True)
                self.locks.append(held)

    def give_lock(self) -> None:
        for held in self.locks:
            os.close(held)
        self.locks = []

    def clear_new(self) -> bytes:
        """An empty folder for what is to be renamed."""
        new = self.place(NEW)
        shutil.rmtree(new, ignore_errors=True)
        os.makedirs(new, exist_ok=True)
        return new


def sync_folder(path: bytes) -> None:
    folder = os.open(path, os.O_RDONLY | os.O_DIRECTORY)
    try:
        os.fsync(folder)
    except OSError:
        # (a file system that can't)
        pass
    finally:
        os.close(folder)


def sync_file(path: bytes) -> None:
    opened = os.open(path, os.O_RDONLY)
    try:
        os.fsync(opened)
    finally:
        os.close(opened)


@dataclass
class Identity:
    """Which member of which volume a folder is. Its secret is random, so that a copy of it is told from another one."""

    number: int
    members: int
    tag: str
    secret: str
    has_joined: bool
    # Of each member that is known of its number, its secret and where it was.
    others: dict[str, dict[str, str]]
    # Where members are given their numbers, as far as it is known here.
    first: str = ""

    @property
    def gives_numbers(self) -> bool:
        return self.number == 1

    def as_json(self) -> dict[str, Any]:
        return dict(self.__dict__)


def identity_of(home: Home) -> Identity:
    """Who a folder is that is kept in step."""
    if not os.path.isdir(home.folder):
        raise Fault(f"{home.shown_name}: there is no such folder", Status.OUTSIDE)
    found = home.read(MEMBER)
    if found is None:
        raise Fault(f"{home.shown_name} isn't kept in step yet: {COMMAND} start or {COMMAND} join does that", Status.NO_IMAGE)
    return identity_in(found, f"{home.shown_name}: its .ficus can't be understood")


def identity_in(found: Any, why: str) -> Identity:
    """Who somebody is, as it was written or said."""
    try:
        identity = Identity(**found)
        others = {str(int(number)): {"secret": str(it["secret"]), "where": str(it["where"])} for number, it in identity.others.items()}
        return Identity(int(identity.number), int(identity.members), str(identity.tag), str(identity.secret),
                        bool(identity.has_joined), others, str(identity.first))
    except (AttributeError, KeyError, TypeError, ValueError):
        raise Fault(why, Status.UNFIT) from None


def opened(folder: bytes) -> tuple[Home, Identity]:
    """A folder that is kept in step, which is locked."""
    home = Home(os.path.abspath(folder))
    identity_of(home)
    home.take_lock()
    return home, identity_of(home)
