"""The replica of a folder that is kept in step, a member on a machine of its own, and its messages."""
from __future__ import annotations

import hashlib
import os
import re
import shutil
import subprocess
import tempfile
from collections.abc import Iterable, Iterator, Mapping
from contextlib import contextmanager
from dataclasses import dataclass

import built
import causes
import limits
from answers import Answer
from faults import Fault, Status
from home import MAKING, Home, Identity, sync_file, sync_folder
from program import ask_all
from refusals import in_words
from spelling import to_bytes, to_str

INBOX, OUTBOX = BOXES = b"in", b"out"
# Where the system keeps files in memory, and how a folder is called there.
MEMORY = b"/dev/shm"
ROOM = b"ficus-"
# The name of a message: of whom, and of an ask its number.
MESSAGE = re.compile(r"(?:ask|piece)-([0-9]+)-[0-9]+-([0-9]+)(?:-[0-9]+-[0-9]+)?", re.ASCII)


@dataclass(frozen=True)
class Member:
    """The replica R in ROOT/R, and the locks that the program has too while it runs."""

    root: bytes
    number: int
    members: int
    locks: tuple[int, ...]

    @property
    def folder(self) -> bytes:
        return os.path.join(self.root, b"%d" % self.number)

    def words(self) -> list[str]:
        return ["member", "--replica", str(self.number), "--", os.fsdecode(self.root)]

    def line(self, *words: str) -> str:
        """A line of its script."""
        return " ".join([str(self.number), *words])

    def ask(self, lines: Iterable[str]) -> list[Answer]:
        """The answers to these lines, by as few processes as have room for them."""
        return list(ask_all(self, lines))

    def ask_one(self, line: str) -> str:
        """The answer to a line of which no refusal is to come, without its `ok`."""
        (answer,) = self.ask([line])
        if answer.refusal:
            raise Fault(f"the replica refused {line.split(' ')[0]}: {in_words(answer.refusal)}", Status.REFUSED)
        return answer.value

    def mark(self) -> str:
        """What the disks hold, summed: it differs wherever anything was saved since."""
        summed = hashlib.sha256()
        for disk in causes.disks_of(to_str(self.root), self.number):
            try:
                with open(to_bytes(disk), "rb") as file:
                    content = file.read()
            except FileNotFoundError:
                content = b""
            summed.update(b"%d " % len(content) + content)
        return summed.hexdigest()

    def left(self) -> limits.Left | None:
        """What is left of the limits of its life, as far as its disks can be read."""
        return limits.of_member(to_str(self.root), self.number)

    # Messages.

    def open_boxes(self) -> None:
        """Empty folders for messages. None is to outlast the session, so they are in memory where that may be."""
        self.close_boxes()
        if not os.path.isdir(MEMORY):
            return
        room = tempfile.mkdtemp(prefix=ROOM, dir=MEMORY)
        for box in BOXES:
            os.mkdir(os.path.join(room, box))
            try:
                os.symlink(os.path.join(room, box), os.path.join(self.folder, box))
            except OSError:
                # (a file system without symbolic links: the folder is made where it is needed)
                pass

    def close_boxes(self) -> None:
        """Removes all messages, also those that a killed session left."""
        for box in BOXES:
            path = os.path.join(self.folder, box)
            if os.path.islink(path):
                room, _ = os.path.split(os.readlink(path))
                os.unlink(path)
                if os.path.dirname(room) == MEMORY and os.path.basename(room).startswith(ROOM):
                    shutil.rmtree(room, ignore_errors=True)
            else:
                shutil.rmtree(path, ignore_errors=True)

    def asked(self, other: int) -> Mapping[str, bytes]:
        """Asks another member, and gives the message to it."""
        number = self.ask_one(f"ask {self.number} {other}")
        return self._put([f"ask-{self.number}-{other}-{number}"])

    def answered(self, messages: Mapping[str, bytes]) -> Mapping[str, bytes]:
        """Takes the ask of another member, and gives the pieces of the reply."""
        self._bring(messages)
        name = next(iter(messages), "")
        found = MESSAGE.fullmatch(name)
        if not found:
            raise Fault("the other side sent what is no message", Status.UNFIT)
        asker, number = found[1], found[2]
        count, state = self.ask_one(f"take {name}").split(" ")
        return self._put([f"piece-{self.number}-{asker}-{number}-{state}-{index}" for index in range(int(count))])

    def take(self, pieces: Mapping[str, bytes]) -> None:
        """Takes the reply of another member, which has all its pieces."""
        self._bring(pieces)
        for name in list(pieces)[:1]:
            self.ask_one(f"take {name}")

    def _put(self, names: list[str]) -> Mapping[str, bytes]:
        """These messages, which it has put, and which aren't kept."""
        found = {}
        for name in names:
            path = os.path.join(self.folder, OUTBOX, to_bytes(name))
            with open(path, "rb") as file:
                found[name] = file.read()
            os.unlink(path)
        return found

    def _bring(self, messages: Mapping[str, bytes]) -> None:
        """Puts messages into the inbox, each of them whole or not at all, and none beside them."""
        inbox = os.path.join(self.folder, INBOX)
        os.makedirs(inbox, exist_ok=True)
        for name in os.listdir(inbox):
            os.unlink(os.path.join(inbox, name))
        for name, content in messages.items():
            if not MESSAGE.fullmatch(name):
                raise Fault("the other side sent what is no message", Status.UNFIT)
            with open(os.path.join(inbox, to_bytes(name)), "wb") as file:
                file.write(content)


def member_of(home: Home, identity: Identity) -> Member:
    return Member(home.path, identity.number, identity.members, tuple(home.locks))


@contextmanager
def made(home: Home, number: int, members: int, tag: str) -> Iterator[Member]:
    """A new replica of this number, made beside, in memory where that may be, since nobody has heard of it. It comes into
    its place whole, and behind what is done with it here."""
    making = home.place(MAKING)
    shutil.rmtree(making, ignore_errors=True)
    shutil.rmtree(home.place(str(number)), ignore_errors=True)
    os.mkdir(making)
    with tempfile.TemporaryDirectory(prefix=to_str(ROOM), dir=to_str(MEMORY) if os.path.isdir(MEMORY) else to_str(making)) as room:
        _init(to_bytes(room), number, members, tag)
        member = Member(to_bytes(room), number, members, tuple(home.locks))
        yield member
        place = os.path.join(making, b"%d" % number)
        shutil.copytree(member.folder, place)
    for name in os.listdir(place):
        sync_file(os.path.join(place, name))
    sync_folder(place)
    os.rename(place, home.place(str(number)))
    sync_folder(home.path)
    shutil.rmtree(making, ignore_errors=True)


def _init(room: bytes, number: int, members: int, tag: str) -> None:
    words = [built.program(), "init", "--members", str(members), "--replica", str(number), "--tag", tag, "--",
             os.fsdecode(room)]
    ran = subprocess.run(words, stdin=subprocess.DEVNULL, capture_output=True, check=False)
    if ran.returncode:
        said = to_str(ran.stderr).strip().removeprefix("ficus: ")
        raise Fault(f"the replica couldn't be made: {said or causes.of_making(to_str(room), number)}", abs(ran.returncode))
