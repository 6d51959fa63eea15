"""How the program is asked."""
from __future__ import annotations

import os
import subprocess
from collections.abc import Iterable, Iterator, Sequence
from contextlib import contextmanager
from dataclasses import dataclass
from pathlib import Path
from tempfile import TemporaryFile
from typing import Protocol

import built
import causes
import formats
import lock
from answers import MARK, Answer, shape_of, take_answer
from faults import Fault, Status
from formats import Shape
from spelling import to_bytes, to_str

SCRIPT_BYTES = 1_048_576

BAD_LINE = 2


class Place(Protocol):
    """Over which volume the program runs."""

    @property
    def locks(self) -> tuple[int, ...]:
        """The lock on it. The program has it too while it runs, so that it is kept where a tool alone is killed."""

    def words(self) -> list[str]:
        """The words with which it does."""


@dataclass(frozen=True)
class Folder:
    """A volume in a folder."""

    root: Path
    locks: tuple[int, ...]

    def words(self) -> list[str]:
        return ["run", "--", str(self.root)]


@dataclass(frozen=True)
class Memory:
    """A fresh volume in memory, or several."""

    members: str
    ids: str | None = None
    bytes: str | None = None
    volumes: str | None = None
    locks: tuple[int, ...] = ()

    def words(self) -> list[str]:
        given = {"--members": self.members, "--volumes": self.volumes, "--ids": self.ids, "--bytes": self.bytes}
        return ["volumes" if self.volumes else "replay", *(f"{option}={number}" for option, number in given.items() if number is not None)]


class Ended(Fault):
    """The program ended with a code that isn't 0. Of a bad line, `line` is which of the script."""

    def __init__(self, status: int, said: str, line: int | None = None) -> None:
        words = f"{said.removeprefix('ficus: ')}: {formats.codes().get(status, 'it ended so')}"
        super().__init__(words.replace("`", ""), status)
        self.line = line


def is_command(line: str) -> bool:
    """Whether a line of a script is answered."""
    return line != "" and not line.startswith("#")


@contextmanager
def locked(root: Path) -> Iterator[Folder]:
    """The volume in a folder, whose lock nobody else who asks for it has meanwhile. It is refused where its replicas are
    on machines of their own."""
    why = causes.why_not_whole(str(root))
    if why:
        raise Fault(why, Status.NO_IMAGE)
    folder = lock.take(str(root))
    try:
        yield Folder(root, () if folder is None else (folder,))
    finally:
        if folder is not None:
            os.close(folder)


def _marked(lines: Sequence[str]) -> tuple[bytes, list[Shape], list[int]]:
    """A script of these lines, the shapes of its answers, and which of the lines each of its lines is."""
    script: list[str] = []
    shapes: list[Shape] = []
    places: list[int] = []
    for place, line in enumerate(lines, 1):
        script.append(line)
        places.append(place)
        if is_command(line):
            shapes.append(shape_of(line))
            if shapes[-1] is Shape.UNKNOWN:
                script.append(MARK)
                places.append(place)
    return b"".join(to_bytes(line) + b"\n" for line in script), shapes, places


def ask(place: Place, lines: Sequence[str]) -> Iterator[Answer]:
    """The answers to one script of these lines, each as soon as it comes. Where the program ends with a code that isn't
    0, it is told so behind the answers that were written."""
    script, shapes, places = _marked(lines)
    with TemporaryFile() as source:
        source.write(script)
        source.seek(0)
        words = [built.program(), *place.words()]
        with subprocess.Popen(
            words, stdin=source, stdout=subprocess.PIPE, stderr=subprocess.PIPE, pass_fds=place.locks
        ) as running:
            assert running.stdout and running.stderr
            try:
                for shape in shapes:
                    answer = take_answer(running.stdout, shape)
                    if answer is None:
                        break
                    yield answer
                said = to_str(running.stderr.read()).strip()
            except BaseException:
                running.kill()
                raise
    if running.returncode == BAD_LINE:
        number = places[int(said.rpartition(" ")[2]) - 1]
        raise Ended(BAD_LINE, f"bad line {number}", number)
    if running.returncode:
        raise Ended(running.returncode, said or f"the program ended with {running.returncode}")


def scripts(lines: Iterable[str]) -> Iterator[list[str]]:
    """The lines in as few scripts as have room for them, since each opens the whole volume."""
    script: list[str] = []
    size = 0
    for line in lines:
        # (with a mark, where there is one)
        room = len(to_bytes(line)) + len(MARK) + 2
        if script and size + room > SCRIPT_BYTES:
            yield script
            script, size = [], 0
        script.append(line)
        size += room
    if script:
        yield script


def ask_all(place: Place, lines: Iterable[str]) -> Iterator[Answer]:
    """The answers to these commands, by as many runs as they need."""
    for script in scripts(lines):
        yield from ask(place, script)
