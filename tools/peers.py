"""The others with which a folder is brought in step: how each is reached, and when it was heard."""
from __future__ import annotations

import os
import re
import select
import shlex
import subprocess
import sys
import time
from collections.abc import Iterator
from contextlib import contextmanager
from dataclasses import dataclass
from typing import Any

import built
from faults import Fault, Status
from home import HEARD, PEERS, Home
from wire import Broken, Other, Pipes

SERVE = "serve"
# What is called on another machine, where nothing else is said.
PROGRAM = "ficus"
# HOST:PATH, but no path with a colon in it.
REMOTE = re.compile(r"([^/:]+):(.*)", re.DOTALL)
NOT_FOUND = 127
# How long the other side may take to end once nothing more is asked of it, in seconds.
PATIENCE = 10.0


@dataclass(frozen=True)
class Peer:
    """Another folder: HOST:PATH, a path on this machine, or a command that leads to it."""

    where: str
    is_command: bool = False
    program: str | None = None

    @property
    def name(self) -> str:
        return self.where

    def words(self) -> list[str]:
        """The command that begins the other side."""
        if self.is_command:
            return ["/bin/sh", "-c", self.where]
        remote = REMOTE.fullmatch(self.where)
        if remote:
            return ["ssh", "-T", "--", remote[1], shlex.join([self.program or PROGRAM, SERVE, "--", remote[2] or "."])]
        here = [self.program] if self.program else [sys.executable, "-I", "-S", os.path.join(built.TOP, "tools")]
        return [*here, SERVE, "--", self.where]

    def as_json(self) -> dict[str, Any]:
        return dict(self.__dict__)


def peer_of(word: str, program: str | None) -> Peer:
    """The peer that a word names."""
    if word.startswith("-") or not word:
        raise Fault(f"{word!r} is no HOST:PATH and no PATH", Status.USAGE)
    return Peer(word if REMOTE.fullmatch(word) else os.path.abspath(os.path.expanduser(word)), False, program)


def peers_of(words: list[str], commands: list[str], program: str | None) -> list[Peer]:
    return [*(peer_of(word, program) for word in words), *(Peer(command, True) for command in commands)]


def remembered(home: Home) -> list[Peer]:
    try:
        return [Peer(**it) for it in home.read(PEERS) or []]
    except TypeError:
        return []


def remember(home: Home, peer: Peer) -> None:
    """Remembers a peer that was reached, once for each place."""
    known = remembered(home)
    if peer not in known:
        others = [it for it in known if (it.where, it.is_command) != (peer.where, peer.is_command)]
        home.write(PEERS, [it.as_json() for it in [*others, peer]])


@contextmanager
def connected(peer: Peer) -> Iterator[Other]:
    """The other side, as long as it is needed."""
    try:
        running = subprocess.Popen(peer.words(), stdin=subprocess.PIPE, stdout=subprocess.PIPE)
    except OSError as error:
        raise Fault(f"{peer.name} can't be reached: {error.strerror}", Status.OUTSIDE) from None
    assert running.stdin and running.stdout
    pipes = Pipes(running.stdout, running.stdin)
    try:
        pipes.await_greeting()
        yield Other(pipes, peer.name)
    except Broken:
        _end(running)
        raise Fault(_why_broken(peer, running.returncode), Status.OUTSIDE) from None
    except BaseException:
        _end(running)
        raise
    _end(running)


def _end(running: subprocess.Popen[bytes]) -> None:
    """Ends the other side, which has nothing to do any more."""
    assert running.stdin and running.stdout
    try:
        running.stdin.close()
    except OSError:
        pass
    # (that it writes nothing more is seen at once, while its end would be asked for again and again)
    if not select.select([running.stdout], [], [], PATIENCE)[0]:
        running.terminate()
    running.wait()
    running.stdout.close()


def _why_broken(peer: Peer, status: int | None) -> str:
    if status == NOT_FOUND:
        return (f"{peer.name}: there is no program {peer.program or PROGRAM}: --program names it where it isn't on the path")
    return f"{peer.name} can't be reached, or broke off: the same again does the rest"


# When others were heard.


def heard(home: Home) -> dict[str, dict[str, Any]]:
    """Of each member what it had when this one had all of it, and when."""
    return home.read(HEARD) or {}


def note_heard(home: Home, number: int, mark: str, where: str) -> None:
    known = heard(home)
    before = known.get(str(number), {})
    known[str(number)] = {"mark": mark, "at": int(time.time()), "where": where or before.get("where", "")}
    home.write(HEARD, known)
