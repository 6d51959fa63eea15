"""Brings a folder in step with another one, both ways, over one connection."""
from __future__ import annotations

from dataclasses import dataclass

import joining
import peers
from home import MEMBER
from keeping import Keeping
from peers import Peer
from wire import VERSION, Other


@dataclass
class Exchanged:
    """What came of it: which member it was, whether there was news either way, and how many paths changed there."""

    number: int
    has_brought: bool
    has_sent: bool
    came_there: int = 0


def exchange(keeping: Keeping, peer: Peer, only_looks: bool = False) -> Exchanged:
    """Takes in what changed there, brings each side what the other one has, and shows it there. Both are locked from the
    first word to the last, so what is noted of each at the end is what the other one has of it."""
    with peers.connected(peer) as other:
        hello, _ = other.ask("hello", version=VERSION, who=keeping.identity.as_json(), where=joining.here(keeping.home),
                             looks=only_looks)
        told = joining.met(hello["who"])
        joining.meet(keeping.home, keeping.identity, told, peer.name, not only_looks)
        number = told.number
        if only_looks:
            return Exchanged(number, *_news(keeping, number, hello["mark"], hello["knows"]))
        taken, _ = other.ask("take in")
        done = Exchanged(number, *_news(keeping, number, taken["mark"], hello["knows"]))
        if done.has_brought:
            _pull(keeping, other, number)
        # (who has just joined has nothing of its own)
        if keeping.identity.has_joined and (done.has_sent or done.has_brought):
            _push(keeping, other)
        own = keeping.member.mark()
        in_step, _ = other.ask("in step", mark=own, where=joining.here(keeping.home))
        peers.note_heard(keeping.home, number, in_step["mark"], peer.name)
        if not keeping.identity.has_joined:
            keeping.identity.has_joined = True
            keeping.home.write(MEMBER, keeping.identity.as_json())
        shown, _ = other.ask("show")
        done.came_there = shown["came"]
        other.ask("bye")
        peers.remember(keeping.home, peer)
        return done


def _news(keeping: Keeping, number: int, mark: str, knows: str) -> tuple[bool, bool]:
    """Whether the other one has something that isn't known here, and the other way round."""
    known = peers.heard(keeping.home).get(str(number), {})
    return known.get("mark") != mark, knows != keeping.member.mark()


def _pull(keeping: Keeping, other: Other, number: int) -> None:
    """Brings here what the other one has."""
    keeping.member.open_boxes()
    _, pieces = other.ask("reply", keeping.member.asked(number))
    keeping.member.take(pieces)
    keeping.changed()
    joining.collect(keeping)


def _push(keeping: Keeping, other: Other) -> None:
    """Brings the other one what is here."""
    _, asked = other.ask("ask")
    keeping.member.open_boxes()
    other.ask("take", keeping.member.answered(asked))
