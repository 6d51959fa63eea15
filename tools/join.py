"""`./ficus join`: makes a folder the next member of those that are kept in step."""
from __future__ import annotations

import os
import secrets
from argparse import Namespace

import joining
import peers
import sync
from faults import Fault, Status
from home import MEMBER, SHOWN, Home, Identity, identity_of
from keeping import keeping_of
from member import made
from peers import Peer
from start import begin, put_kinds
from wire import VERSION
from words import Words

DESCRIPTION = """\
Makes FOLDER the next member of the folders that are kept in step with PEER, and brings what that has. PEER is the folder
that was started: HOST:PATH over ssh, or a PATH on this machine. What lies in FOLDER already is taken in."""


def add(parser: Words) -> None:
    parser.description = DESCRIPTION
    parser.add_argument("peer", metavar="PEER", nargs="?", help="the folder that was started")
    parser.add_argument("folder", metavar="FOLDER", type=os.fsencode, help="the folder that joins it")
    sync.add_ways(parser)
    parser.is_mixed = True


def run(words: Namespace) -> int:
    named = peers.peers_of([words.peer] if words.peer else [], words.via, words.program)
    if len(named) != 1:
        raise Fault("join needs one peer: a PEER, or one --via COMMAND", Status.USAGE)
    home = begin(words.folder)
    try:
        _make(home, named[0])
        home.give_lock()
        home.take_lock()
        keeping = keeping_of(home, identity_of(home))
        print(f"{home.shown_name} is member {keeping.identity.number} of {keeping.identity.members}")
        peers.remember(home, named[0])
        ended = sync.bring(keeping, named)
        if keeping.taken:
            # (what lay here before goes there)
            ended = sync.bring(keeping_of(home, keeping.identity), named)
        return ended
    finally:
        home.give_lock()


def _make(home: Home, peer: Peer) -> None:
    """Is given a number, and makes the replica of that number."""
    begun = home.read("joining") or {"secret": secrets.token_hex(16)}
    home.write("joining", begun)
    with peers.connected(peer) as other:
        given, _ = other.ask("join", version=VERSION, secret=begun["secret"], where=joining.here(home))
        other.ask("bye")
    home.remove(SHOWN)
    put_kinds(home)
    with made(home, given["number"], given["members"], given["tag"]):
        pass
    identity = Identity(given["number"], given["members"], given["tag"], begun["secret"], False, given["others"], peer.name)
    home.write(MEMBER, identity.as_json())
    home.remove("joining")
