"""`./ficus sync`: brings a folder in step with others."""
from __future__ import annotations

import os
import sys
import time
from argparse import ArgumentParser, ArgumentTypeError, Namespace

import home as homes
import peers
import reporting
from built import COMMAND
from exchanging import exchange
from faults import Fault, Status, say
from keeping import Keeping, keeping_of
from peers import Peer
from words import Words

DESCRIPTION = """\
Takes in what was changed in FOLDER, exchanges with each PEER both ways, and shows what came on both sides. Without a PEER
it goes to all that were named before, and to the one that was joined. A PEER is HOST:PATH over ssh, or a PATH on this
machine. The status is 0 where all is in step, and 1 where conflicts or orphans wait."""
PAUSE = 5


def add_ways(parser: ArgumentParser) -> None:
    parser.add_argument("--via", metavar="COMMAND", action="append", default=[],
                        help="a peer that this command leads to, over its standard input and output")
    parser.add_argument("--program", metavar="PROGRAM", help="the launcher on the other side, where it isn't `ficus` there")


def add(parser: Words) -> None:
    parser.description = DESCRIPTION
    parser.add_argument("folder", metavar="FOLDER", type=os.fsencode, help="the folder")
    parser.add_argument("peers", metavar="PEER", nargs="*", help="another folder")
    add_ways(parser)
    parser.add_argument("--dry-run", dest="only_looks", action="store_true", help="only say what would be done")
    parser.add_argument("--watch", action="store_true", help="go on until it is stopped")
    parser.add_argument("--every", metavar="SECONDS", type=_seconds, default=PAUSE,
                        help=f"how long --watch waits each time ({PAUSE})")
    parser.is_mixed = True


def _seconds(word: str) -> int:
    if not (word.isascii() and word.isdigit() and 1 <= int(word) <= 86_400):
        raise ArgumentTypeError(f"{word!r} is no number of seconds, 1 to 86,400")
    return int(word)


def run(words: Namespace) -> int:
    named = peers.peers_of(words.peers, words.via, words.program)
    if not words.watch:
        return _once(words, named)
    told = ""
    while True:
        try:
            _once(words, named)
            told = ""
        except Fault as fault:
            # (what lasts is told once)
            if str(fault) != told:
                say(str(fault))
            told = str(fault)
        sys.stdout.flush()
        time.sleep(words.every)


def _once(words: Namespace, named: list[Peer]) -> int:
    home, identity = homes.opened(words.folder)
    try:
        keeping = keeping_of(home, identity)
        known = peers.remembered(home)
        others = named or known
        if words.only_looks:
            return _look_only(keeping, others)
        return bring(keeping, others, is_repeated=words.watch)
    finally:
        home.give_lock()


def bring(keeping: Keeping, others: list[Peer], is_repeated: bool = False) -> int:
    """Takes in what changed, exchanges with each, and shows what came."""
    if keeping.identity.has_joined:
        keeping.take_in()
    failed: list[Fault] = []
    sent = 0
    try:
        for peer in others:
            try:
                sent += exchange(keeping, peer).came_there
            except Fault as fault:
                failed.append(fault)
                say(str(fault))
    finally:
        keeping.member.close_boxes()
    if not keeping.identity.has_joined:
        raise Fault(f"{keeping.home.shown_name} has joined, but nothing was brought yet: {COMMAND} sync does it",
                    failed[0].status if failed else Status.OUTSIDE)
    keeping.show()
    if not is_repeated or keeping.taken or keeping.done or sent:
        reporting.tell(keeping, sent, len(others), len(failed))
    return failed[0].status if failed else reporting.status(keeping)


def _look_only(keeping: Keeping, others: list[Peer]) -> int:
    """Says what would be done."""
    keeping.scan()
    reporting.tell_changes(reporting.changes_of(keeping), "would be")
    failed: list[Fault] = []
    for peer in others:
        try:
            news = exchange(keeping, peer, only_looks=True)
            print(f"{peer.name}: {_news_in_words(news.has_brought, news.has_sent or not keeping.is_shown())}")
        except Fault as fault:
            failed.append(fault)
            say(str(fault))
    return failed[0].status if failed else reporting.status(keeping)


def _news_in_words(has_brought: bool, has_sent: bool) -> str:
    if has_brought and has_sent:
        return "there may be news both ways"
    if has_brought:
        return "it may have news"
    return "it would be sent what it hasn't" if has_sent else "in step, but for what was changed in its folder since"
