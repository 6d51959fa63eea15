"""`./ficus status`: what changed in a folder that is kept in step, what waits in it, and what is left."""
from __future__ import annotations

import os
import time
from argparse import ArgumentParser, Namespace

import home as homes
import limits
import peers
import reporting
from counting import counted
from keeping import Keeping, keeping_of

DESCRIPTION = """\
Says what was changed in FOLDER since it was last brought in step, what is in conflict, which orphans there are, what isn't
kept in step, what is left of the limits, and when each other folder was heard."""
AGES = ((86_400, "day"), (3_600, "hour"), (60, "minute"), (1, "second"))


def add(parser: ArgumentParser) -> None:
    parser.description = DESCRIPTION
    parser.add_argument("folder", metavar="FOLDER", type=os.fsencode, help="the folder")


def run(words: Namespace) -> int:
    home, identity = homes.opened(words.folder)
    try:
        keeping = keeping_of(home, identity)
        keeping.scan()
        print(f"{home.shown_name} is member {identity.number} of {identity.members}")
        reporting.tell_changes(reporting.changes_of(keeping), "to be")
        if not keeping.is_same():
            pass
        elif not keeping.is_shown():
            print("not all that came is shown yet: sync does that")
        reporting.waiting(keeping)
        left = {**{where: why for where, why in keeping.shown.told.items()}, **keeping.untaken}
        for where, why in sorted(left.items()):
            reporting.put(b"not kept in step: " + where + b": " + os.fsencode(why))
        told = keeping.member.left()
        if told:
            print(told)
            limits.tell(home.shown_name, told)
        _tell_heard(keeping)
        return reporting.status(keeping)
    finally:
        home.give_lock()


def _tell_heard(keeping: Keeping) -> None:
    """When each other member was heard."""
    known = peers.heard(keeping.home)
    for number in range(1, keeping.identity.members + 1):
        if number == keeping.identity.number:
            continue
        it = keeping.identity.others.get(str(number))
        where = f", {it['where']}," if it and it["where"] else ""
        if str(number) in known:
            print(f"member {number}{where} was heard {_age(time.time() - known[str(number)]['at'])} ago")
        elif it:
            print(f"member {number}{where} was never heard here")
        else:
            print(f"member {number} isn't known here")


def _age(seconds: float) -> str:
    for size, name in AGES:
        if seconds >= size:
            return counted(int(seconds // size), name)
    return "0 seconds"
