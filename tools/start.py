"""`./ficus start`: makes a folder the first member of those that are kept in step."""
from __future__ import annotations

import os
import secrets
from argparse import ArgumentParser, Namespace

import places
import reporting
from built import COMMAND
from faults import Fault, Status
from home import KINDS, MEMBER, SHOWN, Home, Identity
from keeping import keeping_of
from member import made
from modes import MEMBERS

DESCRIPTION = """\
Makes FOLDER the first of N folders that are kept in step, and takes in what is there. The other N - 1 are made by `join`.
Nothing in FOLDER is changed; what is needed beside its files is in FOLDER/.ficus."""
KINDS_TEXT = b"""\
# Which kind new files get, of which conflicts end by themselves: PATTERN KIND, with git's patterns. The last line that
# fits counts. `lines` keeps each different line once, in byte order.
# /shopping.txt lines
"""


def add(parser: ArgumentParser) -> None:
    parser.description = DESCRIPTION
    parser.add_argument("--members", metavar="N", required=True, type=places.number(MEMBERS),
                        help="how many folders are kept in step at most, 2 to 8")
    parser.add_argument("folder", metavar="FOLDER", type=os.fsencode, help="the folder")


def begin(folder: bytes) -> Home:
    """A folder that isn't kept in step yet, which is locked."""
    home = Home(os.path.abspath(folder))
    os.makedirs(home.path, exist_ok=True)
    home.take_lock()
    if home.read(MEMBER) is not None:
        raise Fault(f"{home.shown_name} is kept in step already: {COMMAND} sync does that", Status.OCCUPIED)
    return home


def put_kinds(home: Home) -> None:
    if not os.path.exists(home.place(KINDS)):
        with open(home.place(KINDS), "wb") as file:
            file.write(KINDS_TEXT)


def run(words: Namespace) -> int:
    home = begin(words.folder)
    try:
        identity = Identity(1, int(words.members), secrets.token_hex(16), secrets.token_hex(16), True, {})
        identity.others["1"] = {"secret": identity.secret, "where": reporting.here(home)}
        # (what a killed one left of what it showed is of a replica that nobody has)
        home.remove(SHOWN)
        put_kinds(home)
        with made(home, 1, identity.members, identity.tag) as member:
            keeping = keeping_of(home, identity, member)
            keeping.show()
        home.write(MEMBER, identity.as_json())
        reporting.tell_taken(keeping)
        print(f"{home.shown_name} is member 1 of {identity.members}; on another machine: {COMMAND} join "
              f"{reporting.here(home)} FOLDER")
        return reporting.status(keeping)
    finally:
        home.give_lock()
