"""Who is a member of a folder that is kept in step: numbers are given once, and a copy of a member is refused."""
from __future__ import annotations

import os
import platform
import random

from counting import counted
from faults import Fault, Status
from home import MEMBER, Home, Identity, identity_in
from keeping import Keeping

# How long whoever comes waits for a folder that is in use, in seconds. Two that wait for each other don't give up at once.
LEAST, MOST = 1.0, 4.0


def patience() -> float:
    return random.uniform(LEAST, MOST)


def here(home: Home) -> str:
    """How this machine and folder are called where others list them."""
    return f"{platform.node() or 'a machine'}:{os.fsdecode(home.folder)}"


def met(told: object) -> Identity:
    """Who the other side says that it is."""
    return identity_in(told, "the two programs are of different versions")


def meet(home: Home, identity: Identity, other: Identity, where: str, is_noted: bool = True) -> None:
    """Refuses who can't be another member of the same volume, and notes who is."""
    if other.tag != identity.tag:
        raise Fault("it is another folder: it was started apart, and has another tag", Status.UNFIT)
    if other.number == identity.number:
        raise Fault(f"both are member {identity.number}: one is a copy of the other. A folder that is kept in step is never "
                    "copied with its .ficus: remove .ficus from the copy, and join it", Status.UNFIT)
    others = dict(identity.others)
    told = {**other.others, str(other.number): {"secret": other.secret, "where": where}}
    for number, it in told.items():
        known = others.get(number)
        if known and known["secret"] != it["secret"]:
            raise Fault(f"member {number} is known here as that of {known['where']}, and there as that of {it['where']}: one "
                        "is a copy, or was made anew, and can't be brought in step", Status.UNFIT)
        if int(number) == identity.number and it["secret"] != identity.secret:
            raise Fault(f"member {number} is known there as that of {it['where']}, and not as this one: one is a copy, or was "
                        "made anew, and can't be brought in step", Status.UNFIT)
        others[number] = it
    if others != identity.others and is_noted:
        identity.others = others
        home.write(MEMBER, identity.as_json())


def give_number(identity: Identity, secret: str, where: str) -> int:
    """The number of who joins: the one that it was given before, or the next one."""
    if not identity.gives_numbers:
        first = identity.first or identity.others.get("1", {}).get("where", "")
        raise Fault(f"this is member {identity.number}, and numbers are given by member 1: join {first or 'that one'}",
                    Status.UNFIT)
    for number, it in identity.others.items():
        if it["secret"] == secret:
            return int(number)
    free = [number for number in range(1, identity.members + 1) if str(number) not in identity.others]
    if not free:
        listed = ", ".join(f"{number} is {it['where']}" for number, it in sorted(identity.others.items()))
        raise Fault(f"all of its {counted(identity.members, 'member')} are given: {listed}", Status.UNFIT)
    identity.others[str(free[0])] = {"secret": secret, "where": where}
    return free[0]


def collect(keeping: Keeping) -> None:
    """Deletes what of removed names nobody needs any more."""
    if keeping.look().is_collectable:
        keeping.member.ask([keeping.member.line("collect")])
