"""What can't go from one side to the other."""
from __future__ import annotations

import sys
from argparse import ArgumentParser
from dataclasses import dataclass

from faults import Fault, Status
from spelling import spell_name, to_bytes


@dataclass(frozen=True)
class Unfit:
    """Something that can't go over: where it is, spelled, and why."""

    where: str
    why: str


def show(path: bytes) -> str:
    """A path of the system, spelled as paths of volumes are, so that each byte of it is seen."""
    return "/".join(map(spell_name, path.split(b"/")))


def add_skip(parser: ArgumentParser) -> None:
    parser.add_argument("--skip", action="store_true", help="leave out what can't be copied, and do the rest")


def tell(unfit: list[Unfit]) -> None:
    for one in unfit:
        sys.stderr.buffer.write(to_bytes(f"{one.where}: {one.why}\n"))
    sys.stderr.flush()


def settle(unfit: list[Unfit], skip: bool, goes: str) -> None:
    """Lists what can't go over. Where it isn't to be left out, that is all that is done."""
    tell(unfit)
    if unfit and not skip:
        count = "one of them" if len(unfit) == 1 else f"{len(unfit):,} of them"
        raise Fault(f"nothing was done, since {count} can't go {goes}: --skip leaves out what can't", Status.UNFIT)


def report(refused: list[Unfit], what_stays: str) -> None:
    """Ends with what was refused on the way, if anything was."""
    tell(refused[:REPORTED])
    if refused:
        were = "1 was" if len(refused) == 1 else f"{len(refused):,} were"
        raise Fault(f"{were} refused; {what_stays}", Status.REFUSED)


# So many refusals are told one by one.
REPORTED = 10
