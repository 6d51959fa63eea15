"""What is said beside the program's own words: which line is bad and why, which file a fault is about, which commands
disks refused, and what came of conflicts."""
from __future__ import annotations

import re

import causes
from counting import counted
from faults import Status, say
from grammar import Wrong, bad_lines, why_none
from launching import Run, ask
from modes import CHECK, INIT, MEMBER, MEMBERS, RUN, STRICT, Call
from refusals import in_words
from spelling import to_str
from svg import visible

REPLICA = re.compile(r"at replica (\d+)|replica (\d+) is")
BAD_LINE = re.compile(r"bad line (\d+)")
# A line that asks one replica for something.
OF_REPLICA = re.compile(r"^(?:ask |restart )?([1-9][0-9]{0,2}) ?", re.MULTILINE)
JUDGED = re.compile(r"replica (\d+) (empty|damaged|members (\d+))")
# Refusals that come of disks and not of what was asked.
OF_DISKS = ("store", "down", "image")
# Refusals of messages that come as files, of which it is said what to do.
OF_MESSAGES = ("nomail", "link", "badmessage", "stale", "missing", "linkfull")
# So much of a bad line is shown.
SHOWN = 200


def tell(call: Call, script: bytes | None, run: Run) -> int:
    """Says what is to be said beside what the program said, and gives the status."""
    if script is not None:
        _of_line(call, script, run)
    _of_files(call, run)
    if call.mode in (RUN, MEMBER):
        _of_disks(call, script, run)
    if call.mode is MEMBER:
        for word in OF_MESSAGES:
            if word in run.refused:
                say(in_words(word))
    if run.status == 0 and call.mode is CHECK:
        _of_limits(call.root or "")
        return judged(call.root or "", to_str(bytes(run.kept)))
    if run.status == 0 and STRICT in call.flags and run.refused:
        return Status.REFUSED
    return run.status


def _of_limits(root: str) -> None:
    """Says of each replica what is left of the limits of its life, where that is little."""
    import limits
    for replica in causes.members(root):
        limits.tell(f"replica {replica}", limits.of_member(root, replica))


def _of_disks(call: Call, script: bytes | None, run: Run) -> None:
    """Counts the refusals that come of disks, of a replica alone without those of lines of others."""
    failed = {word: run.refused[word] for word in OF_DISKS if word in run.refused}
    if call.mode is MEMBER and "down" in failed:
        others = min(_lines_of_others(call, script), failed["down"])
        if others:
            say(f"{counted(others, 'line is', 'lines are')} for another replica than {call.replica}, which answers on its own "
                "machine: no down")
        failed["down"] -= others
    listed = [f"{count} with no {word}" for word, count in failed.items() if count]
    if listed:
        count = sum(failed.values())
        say(f"{counted(count, 'command was', 'commands were')} refused since disks failed: {' and '.join(listed)}")


def _lines_of_others(call: Call, script: bytes | None) -> int:
    """How many lines of a script of one replica ask another one for something, as far as the volume may have it."""
    found = OF_REPLICA.findall(to_str(script or b""))
    return sum(int(number) <= MEMBERS.most and int(number) != call.replica for number in found)


def tell_tag(call: Call, tag: str) -> None:
    """Says with which tag a replica was made, and what becomes of it."""
    say(f"replica {call.replica} is made in {call.folder}; the tag of its volume is {tag}")
    say(f"make each other replica on its own machine with --tag {tag}, and with the same --members, --ids and --bytes")


def _of_line(call: Call, script: bytes, run: Run) -> None:
    """Says of a bad line what it is, and why."""
    found = BAD_LINE.search(run.said)
    if run.status != Status.BAD_LINE or not found:
        return
    number = int(found[1])
    line = to_str(script).split("\n")[number - 1]
    _show_bad(number, line, why_none(line, call.volumes, number, is_alone=call.mode is MEMBER))


def _show_bad(number: int, line: str, wrong: Wrong | None) -> None:
    shown = visible(line[:SHOWN]) + ("…" if len(line) > SHOWN else "")
    say(f"line {number}, column {wrong.column}: {wrong.why}: {shown}" if wrong else f"line {number}: {shown}")


def tell_bad_lines(call: Call, script: bytes) -> int:
    """Says of each line that is no command what is wrong with it."""
    count = 0
    for number, line, wrong in bad_lines(to_str(script), call.volumes, is_alone=call.mode is MEMBER):
        _show_bad(number, line, wrong)
        count += 1
    return Status.BAD_LINE if count else Status.DONE


def _of_files(call: Call, run: Run) -> None:
    """Says of a fault of a replica's disks which file it is about, and the system's reason."""
    found = REPLICA.search(run.said)
    if not found or call.root is None:
        return
    replica = int(found[1] or found[2])
    if run.status == Status.OCCUPIED:
        say(causes.of_occupied(call.root, replica))
    elif run.status == Status.STORE_FAULT and call.mode is INIT:
        say(causes.of_making(call.root, replica))
    elif run.status in (Status.STORE_FAULT, Status.NO_IMAGE) and call.mode is MEMBER:
        say(causes.of_opening_alone(call.root, replica))
    elif run.status in (Status.STORE_FAULT, Status.NO_IMAGE):
        say(causes.of_opening(call.root, replica))


def judged(root: str, told: str) -> int:
    """Says which members are damaged or missing, and what to do; where the folder keeps members that are on machines of
    their own, of the others only where they are."""
    found = {int(it[1]): it for it in JUDGED.finditer(told)}
    count = max((int(it[3]) for it in found.values() if it[3]), default=0)
    damaged = [replica for replica, it in found.items() if it[2] == "damaged"]
    empty = [replica for replica, it in found.items() if it[2] == "empty"]
    here = causes.alone(root)
    missing = [replica for replica in empty if (replica in here if here else replica <= count)]
    for replica in empty:
        if here and replica <= count and replica not in missing:
            say(f"replica {replica} is on another machine")
    for replicas, what in ((damaged, "damaged"), (missing, "missing")):
        for replica in replicas:
            say(f"the files of replica {replica} are {what}")
    if not damaged and not missing:
        return Status.DONE
    say(f"first copy all of {root}; then see \"When a volume is damaged\" in docs/FORMATS.md")
    return Status.DAMAGED


def conflicts(call: Call, locks: tuple[int, ...]) -> dict[int, int]:
    """How many conflicts each member of a volume shows, of those that are up."""
    replicas = causes.members(call.root or "")
    script = b"".join(b"%d conflicts\n" % replica for replica in replicas)
    told = bytes(ask([RUN.name, "--", call.root or ""], script, locks, keep=True).kept)
    counts = re.findall(rb"^(?:ok (\d+)|no \w+)$", told, re.MULTILINE)
    return {replica: int(count) for replica, count in zip(replicas, counts) if count}


def tell_of_conflicts(before: dict[int, int], after: dict[int, int]) -> None:
    for replica, count in after.items():
        came = count - before.get(replica, 0)
        if came > 0:
            say(f"{'a conflict' if came == 1 else f'{came} conflicts'} came at replica {replica}")
