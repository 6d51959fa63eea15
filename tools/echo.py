"""`./ficus echo`: a script, with each command beside its answer."""
from __future__ import annotations

import sys
from argparse import ArgumentParser, Namespace, RawDescriptionHelpFormatter
from collections.abc import Sequence

import places
from faults import Status
from program import Ended, Place, ask, is_command, locked
from spelling import to_bytes, to_str

# Commands up to this width have their answer beside them, longer ones below.
WIDTH = 60

DESCRIPTION = """\
Runs the script on standard input, as the modes run, replay and volumes do. Prints each of its lines with its number, and
each command with its answer beside it."""


def add(parser: ArgumentParser) -> None:
    parser.description = DESCRIPTION
    parser.formatter_class = RawDescriptionHelpFormatter
    modes = parser.add_subparsers(dest="mode", metavar="run|replay|volumes", required=True)
    run = modes.add_parser("run", help="over a volume in a folder", description=DESCRIPTION)
    places.add_root(run)
    replay = modes.add_parser("replay", help="over a fresh volume in memory", description=DESCRIPTION)
    places.add_memory(replay, required=True)
    volumes = modes.add_parser("volumes", help="over several fresh volumes in memory", description=DESCRIPTION)
    places.add_memory(volumes, required=True)
    places.add_volumes(volumes, required=True)


def run(words: Namespace) -> int:
    lines = to_str(sys.stdin.buffer.read()).split("\n")
    if lines[-1] == "":
        lines.pop()
    if words.mode == "run":
        with locked(words.root) as volume:
            put_beside(lines, volume)
    else:
        put_beside(lines, places.memory(words))
    return Status.DONE


def put_beside(lines: Sequence[str], place: Place) -> None:
    """Writes each line with its number, and behind each command its answer as soon as it is there."""
    number_width = len(str(len(lines)))
    width = min(WIDTH, max((len(line) for line in lines if is_command(line)), default=0))
    answers = ask(place, lines)
    number = 0
    try:
        for number, line in enumerate(lines, 1):
            head = f"{number:{number_width}}  {line}"
            if not is_command(line):
                _put(head.rstrip())
                continue
            answer = next(answers, None)
            if answer is None:
                break
            margin = " " * (number_width + 2 + width)
            if len(line) > width:
                _put(head)
            first = margin if len(line) > width else head.ljust(len(margin))
            for at, told in enumerate(answer.lines):
                _put(f"{first if at == 0 else margin}  {told}")
        for _ in answers:
            pass
    except Ended as ended:
        if ended.line:
            ended.args = (f"{ended}\n    {lines[ended.line - 1]}",)
        raise


def _put(line: str) -> None:
    sys.stdout.buffer.write(to_bytes(line) + b"\n")
    sys.stdout.buffer.flush()
