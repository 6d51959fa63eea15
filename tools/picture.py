"""`./ficus picture`: a run, drawn."""
from __future__ import annotations

import sys
from argparse import ArgumentParser, Namespace, RawDescriptionHelpFormatter
from html import escape
from pathlib import Path

import places
import story
from chart import Chart
from faults import Fault, Status
from folding import fold
from formats import of_volume, usage_of
from modes import MEMBERS, VOLUMES
from program import Memory, is_command
from spelling import to_str
from svg import visible

DESCRIPTION = """\
Runs SCRIPT over a fresh volume in memory, or over several, and draws the run in one file that needs nothing else. Each
replica has a lane with its commands and their answers. Messages are arrows. Conflicts and orphans are bars for as long as
they last. Stops, restarts, and what collections delete are drawn too. Above 80 commands, those that say little are
folded, and so is the middle of what is left; an HTML page has all of them."""

LEAST = 2
PAGE = """<!doctype html>
<html lang="en"><head><meta charset="utf-8"><title>{title}</title>
<style>body {{ font-family: sans-serif; margin: 1em; }} pre {{ line-height: 1.4; }}</style></head>
<body>
{drawing}
<details><summary>All commands with their answers</summary><pre>
{commands}
</pre></details>
</body></html>
"""


def add(parser: ArgumentParser) -> None:
    parser.description = DESCRIPTION
    parser.formatter_class = RawDescriptionHelpFormatter
    parser.add_argument("script", metavar="SCRIPT", type=Path, help="the script, in a file")
    parser.add_argument("--members", metavar="N", type=places.number(MEMBERS),
                        help="how many replicas the volume has; by default what NAME.members beside NAME.script "
                             "says, or the greatest number that the script names")
    parser.add_argument("--volumes", metavar="V", type=places.number(VOLUMES),
                        help="how many volumes there are; by default what NAME.volumes beside NAME.script says, or 1")
    parser.add_argument("-o", dest="out", metavar="FILE", type=Path,
                        help="the file to write, .svg or .html; by default SVG on standard output")


def run(words: Namespace) -> int:
    if words.out and words.out.suffix not in (".svg", ".html"):
        raise Fault("the name of the file has to end in .svg or .html", Status.USAGE)
    drawing, commands = drawing_of(words.script, words.members, words.volumes)
    if words.out and words.out.suffix == ".html":
        drawing = PAGE.format(title=escape(words.script.name), drawing=drawing, commands=commands)
    if words.out:
        words.out.write_text(drawing, encoding="utf-8")
    else:
        sys.stdout.buffer.write(drawing.encode())
    return Status.DONE


def drawing_of(script: Path, members: str | None = None, volumes: str | None = None) -> tuple[str, str]:
    """The run of a script as SVG, and all its commands with their answers as a page has them."""
    lines = to_str(script.read_bytes()).split("\n")
    volumes = volumes or _beside(script, ".volumes")
    told = story.tell(lines, Memory(members or members_of(script, lines), volumes=volumes))
    commands = "\n".join(_told(step) for step in told.steps)
    fold(told)
    return Chart(told, title_of(lines)).draw(), commands


def members_of(script: Path, lines: list[str]) -> str:
    """How many members the volume of a script has, by the file beside it, or by what it names."""
    beside = _beside(script, ".members")
    if beside:
        return beside
    named = [LEAST]
    for line in filter(is_command, lines):
        usage = usage_of(line)
        if usage:
            named += [int(word) for kind, word in zip(usage.words, of_volume(line)[1].split(" "))
                      if kind in "RS" and word.isdigit()]
    return str(max(named))


def _beside(script: Path, suffix: str) -> str | None:
    """What the file of this suffix beside a script says, where there is one."""
    beside = script.with_suffix(suffix)
    return beside.read_text(encoding="ascii").strip() if beside.exists() else None


def title_of(lines: list[str]) -> str:
    """The comment with which a script begins."""
    comment = []
    for line in lines:
        if not line.startswith("#"):
            break
        comment.append(line.lstrip("# "))
    return " ".join(comment)


def _told(step: story.Step) -> str:
    return "\n    ".join(escape(visible(line)) for line in (f"{step.number}  {step.whole}", *step.answer.lines))
