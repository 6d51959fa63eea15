"""Where the lines of a shell go."""
from __future__ import annotations

import time
from dataclasses import dataclass, field
from typing import Protocol

from answers import Answer
from faults import Fault, Status
from formats import usage_of
from program import SCRIPT_BYTES, Folder, Memory, ask
from spelling import to_bytes

# Commands that change nothing, so that they need not be carried out again.
LOOKS = {"read", "versions", "readlink", "ls", "tree", "conflicts", "orphans", "detached", "marks", "why", "alike"}
# Why commands that speak of one run tell nothing where each line is a run of its own.
_LOST = "an ask is lost with the run that made it: use pull, or a shell with --members"
WITHIN_A_RUN = {
    "ask": _LOST,
    "give": _LOST,
    "why": "why names updates of its own run only: put them into one script, or use a shell with --members",
}
# From how long a replay on it is told how many lines are replayed, in seconds.
LONG = 1.0


class Session(Protocol):
    """A volume over which lines are carried out, one at a time."""

    prompt: str
    # How many volumes there are, where they are numbered.
    volumes: int
    # What is to be said behind an answer, to who waits for it.
    note: str

    def do(self, line: str) -> Answer:
        """Carries out a command."""

    def look(self, line: str) -> Answer:
        """Carries out a command that changes nothing."""


@dataclass
class FolderSession:
    """Over a volume in a folder each line is a run of its own."""

    volume: Folder
    note: str = ""
    volumes: int = 0

    def __post_init__(self) -> None:
        self.prompt = f"{self.volume.root}> "
        # That there is a volume is seen before the first line.
        list(ask(self.volume, []))

    def do(self, line: str) -> Answer:
        usage = usage_of(line)
        if usage and usage.name in WITHIN_A_RUN:
            raise Fault(f"each line is a run of its own here, and {WITHIN_A_RUN[usage.name]}", Status.REFUSED)
        return self.look(line)

    def look(self, line: str) -> Answer:
        (answer,) = ask(self.volume, [line])
        return answer


@dataclass
class MemorySession:
    """Of a volume in memory nothing stays, so all lines that may have changed something are replayed before each
    further one."""

    volume: Memory
    lines: list[str] = field(default_factory=list)
    note: str = ""
    volumes: int = 0

    def __post_init__(self) -> None:
        self.volumes = int(self.volume.volumes or "0")
        self.prompt = f"{self.volume.members} in memory> "
        list(ask(self.volume, []))

    def do(self, line: str) -> Answer:
        began = time.monotonic()
        answer = self.look(line)
        took = time.monotonic() - began
        usage = usage_of(line)
        if not usage or usage.name not in LOOKS:
            self.lines.append(line)
        self.note = f"({len(self.lines)} lines are replayed for each, which took {took:.1f} s)" if took >= LONG else ""
        return answer

    def look(self, line: str) -> Answer:
        if sum(len(to_bytes(kept)) + 1 for kept in [*self.lines, line]) > SCRIPT_BYTES:
            raise Fault(f"all lines together are replayed for each, and are more than the {SCRIPT_BYTES:,} bytes of a "
                        "script now: begin anew, or use a volume in a folder", Status.REFUSED)
        *_, answer = ask(self.volume, [*self.lines, line])
        return answer
