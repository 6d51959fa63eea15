"""Answers of the sources, compiled without proof for one call. The toolchain keeps nothing of what it compiles so."""
from __future__ import annotations

import os
import re
import subprocess
from collections.abc import Sequence
from tempfile import TemporaryDirectory

import built
from faults import Fault, Status, say
from launching import Run, put

# What the toolchain says behind what the program said: how the program ended, or that it gave no answer in time.
ENDED = re.compile(rb"run=ended status=(\d+) .*proved=no")
TOO_SLOW = b"run=no-answer proved=no"
LAST_SAID = 5


def answer(words: Sequence[str], given: bytes) -> Run | None:
    """Answers as the program does that the sources are, over this input. Where the toolchain gives no answer of it, that
    is said, and nothing is given."""
    say("answering without proof, in two to three minutes; ./ficus prove proves and builds the program")
    with TemporaryDirectory() as room:
        # (the toolchain takes a pipe that is silent for long for ended, so it is given a file)
        path = os.path.join(room, "input")
        with open(path, "wb") as file:
            file.write(given)
        with open(path, "rb") as file:
            ran = subprocess.run(["rt", "try", "--", *words], cwd=built.CRATE, stdin=file, capture_output=True, check=False)
    said = ran.stderr.splitlines(keepends=True)
    last = said[-1].rstrip(b"\n") if said else b""
    if last == TOO_SLOW:
        _tell_too_slow(ran.stdout)
    ended = ENDED.fullmatch(last)
    if not ended or len(said) < 2 or not said[-2].startswith(b"checked: ended status=" + ended[1]):
        for line in said[-LAST_SAID:]:
            say(f"no answer without proof: {os.fsdecode(line).rstrip()}")
        return None
    run = Run(int(ended[1]), os.fsdecode(b"".join(said[:-2])))
    run.take(ran.stdout)
    return run


def _tell_too_slow(written: bytes) -> None:
    """Ends with what was answered in time, up to the last whole line."""
    whole = written[:written.rfind(b"\n") + 1]
    put(whole)
    raise Fault("this script takes longer than the toolchain waits for a program that isn't proved: above are the first of "
                "its answers. ./ficus prove proves and builds the program, which takes about an hour on four processors and "
                "then has no such limit; or use a shorter script", Status.UNBUILT)
