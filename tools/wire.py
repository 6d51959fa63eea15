"""What two folders that are brought in step say to each other, over two pipes.

Each word is a frame: four bytes that say how long its head is, the head as JSON, and behind it the bytes of the messages
that it lists with their lengths.
"""
from __future__ import annotations

import json
from collections.abc import Mapping
from typing import IO, Any

from faults import Fault, Status

VERSION = 1
# A head is never as long as this.
MOST = 64_000_000
MESSAGES = "messages"
# What stands in front of the first frame, so that what a shell of the other side says is told from it.
GREETING = b"ficus sync 1\n"
MOST_SAID = 65_536


class Broken(Exception):
    """The other side is gone, or says what can't be understood."""


class Words(dict[str, Any]):
    """What the other side answered, as far as it did."""

    def __missing__(self, _: str) -> Any:
        raise Broken


class Pipes:
    """The two pipes to the other side."""

    def __init__(self, reads: IO[bytes], writes: IO[bytes]) -> None:
        self.reads = reads
        self.writes = writes

    def greet(self) -> None:
        self._write(GREETING)

    def await_greeting(self) -> None:
        """Skips what a shell says before."""
        said = b""
        while not said.endswith(GREETING):
            line = self.reads.readline(MOST_SAID)
            if not line or len(said) > MOST_SAID:
                raise Broken
            said += line

    def put(self, head: Mapping[str, Any], messages: Mapping[str, bytes]) -> None:
        listed = [(name, len(content)) for name, content in messages.items()]
        spelled = json.dumps({**head, MESSAGES: listed}).encode("ascii")
        self._write(len(spelled).to_bytes(4, "big") + spelled + b"".join(messages.values()))

    def _write(self, content: bytes) -> None:
        try:
            self.writes.write(content)
            self.writes.flush()
        except OSError:
            raise Broken from None

    def take(self) -> tuple[dict[str, Any], dict[str, bytes]]:
        length = int.from_bytes(self._read(4), "big")
        if length > MOST:
            raise Broken
        try:
            head = json.loads(self._read(length))
            return head, {name: self._read(size) for name, size in head.pop(MESSAGES)}
        except (ValueError, KeyError, TypeError, AttributeError):
            raise Broken from None

    def _read(self, count: int) -> bytes:
        try:
            content = self.reads.read(count)
        except OSError:
            raise Broken from None
        if content is None or len(content) != count:
            raise Broken
        return content


class Other:
    """The other side, which does what it is asked for."""

    def __init__(self, pipes: Pipes, name: str) -> None:
        self.pipes = pipes
        self.name = name

    def ask(self, what: str, messages: Mapping[str, bytes] = {}, **words: Any) -> tuple[dict[str, Any], dict[str, bytes]]:
        self.pipes.put({"ask": what, **words}, messages)
        head, brought = self.pipes.take()
        if "fault" in head:
            raise Fault(f"{self.name}: {head['fault']}", int(head.get("status", Status.OUTSIDE)))
        return Words(head), brought
