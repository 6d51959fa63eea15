"""`./ficus serve`: the other side of a sync, which another machine begins over two pipes. It isn't for people."""
from __future__ import annotations

import os
import sys
from argparse import ArgumentParser, Namespace
from collections.abc import Mapping
from typing import Any, NoReturn

import joining
import peers
from faults import Fault, Status
from home import MEMBER, Home, Identity, identity_of
from keeping import Keeping, keeping_of
from wire import VERSION, Broken, Pipes

NOT_UNDERSTOOD = "it is asked for what it doesn't understand: the two programs are of different versions"

Answer = tuple[dict[str, Any], Mapping[str, bytes]]


def add(parser: ArgumentParser) -> None:
    parser.description = "Answers the sync of another folder on standard input and output. You don't need it by yourself."
    parser.add_argument("folder", metavar="FOLDER", help="the folder that is kept in step")


def run(words: Namespace) -> int:
    # (what is said goes to standard error alone)
    writes = os.fdopen(os.dup(1), "wb")
    os.dup2(2, 1)
    pipes = Pipes(sys.stdin.buffer, writes)
    try:
        pipes.greet()
        serving = Serving(os.fsencode(os.path.expanduser(words.folder)), pipes)
        try:
            serving.do()
        finally:
            serving.close()
    except Broken:
        pass
    return Status.DONE


class Serving:
    """What is done for the other side, one request after the other."""

    def __init__(self, folder: bytes, pipes: Pipes) -> None:
        self.home = Home(os.path.abspath(folder))
        self.pipes = pipes
        self.keeping: Keeping | None = None
        self.other = 0

    def do(self) -> None:
        while True:
            try:
                head, messages = self.pipes.take()
            except Broken:
                return
            if head.get("ask") == "bye":
                self.pipes.put({}, {})
                return
            try:
                answer, brought = self._answer(head, messages)
            except Fault as fault:
                answer, brought = {"fault": str(fault), "status": fault.status}, {}
            except OSError as error:
                where = os.fsdecode(error.filename) if error.filename else "the system"
                answer, brought = {"fault": f"{where}: {error.strerror}", "status": Status.OUTSIDE}, {}
            except (KeyError, TypeError, ValueError):
                answer, brought = {"fault": NOT_UNDERSTOOD, "status": Status.UNFIT}, {}
            self.pipes.put(answer, brought)

    def close(self) -> None:
        if self.keeping:
            self.keeping.member.close_boxes()

    def _answer(self, head: Mapping[str, Any], messages: Mapping[str, bytes]) -> Answer:
        asked = {"hello": self._hello, "join": self._join, "take in": self._take_in, "reply": self._reply,
                 "ask": self._ask, "take": self._take, "in step": self._in_step, "show": self._show}
        what = asked.get(str(head.get("ask")), self._nothing)
        return what(head, messages)

    def _nothing(self, head: Mapping[str, Any], _: Mapping[str, bytes]) -> NoReturn:
        raise Fault(NOT_UNDERSTOOD, Status.UNFIT)

    @property
    def kept(self) -> Keeping:
        if self.keeping is None:
            raise Fault("nothing was said before", Status.UNFIT)
        return self.keeping

    def _open(self, version: object) -> Identity:
        if version != VERSION:
            raise Fault("the two programs are of different versions", Status.UNFIT)
        identity_of(self.home)
        self.home.take_lock(joining.patience())
        return identity_of(self.home)

    def _hello(self, head: Mapping[str, Any], _: Mapping[str, bytes]) -> Answer:
        """Says who is here, what of the other one is known, and refuses who can't be another member."""
        identity = self._open(head.get("version"))
        told = joining.met(head.get("who"))
        joining.meet(self.home, identity, told, str(head.get("where", "")), not head.get("looks"))
        self.keeping = keeping_of(self.home, identity, is_quiet=True)
        self.other = told.number
        known = peers.heard(self.home).get(str(told.number), {})
        return {"who": identity.as_json(), "knows": known.get("mark", ""), "mark": self.keeping.member.mark()}, {}

    def _join(self, head: Mapping[str, Any], _: Mapping[str, bytes]) -> Answer:
        """Gives the next number, once for each secret."""
        identity = self._open(head.get("version"))
        given = joining.give_number(identity, str(head["secret"]), str(head["where"]))
        self.home.write(MEMBER, identity.as_json())
        return {"number": given, "members": identity.members, "tag": identity.tag, "others": identity.others}, {}

    def _take_in(self, head: Mapping[str, Any], _: Mapping[str, bytes]) -> Answer:
        if self.kept.identity.has_joined:
            self.kept.take_in()
        return {"mark": self.kept.member.mark(), "taken": len(self.kept.taken)}, {}

    def _reply(self, head: Mapping[str, Any], messages: Mapping[str, bytes]) -> Answer:
        self.kept.member.open_boxes()
        return {}, self.kept.member.answered(messages)

    def _ask(self, head: Mapping[str, Any], _: Mapping[str, bytes]) -> Answer:
        self.kept.member.open_boxes()
        return {}, self.kept.member.asked(self.other)

    def _take(self, head: Mapping[str, Any], messages: Mapping[str, bytes]) -> Answer:
        self.kept.member.take(messages)
        self.kept.changed()
        joining.collect(self.kept)
        return {}, {}

    def _in_step(self, head: Mapping[str, Any], _: Mapping[str, bytes]) -> Answer:
        peers.note_heard(self.home, self.other, str(head["mark"]), str(head.get("where", "")))
        return {"mark": self.kept.member.mark()}, {}

    def _show(self, head: Mapping[str, Any], _: Mapping[str, bytes]) -> Answer:
        if self.kept.identity.has_joined:
            self.kept.show()
        shown = self.kept.shown
        return {"came": len(self.kept.done), "waits": shown.waits, "mark": self.kept.member.mark()}, {}
