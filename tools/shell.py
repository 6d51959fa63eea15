"""`./ficus shell`: a line, and its answer at once."""
from __future__ import annotations

import cmd
import os
import sys
from argparse import ArgumentParser, Namespace
from pathlib import Path

import explain
import formats
import places
import spelling
from answers import Answer, read_row
from faults import Fault, Status
from formats import Usage
from grammar import why_none
from program import BAD_LINE, Ended, is_command, locked
from sessions import FolderSession, MemorySession, Session
from spelling import to_bytes

try:
    import readline
except ImportError:
    readline = None  # type: ignore[assignment]

DESCRIPTION = """\
Reads commands, each as a line of a script, and answers each at once. Over the volume in ROOT each line is a run of its
own; with --members the volume is in memory, and nothing of it is kept. On a terminal lines are edited and kept, and TAB
completes commands and paths."""
HELP = """\
A line is a command, as in a script: `1 ls /`. `help COMMAND` explains a command, and `help WORD` a refusal. `quit`, or
the end of the input, leaves."""

HISTORY = Path("~/.ficus_history")
HISTORY_LINES = 1_000
# What stands in the form of a command where a path does.
PATHS = ("NEW", "ENTRY", "PATH")
LEAVE = ("quit", "exit")
# Commands that bring a replica what others did.
BRINGS = ("pull", "sweep")
HELP_WORD = "help"


def add(parser: ArgumentParser) -> None:
    parser.description = DESCRIPTION
    place = parser.add_argument("root", metavar="ROOT", nargs="?", type=Path, help="the folder of a volume")
    places.add_memory(parser, required=False)
    places.add_volumes(parser, required=False)
    parser.set_defaults(misuse=parser.error, place=place)


def run(words: Namespace) -> int:
    of_memory = (words.ids, words.bytes, words.volumes)
    if (words.root is None) == (words.members is None) or (words.root and any(of_memory)):
        words.misuse("either a ROOT or --members is needed, and all other options go with --members")
    if words.root:
        with locked(words.root) as volume:
            return Shell(FolderSession(volume)).serve()
    return Shell(MemorySession(places.memory(words))).serve()


class Shell(cmd.Cmd):
    """The prompt, the lines, and what completes them."""

    def __init__(self, session: Session) -> None:
        super().__init__()
        self.session = session
        self.is_terminal = sys.stdin.isatty()
        self.prompt = session.prompt if self.is_terminal else ""
        self.use_rawinput = self.is_terminal
        self.history = os.path.expanduser(HISTORY)
        # How many conflicts each replica showed when that was looked at last.
        self.shown: dict[str, int] = {}

    def serve(self) -> int:
        """Answers until the end of the input."""
        if self.is_terminal:
            print(HELP)
        if self.is_terminal and readline:
            readline.set_completer_delims(" ")
            try:
                readline.read_history_file(self.history)
            except OSError:
                # (nothing is kept yet)
                pass
        while True:
            try:
                self.cmdloop()
                break
            except KeyboardInterrupt:
                print()
        if self.is_terminal and readline:
            readline.set_history_length(HISTORY_LINES)
            try:
                readline.write_history_file(self.history)
            except OSError:
                # (a home that may not be written keeps no history)
                pass
        return Status.DONE

    def onecmd(self, line: str) -> bool:
        """Answers a line, and tells whether it was the last."""
        line = line.rstrip("\r\n")
        if line == "EOF":
            if self.is_terminal:
                print()
            return True
        word, _, rest = line.strip().partition(" ")
        if word in LEAVE:
            return True
        if word in (HELP_WORD, "?"):
            self.tell(rest.strip())
        elif is_command(line.strip()):
            self.answer(without_slashes(line.strip()))
        return False

    def answer(self, line: str) -> None:
        """Writes the answer to a command: a refusal in words, and why it is none in place of that of no command."""
        try:
            answer = self.session.do(line)
            lines = list(answer.lines)
            if answer.refusal:
                lines[0] = explain.refused(self.session.look, line, answer.refusal)
            if self.is_terminal:
                lines += [note for note in (self.session.note, self.conflicts(line, answer)) if note]
        except Ended as ended:
            lines = [self.why_no_command(line) if ended.status == BAD_LINE else f"ficus: {ended}"]
        except Fault as fault:
            lines = [str(fault)]
        sys.stdout.buffer.write(b"".join(to_bytes(told) + b"\n" for told in lines))
        sys.stdout.buffer.flush()

    def conflicts(self, line: str, answer: Answer) -> str:
        """What is said of conflicts behind a command with which some may have come: how many the replica shows, where
        they are more than it showed at the last such command."""
        volume, command = formats.of_volume(line)
        words = command.split(" ")
        if answer.refusal or words[0] not in BRINGS:
            return ""
        replica = volume + (words[1] if words[0] == "pull" else "1")
        count = len(self.session.look(f"{replica} conflicts").listed)
        came, self.shown[replica] = count - self.shown.get(replica, 0), count
        if came <= 0:
            return ""
        return f"({'a conflict' if came == 1 else f'{came} conflicts'} came: `{replica} conflicts` lists what is in conflict)"

    def why_no_command(self, line: str) -> str:
        wrong = why_none(line, self.session.volumes)
        if wrong is None:
            return "this is no command: `help` lists all"
        return f"this is no command: {wrong.why} (column {wrong.column})"

    def tell(self, word: str) -> None:
        """Tells of all commands, of one, or of a refusal."""
        usage = formats.commands().get(word)
        if usage:
            print(f"{usage}\n    {usage.does}\n    answers {usage.answer}".replace("`", ""))
        elif word in formats.refusals():
            print(f"no {word}\n    {formats.refusals()[word]}".replace("`", ""))
        elif word:
            print(f"no command and no refusal is called {word}")
        else:
            width = max(len(str(usage)) for usage in formats.commands().values())
            for usage in formats.commands().values():
                print(f"{str(usage):{width}}  {usage.does}".replace("`", ""))
            print(HELP)

    def complete(self, text: str, state: int) -> str | None:  # type: ignore[override]
        """The completion of this number of the word that is being written (`readline`)."""
        if state == 0:
            before = readline.get_line_buffer()[:readline.get_begidx()].split()
            try:
                self.found = completions(self.session, before, text)
            except Fault:
                self.found = []
        return self.found[state] if state < len(self.found) else None


def without_slashes(line: str) -> str:
    """A command without the slashes that stand behind its paths, as completion leaves them."""
    usage = formats.usage_of(line)
    volume, command = formats.of_volume(line)
    words = command.split(" ")
    for place, kind in enumerate(usage.words[:len(words)] if usage else ()):
        if kind in PATHS and words[place] != "/":
            words[place] = words[place].removesuffix("/")
    return volume + " ".join(words)


def completions(session: Session, before: list[str], text: str) -> list[str]:
    """What may stand in place of a word that begins with the text, behind these words."""
    if before[:1] == [HELP_WORD]:
        return _beginning(text, [*formats.commands(), *formats.refusals()])
    usages = list(formats.commands().values())
    volume = before.pop(0) + " " if before and before[0].startswith("@") else ""
    if not before:
        return _beginning(text, [*(usage.name for usage in usages if not usage.is_of_replica), HELP_WORD, *LEAVE])
    if len(before) == 1 and before[0].isdigit():
        return _beginning(text, [usage.name for usage in usages if usage.is_of_replica])
    usage = formats.usage_of(" ".join(before))
    if not usage or len(usage.words) <= len(before):
        return []
    return _arguments(session, volume + before[0], usage, len(before), text)


def _beginning(text: str, words: list[str]) -> list[str]:
    return [f"{word} " for word in words if word.startswith(text)]


def _arguments(session: Session, replica: str, usage: Usage, place: int, text: str) -> list[str]:
    kind = usage.words[place]
    if kind == "KIND":
        return _beginning(text, formats.kinds())
    if kind == "ORDER":
        return _beginning(text, formats.orders())
    if kind.startswith("~") or (text.startswith("~") and "/" not in text):
        return _beginning(text, [line.split(" ")[0] for line in session.look(f"{replica} orphans").listed])
    if kind in PATHS:
        return _paths(session, replica, text)
    return []


def _paths(session: Session, replica: str, text: str) -> list[str]:
    """The paths that begin so: with a slash behind those of directories, since more may follow."""
    above, slash, name = text.rpartition("/")
    directory = spelling.read_path(above or "/")
    if not slash or directory is None:
        return ["/"] if not text else []
    rows = map(read_row, session.look(f"{replica} ls {directory}").listed)
    found = [(directory.below(row.shown), row) for row in rows if row.shown.startswith(name)]
    return [f"{path}/" if row.is_directory else f"{path} " for path, row in found]
