"""A folder and its replica, which are kept the same: what was changed in the folder is taken in, and what others did is
shown."""
from __future__ import annotations

import os
import sys
from dataclasses import dataclass, field

import changes
import formats
import ignoring
import limits
import placing
import shown as state
from answers import Answer
from changes import Command, Plan
from built import COMMAND
from faults import say
from home import KINDS, Home, Identity
from member import Member, member_of
from program import ask_all
from progress import followed
from refusals import in_words
from scanning import LOST, Found, Scan, read_file
from showing import CHANGED, Showing
from shown import DIRECTORY, FILE, LEFT, Record, Shown
from spelling import to_bytes
from view import EXECUTABLE, MARKS, Node, View, look

# So often it is looked again whether something more is to be taken in.
ROUNDS = 8
# So many things that aren't kept in step are told one by one.
TOLD = 20
SPELLING = "it is spelled otherwise than {other}, and looks the same: these are two names"


@dataclass
class Keeping:
    """What is kept the same, what is known of both, and what was done."""

    home: Home
    identity: Identity
    member: Member
    shown: Shown
    is_quiet: bool = False
    found: dict[bytes, Found] = field(default_factory=dict)
    view: View | None = None
    taken: dict[bytes, str] = field(default_factory=dict)
    done: dict[bytes, str] = field(default_factory=dict)
    untaken: dict[bytes, str] = field(default_factory=dict)
    refused: dict[bytes, str] = field(default_factory=dict)
    # Whether the folder was as it was shown when it was looked at last.
    was_shown: bool = False

    # Looking.

    def look(self) -> View:
        if self.view is None:
            self.view = look(self.member, self._names())
        return self.view

    def _names(self) -> dict[str, bytes]:
        """What the orphans are called that are shown."""
        return {record.identifier: os.path.basename(where).removesuffix(b"#" + record.identifier.encode())
                for where, record in self.shown.records.items()
                if os.path.dirname(where) == LOST and record.version_of is None}

    def changed(self) -> None:
        """The replica isn't as it was when it was looked at."""
        self.view = None

    def scan(self) -> None:
        known = () if self.shown.records else self.look().at
        scan = Scan(self.home.folder, self.shown.records, known).do()
        self.found = scan.found
        self.untaken = {where: it.why for where, it in scan.found.items() if it.why}
        for where, other in scan.spellings.items():
            self.untaken.setdefault(where, SPELLING.format(other=os.fsdecode(other)))

    def is_same(self) -> bool:
        """Whether the folder is as it was shown."""
        records = self.shown.records
        if any(path not in self.found for path, record in records.items() if record.kind != LEFT and not record.is_hidden):
            return False
        for path, it in self.found.items():
            record = records.get(path)
            if it.why:
                continue
            if record is None or (record.kind != LEFT and (record.kind != it.kind or record.digest != it.digest)):
                return False
            if it.kind == FILE and record.executable != it.executable:
                return False
            if record.kind == LEFT and it.kind != DIRECTORY:
                return False
        return True

    def is_shown(self) -> bool:
        """Whether all that the replica shows was shown, and nothing has changed since."""
        return self.shown.mark == self.member.mark() and self.is_same()

    # Taking in.

    def plan(self) -> Plan:
        return Plan(self.shown, self.found, self.look(), self._kinds(), self._read).make()

    def _read(self, where: bytes) -> bytes | None:
        try:
            return read_file(self.home.real(where))[0]
        except OSError:
            return None

    def _kinds(self) -> ignoring.Kinds:
        try:
            with open(self.home.place(KINDS), "rb") as file:
                text = file.read()
        except FileNotFoundError:
            text = b""
        return ignoring.Kinds(text, formats.kinds())

    def take_in(self) -> None:
        """Takes in what was changed in the folder, until nothing more is."""
        self.scan()
        self.was_shown = self.is_shown()
        if self.was_shown:
            self._note_times()
            return
        for _ in range(ROUNDS):
            if not self._take_in_once():
                break
            self.scan()
        self._mark_executables()
        self._adopt()
        self.shown.pending = {}
        self._save("")

    def _note_times(self) -> None:
        """Of what was read since it was fresh when it was noted, it needn't be read again."""
        read = [(record, self.found[where]) for where, record in self.shown.records.items()
                if record.stat is None and where in self.found and record.kind == FILE]
        for record, it in read:
            record.stat = it.stat
        if read:
            self._save(self.shown.mark)

    def _take_in_once(self) -> bool:
        """Takes in what is seen at once, and says whether more may be seen then."""
        renamed = changes.renamed_directories(self.shown, self.found, self.look())
        if renamed:
            self._rename_directories(renamed)
            return True
        plan = self.plan()
        for one, other in plan.aside:
            placing.put_new(self.home.real(one), self.home.real(other))
        commands = [command for command in plan.commands if command.where not in self.refused]
        if commands:
            self.shown.pending.update({where: self.found[where].digest for where in plan.taken if where in self.found})
            self._save("")
            self._carry_out(commands)
            for where, does in plan.told.items():
                if where not in self.refused:
                    self.taken.setdefault(where, does)
            self._adopt()
        return bool(commands or plan.aside)

    def _rename_directories(self, renamed: list[tuple[bytes, bytes]]) -> None:
        commands = []
        for one, other in renamed:
            above = self.look().at.get(os.path.dirname(other))
            front = above.path if above else ""
            name = changes.spell_name(os.path.basename(other))
            commands.append(Command(f"mv {self.look().at[one].path} {front}/{name}", other, "renamed"))
        self._carry_out(commands)
        for one, other in renamed:
            if other not in self.refused:
                self.shown.move(one, other)
                self.taken[other] = "renamed"

    def _carry_out(self, commands: list[Command]) -> None:
        answers = self._answers([self.member.line(command.line) for command in commands], "taking in")
        for command, answer in zip(commands, answers):
            if answer.refusal:
                self.refused.setdefault(command.where, in_words(answer.refusal))
        self.changed()

    def _answers(self, lines: list[str], what: str) -> list[Answer]:
        if self.is_quiet:
            return self.member.ask(lines)
        return list(followed(ask_all(self.member, lines), len(lines), what))

    def _mark_executables(self) -> None:
        """Keeps which files became executable here, or are it no more."""
        view, lines = self.look(), []
        for where, it in self.found.items():
            node, record = view.at.get(where), self.shown.records.get(where)
            if it.kind != FILE or it.why or node is None or node.is_directory or node.is_link:
                continue
            marks = view.executable.get(node.identifier, [])
            was = record is not None and record.executable
            if it.executable and not marks and not was:
                lines.append(f"create /{MARKS}/{EXECUTABLE}/{node.identifier} plain")
            elif not it.executable and marks and was:
                lines += [f"rm {path}" for path in marks]
            else:
                continue
            self.taken.setdefault(where, "made executable" if it.executable else "made not executable")
        if lines:
            if not view.has_marks:
                lines = [f"mkdir /{MARKS}", f"mkdir /{MARKS}/{EXECUTABLE}", *lines]
            self._carry_out([Command(line, b"", "") for line in dict.fromkeys(lines)])

    def _adopt(self) -> None:
        """Notes of which object and version each is that stands in the folder as the replica shows it."""
        view, records = self.look(), {}
        for where, it in self.found.items():
            record = self._record(view.at.get(where), where, it)
            if record:
                records[where] = record
        for where, record in self.shown.records.items():
            if record.version_of is not None and where not in self.found:
                node = view.node(record.identifier, record.version_of)
                if node and node.is_in_conflict:
                    record.is_hidden = True
                    records[where] = record
        self.shown.records = records

    def _record(self, node: Node | None, where: bytes, it: Found) -> Record | None:
        old = self.shown.records.get(where)
        if node is None:
            return self._version_record(where, it) or old
        if node.is_directory and it.kind == DIRECTORY:
            return Record(DIRECTORY, node.identifier, inode=it.inode)
        same = [version for version in node.versions if version.digest == it.digest]
        if not same or it.why or node.is_link != (it.kind == state.LINK):
            return old
        # (whether the bit was changed here is looked at behind this)
        executable = old.executable if old else it.executable and node.identifier in self.look().executable
        return Record(it.kind, node.identifier, it.digest, same[0].vector, it.stat, it.inode, executable)

    def _version_record(self, where: bytes, it: Found) -> Record | None:
        """A further version whose file was shown before, where that was forgotten."""
        main, _, counts = where.rpartition(b".version-")
        node = self.look().at.get(main)
        if where in self.shown.records or not node or not node.is_in_conflict:
            return None
        for version in node.versions:
            if changes.counts_of(version.vector) == counts.rstrip(b"~") and version.digest == it.digest:
                return Record(FILE, node.identifier, it.digest, version.vector, it.stat, it.inode, it.executable, main)
        return None

    # Showing.

    def show(self) -> None:
        """Shows what the replica shows, and takes in first what was changed here since."""
        if self.was_shown and self.shown.mark == self.member.mark():
            return
        for _ in range(ROUNDS):
            self.take_in()
            if self.shown.mark and self.shown.mark == self.member.mark():
                return
            self._tidy()
            showing = Showing(self.home, self.shown, self.found, self.look(), self.is_quiet).plan()
            showing.do()
            self.done.update(showing.done)
            self.untaken.update({where: why for where, why in self.look().unseen.items()})
            self.untaken.update({where: why for where, why in showing.blocked.items() if why != CHANGED})
            self._save("" if showing.blocked else self.member.mark())
            if CHANGED not in showing.blocked.values():
                return

    def _tidy(self) -> None:
        """Lets the resolvers of their kinds end conflicts, and leaves each directory its first name."""
        view = self.look()
        lines = [self.member.line("rm", path) for path in view.further_names]
        lines += [self.member.line("resolve", node.path) for node in view.at.values()
                  if node.is_in_conflict and node.kind != "plain"]
        if lines and any(not answer.refusal for answer in self.member.ask(lines)):
            self.changed()

    def _save(self, mark: str) -> None:
        self.shown.mark = mark
        state.write(self.home, self.shown)

    # What is said.

    def tell(self) -> None:
        """Says once of each thing that isn't kept in step why, and of what was refused."""
        left = {**self.untaken, **self.refused}
        fresh = [(where, why) for where, why in sorted(left.items()) if where and self.shown.told.get(where) != why]
        for where, why in fresh[:TOLD]:
            sys.stderr.buffer.write(b"ficus: " + where + b": " + to_bytes(why) + b"\n")
        sys.stderr.flush()
        if len(fresh) > TOLD:
            say(f"{len(fresh) - TOLD:,} more aren't kept in step: {COMMAND} status lists them")
        if self.shown.told != left:
            self.shown.told = left
            state.write(self.home, self.shown)
        limits.tell(self.home.shown_name, self.member.left())


def keeping_of(home: Home, identity: Identity, member: Member | None = None, is_quiet: bool = False) -> Keeping:
    return Keeping(home, identity, member or member_of(home, identity), state.read(home), is_quiet)
