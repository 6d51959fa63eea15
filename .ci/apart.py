"""The members of a volume, each in a folder of its own, beside one run in memory that is asked for the same."""
import subprocess
import time
from collections import Counter
from dataclasses import dataclass
from pathlib import Path

from letters import message_in, noted
from volumes import answers_of, script_of

LOOKS = ("tree", "marks", "orphans", "conflicts")
QUERIES = {*LOOKS, "read", "versions", "readlink", "ls", "detached"}


class Wrong(Exception):
    """Something isn't as it has to be."""


def expect(what, wanted, found):
    if wanted != found:
        raise Wrong(f"{what}:\n    wanted {str(wanted):.300}\n    found  {str(found):.300}")


@dataclass
class Member:
    """A member: its number, the folder of its volume on its machine, the ask that is open by what it has answered, as
    the member that was asked and the number, and how often it has saved."""

    number: int
    root: Path
    asked: tuple | None = None
    saves: int = 0

    @property
    def folder(self):
        return self.root / str(self.number)

    @property
    def inbox(self):
        return self.folder / "in"

    @property
    def outbox(self):
        return self.folder / "out"

    def noted(self):
        """The open ask, as its note has it."""
        disks = (self.folder / name for name in ("ask-a.img", "ask-b.img"))
        return noted([disk.read_bytes() if disk.exists() else b"" for disk in disks])

    def put(self):
        """The messages that it has put, by name, with their bytes."""
        return {path.name: path.read_bytes() for path in self.outbox.glob("[!.]*")} if self.outbox.is_dir() else {}


class Apart:
    """The members of a fresh volume, made in folders of their own below a place; and the script of one run of all of
    them in which the same happens, in the same order, with what has to answer each of its commands.

    A process that begins with no ask noted is a restart there; with one it goes on, and is nothing there. A file that
    is taken is a message that is given, and a piece all those of its reply, one after the other."""

    def __init__(self, program, place, members, tag, limits=(), in_one_root=False):
        self.program, self.tag, self.limits = program, tag, limits
        self.members = {number: Member(number, place / ("all" if in_one_root else str(number)))
                        for number in range(1, members + 1)}
        self.told = []
        # How many messages there are in the run of all, and which number each file has there.
        self.posts = 0
        self.numbers = {}
        # How long the last process took, in seconds; and how often a taking came to what.
        self.lasted = 0.0
        self.takings = Counter()
        # What was put, by name. Names are those of one message, so this is never changed.
        self.put = {}
        for member in self.members.values():
            self.program_ends(member, "init", "--members", str(members), "--replica", str(member.number), "--tag",
                              tag.hex(), *limits, member.root)
            member.inbox.mkdir()

    def program_ends(self, member, *words, lines=()):
        """Runs the program, which ends well, and gives what it has put."""
        begun = time.monotonic()
        ran = subprocess.run([self.program, *words], input=script_of(lines), capture_output=True)
        self.lasted = time.monotonic() - begun
        expect(f"how {words[0]} of member {member.number} over {lines} ends", (0, b""), (ran.returncode, ran.stderr))
        return ran.stdout

    def process(self, number, *lines):
        """Runs a process of this member over these lines, and gives their answers."""
        member = self.members[number]
        self.begins(member)
        put = self.program_ends(member, "member", "--replica", str(number), member.root, lines=lines)
        answers = answers_of(put, lines)
        for line, answer in zip(lines, answers):
            self.tell(member, line, answer)
        self.look_behind(member)
        return answers

    def look(self, number):
        """Looks at this member, in a process of its own."""
        return self.process(number, *(f"{number} {look}" for look in LOOKS))

    def begins(self, member):
        """A process of the member begins."""
        if member.asked is None:
            self.told.append((f"restart {member.number}", ["ok"]))

    def look_behind(self, member):
        """Looks at what a process has left: its note is right, and what it has put are whole messages under their own
        names, each the same as the one of this name before."""
        expect(f"what member {member.number} has noted", member.asked, member.noted())
        for name, held in member.put().items():
            message = message_in(held, self.tag, len(self.members))
            expect(f"that {name} is a whole message", True, message is not None)
            expect("whose message is put", (name, member.number), (message.name, message.sender))
            expect(f"the bytes of {name}", self.put.setdefault(name, held), held)
            expect(f"that {name} was told of", True, name in self.numbers)

    # What is told of a line that was answered.

    def tell(self, member, line, answer):
        words = line.split(" ")
        by = words[1] if words[0] in ("ask", "restart") else words[0]
        if words[0] == "take":
            self.tell_taking(member, line[5:], answer)
        elif by != str(member.number):
            expect(f"what {line} answers at member {member.number}",
                   ["no down" if 1 <= int(by) <= len(self.members) else "no member"], answer)
        elif words[0] == "ask":
            self.tell_ask(member, line, int(words[2]), answer)
        elif words[0] == "restart":
            self.told.append((line, answer))
            member.asked = None
        else:
            self.told.append((line, answer))
            if not answer[0].startswith("no ") and words[1] not in QUERIES:
                member.saves += 1

    def tell_ask(self, member, line, to, answer):
        if to == member.number or not 1 <= to <= len(self.members):
            self.told.append((line, answer))
            expect(f"what {line} answers", ["no member"], answer)
            return
        self.asks(member, line, to)
        shut = member.outbox.is_file()
        expect(f"what {line} answers", ["no link"] if shut else [f"ok {member.saves}"], answer)
        if not shut:
            name = f"ask-{member.number}-{to}-{member.saves}"
            expect(f"that {name} was put before it was answered", True, (member.outbox / name).is_file())
            self.numbers[name] = self.posts

    def asks(self, member, line, to):
        """The member has saved an ask and noted it."""
        member.saves += 1
        self.posts += 1
        self.told.append((line, [f"ok {self.posts}"]))
        member.asked = to, member.saves

    def tell_taking(self, member, name, answer):
        word, message = self.taking(member, name)
        self.takings[word] += 1
        what = f"what take {name} answers at member {member.number}"
        if word == "ask":
            pieces = self.pieces_of(member, message)
            expect(what, [f"ok {pieces} {member.saves}"], answer)
            names = self.names_of(member, message, pieces)
            expect(f"that all of {names} were put before it was answered", True, set(names) <= set(member.put()))
            self.serves(member, message, pieces)
        elif word == "reply":
            expect(what, ["ok"], answer)
            self.accepts(member, message)
        else:
            expect(what, [f"no {word}"], answer)
            if word == "stale":
                self.told.append((f"give {self.numbers[message.name]}", ["no stale"]))

    def names_of(self, member, ask, pieces):
        """The names of so many pieces in which a member replies to the ask with what it has saved now."""
        return [f"piece-{member.number}-{ask.sender}-{ask.number}-{member.saves}-{index}" for index in range(pieces)]

    def pieces_of(self, member, ask):
        """In how many pieces a member has replied to the ask with what it has saved now, as the first one says; or none
        where there is no such piece."""
        [name] = self.names_of(member, ask, 1)
        first = member.outbox / name
        return message_in(first.read_bytes(), self.tag, len(self.members)).pieces if first.is_file() else 0

    def serves(self, member, ask, pieces):
        """The member has replied to an ask, in so many pieces."""
        first = self.posts + 1
        self.posts += pieces
        self.told.append((f"give {self.numbers[ask.name]}",
                          [f"ok {first}" if pieces == 1 else f"ok {first} to {self.posts}"]))
        for index, name in enumerate(self.names_of(member, ask, pieces)):
            self.numbers.setdefault(name, first + index)

    def accepts(self, member, piece):
        """The member has taken the whole reply of which this is a piece."""
        for index in range(piece.pieces):
            held = f"ok {index + 1} of {piece.pieces}" if index + 1 < piece.pieces else "ok"
            self.told.append((f"give {self.numbers[piece.named(index)]}", [held]))
        member.saves += 1
        member.asked = None

    def taking(self, member, name):
        """What a take of this name comes to, by what the inbox has: `ask` or `reply`, or the word of its refusal; and
        the message that it finds, if it finds one."""
        file = member.inbox / name
        if name in (".", "..") or "/" in name or len(name.encode()) > 255 or not file.exists():
            return "nomail", None
        if file.is_dir():
            return "link", None
        message = message_in(file.read_bytes(), self.tag, len(self.members))
        if message is None or message.receiver != member.number:
            return "badmessage", None
        if not message.pieces:
            return "link" if member.outbox.is_file() else "ask", message
        if member.asked != (message.sender, message.number):
            return "stale", message
        return self.gathering(member, message), message

    def gathering(self, member, piece):
        """What taking the reply comes to of which this is a piece."""
        bodies = []
        for index in range(piece.pieces):
            file = member.inbox / piece.named(index)
            if file.is_dir() and index != piece.index:
                return "link"
            held = file.read_bytes() if file.exists() else b""
            other = piece if index == piece.index else message_in(held, self.tag, len(self.members))
            if other is None or (other.reply, other.index) != (piece.reply, index):
                return "missing"
            bodies.append(other.body)
        posted = [self.put[piece.named(index)] for index in range(piece.pieces)]
        # (what was cut short, or is longer, joins to no tables)
        is_posted = bodies == [message_in(held, self.tag, len(self.members)).body for held in posted]
        return "reply" if is_posted else "badmessage"

    # What is told of a process that was killed.

    def killed(self, number, line, answers):
        """Follows a process that was killed over one line, behind these answers: what its disks and its outbox have
        says how far it came."""
        member = self.members[number]
        if answers:
            self.tell(member, line, answers[0])
        else:
            self.tell_killed(member, line)
        self.look_behind(member)

    def tell_killed(self, member, line):
        words = line.split(" ")
        saved = self.saved(member) - member.saves
        note = member.noted()
        was = member.asked
        expect(f"how many saves the kill over {line} leaves more than were answered", True, saved in (0, 1))
        may_be = [was]
        if words[0] == "ask":
            may_be = self.tell_killed_ask(member, line, int(words[2]), note) if saved else [was, None]
        elif words[0] == "restart":
            expect("how many saves a restart is", 0, saved)
            may_be = [was, None]
        elif words[0] == "take":
            may_be = self.tell_killed_taking(member, line[5:], saved)
        elif saved:
            expect("that a query saves nothing", False, words[1] in QUERIES)
            self.told.append((line, None))
            member.saves += 1
        expect(f"that the note behind a kill over {line} is right, {note} of {may_be}", True, note in may_be)
        member.asked = note

    def tell_killed_ask(self, member, line, to, note):
        self.asks(member, line, to)
        name = f"ask-{member.number}-{to}-{member.saves}"
        if name in member.put():
            expect(f"that {name} was noted before it was put", member.asked, note)
            self.numbers[name] = self.posts
        return [None, member.asked]

    def tell_killed_taking(self, member, name, saved):
        word, message = self.taking(member, name)
        expect(f"that a kill over a taking that comes to {word} leaves no save", True, word == "reply" or not saved)
        if word == "ask":
            self.tell_killed_serving(member, message)
        if saved:
            self.accepts(member, message)
            return [None]
        return [member.asked, None] if word in ("reply", "badmessage") else [member.asked]

    def tell_killed_serving(self, member, ask):
        pieces = self.pieces_of(member, ask)
        names = self.names_of(member, ask, pieces)
        put = member.put()
        are_put = [name in put for name in names]
        if self.numbers.keys().isdisjoint(names):
            expect("that pieces are put in order", sorted(are_put, reverse=True), are_put)
        if pieces:
            self.serves(member, ask, pieces)

    def saved(self, member):
        """How often the member has saved, as its disks say."""
        put = self.program_ends(member, "check", member.root).decode().splitlines()[member.number - 1]
        return int(put.split(" ")[5])

    # At the end.

    def compare(self):
        """One run of all, asked for the same, answers the same. Each member has saved as often as was told."""
        for member in self.members.values():
            expect(f"how often member {member.number} has saved", member.saves, self.saved(member))
        commands = [command for command, _ in self.told]
        ran = subprocess.run([self.program, "replay", "--members", str(len(self.members)), *self.limits],
                             input=script_of(commands), capture_output=True, check=True)
        answers = answers_of(ran.stdout, commands)
        for place, ((command, wanted), found) in enumerate(zip(self.told, answers, strict=True)):
            if wanted is None:
                expect(f"that {command} isn't refused in one run of all", False, found[0].startswith("no "))
            elif wanted != found:
                before = "; ".join(commands[max(0, place - 6):place])
                raise Wrong(f"{command}, behind {before}:\n    members apart {str(wanted):.300}\n"
                            f"    one run of all {str(found):.300}")
