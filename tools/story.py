"""What became of a run: its commands with their answers, its messages, and what came up and ended at which replica."""
from __future__ import annotations

from collections.abc import Callable, Sequence
from dataclasses import dataclass, field
from enum import Enum

from answers import Answer
from faults import Fault, Status
from formats import of_volume, usage_of
from program import SCRIPT_BYTES, Memory, ask, is_command
from spelling import to_bytes


class Mood(Enum):
    """What a note, or a bar beside a replica, is of."""

    CONFLICT = "conflict"
    ORPHAN = "orphan"
    COLLECTION = "collection"


class Fate(Enum):
    """What became of a message. A piece of an answer is taken with others, or held for them."""

    TAKEN = "taken"
    STALE = "stale"
    MIXED = "mixed"
    LOST = "lost"


# Of a message that is refused so, nothing is taken.
_REFUSED: dict[str | None, Fate] = {None: Fate.TAKEN, "stale": Fate.STALE, "mixed": Fate.MIXED}


@dataclass(frozen=True)
class Note:
    """What came up or ended with a command."""

    mood: Mood
    text: str


@dataclass
class Step:
    """A command, or several that are folded: the number of its line, its text without its replica, the lane in which it
    stands, where it stands in one, and what it answered."""

    number: int
    text: str
    lane: int | None
    answer: Answer
    whole: str
    notes: list[Note] = field(default_factory=list)
    folded: list[Step] = field(default_factory=list)

    @property
    def name(self) -> str:
        return self.text.split(" ")[0]


@dataclass(frozen=True)
class Message:
    """A message from the step with which it was posted to that with which it was given, or to nowhere. What of one answer
    came nowhere is one, with the number of each of its pieces."""

    sender: Step
    to: int
    taken: Step | None
    fate: Fate
    is_ask: bool
    numbers: list[int]
    is_piece: bool = False


@dataclass(frozen=True)
class Link:
    """Another lane that a step has to do with: of a pull the one that serves, of a comparison the other."""

    step: Step
    lane: int
    is_pull: bool


@dataclass(frozen=True)
class Span:
    """From which step to which, or to the end, something stood at a replica; of `None` that the replica was down."""

    lane: int
    begin: Step
    end: Step | None
    mood: Mood | None


@dataclass
class Story:
    """All that is drawn: lanes from 1, those of the replicas of each volume behind those of the one before."""

    members: int
    volumes: int
    steps: list[Step]
    messages: list[Message] = field(default_factory=list)
    links: list[Link] = field(default_factory=list)
    spans: list[Span] = field(default_factory=list)

    @property
    def lanes(self) -> int:
        return self.members * max(self.volumes, 1)

    def head(self, lane: int) -> str:
        """What stands above a lane."""
        volume, replica = divmod(lane - 1, self.members)
        return f"volume {volume + 1}, replica {replica + 1}" if self.volumes else f"replica {replica + 1}"

    def asked(self, lane: int, look: str) -> str:
        """A look at the replica of a lane, as a line of a script."""
        volume, replica = divmod(lane - 1, self.members)
        return f"@{volume + 1} {replica + 1} {look}" if self.volumes else f"{replica + 1} {look}"


def tell(lines: Sequence[str], memory: Memory) -> Story:
    """The story of a script over fresh volumes in memory."""
    numbers = [number for number, line in enumerate(lines, 1) if is_command(line)]
    commands = [lines[number - 1] for number in numbers]
    answers = list(ask(memory, lines))
    story = Story(int(memory.members), int(memory.volumes or "0"), [])
    post = _Post(story)
    for number, command, answer in zip(numbers, commands, answers):
        step = Step(number, command, None, answer, command)
        story.steps.append(step)
        post.follow(step)
    post.lose()
    _follow_replicas(story, _looked_at(story, commands, memory))
    return story


@dataclass
class _Posted:
    number: int
    sender: Step
    to: int
    is_ask: bool
    is_piece: bool = False
    is_given: bool = False


def _numbers(value: str) -> range:
    """The numbers of the messages of which an answer tells: of one, `M`, or of several, `M to L`."""
    first, between, last = value.partition(" to ")
    if not first.isdigit() or between and not last.isdigit():
        return range(0)
    return range(int(first), int(last or first) + 1)


class _Post:
    """Follows the messages, and so in which lane each step stands."""

    def __init__(self, story: Story) -> None:
        self.story = story
        # By the volume and the number.
        self.posted: dict[tuple[int, int], _Posted] = {}
        # The volume of the step that is followed, from 0.
        self.volume = 0

    def lane(self, word: str) -> int | None:
        """The lane of the replica of this number, where there is one."""
        if not word.isdigit() or not 1 <= int(word) <= self.story.members:
            return None
        return self.volume * self.story.members + int(word)

    def follow(self, step: Step) -> None:
        volume, command = of_volume(step.whole)
        self.volume = int(volume[1]) - 1 if volume else 0
        words = command.split(" ")
        step.text = command
        if words[0].isdigit():
            step.lane = self.lane(words[0])
            step.text = " ".join(words[1:])
        elif words[0] == "give" and len(words) == 2 and words[1].isdigit():
            self.give(step, int(words[1]))
        elif usage_of(step.whole) and len(words) > 1:
            step.lane = self.lane(words[1])
            self.link(step, words)

    def link(self, step: Step, words: list[str]) -> None:
        """Notes what an ask posts, and what a pull or a comparison has to do with."""
        other = self.lane(words[2]) if len(words) == 3 else None
        if other is None or step.answer.refusal:
            return
        if step.name == "ask" and step.answer.value.isdigit():
            self.post(int(step.answer.value), step, other, True)
        elif step.name in ("pull", "alike"):
            self.story.links.append(Link(step, other, step.name == "pull"))

    def post(self, number: int, step: Step, to: int, is_ask: bool, is_piece: bool = False) -> None:
        self.posted[self.volume, number] = _Posted(number, step, to, is_ask, is_piece)

    def give(self, step: Step, number: int) -> None:
        """A message comes to whom it is for, who takes it, refuses it as stale or mixed, or is down."""
        message = self.posted.get((self.volume, number))
        if not message:
            return
        step.lane = message.to
        refusal = step.answer.refusal
        if refusal not in _REFUSED:
            return
        message.is_given = True
        self.story.messages.append(
            Message(message.sender, message.to, step, _REFUSED[refusal], message.is_ask, [number], message.is_piece))
        if message.is_ask and message.sender.lane:
            numbers = _numbers(step.answer.value)
            for posted in numbers:
                self.post(posted, step, message.sender.lane, False, len(numbers) > 1)

    def lose(self) -> None:
        """What was never given is lost."""
        lost: dict[int, list[_Posted]] = {}
        for message in self.posted.values():
            if not message.is_given:
                lost.setdefault(id(message.sender), []).append(message)
        for pieces in lost.values():
            first = pieces[0]
            self.story.messages.append(Message(first.sender, first.to, None, Fate.LOST, first.is_ask,
                                               [piece.number for piece in pieces], first.is_piece))


@dataclass(frozen=True)
class _Looks:
    """What a replica told behind a step, and of a collection or a sweep also before it."""

    lane: int
    conflicts: Answer
    orphans: Answer
    tree: Answer
    marks: tuple[Answer, Answer] | None


def _looked_at(story: Story, commands: Sequence[str], memory: Memory) -> list[list[_Looks]]:
    """What the replicas tell behind each step, by a second run with looks between the commands, which change nothing.
    A sweep may have changed any of them, and so may a command that isn't known, or a path that leads into another
    volume."""
    script: list[str] = []
    lanes: list[list[int]] = []
    for step, command in zip(story.steps, commands):
        everywhere = _is_sweep(step) or usage_of(command) is None or story.volumes > 1
        lanes.append(list(range(1, story.lanes + 1)) if everywhere else [step.lane] if step.lane else [])
        around = [story.asked(lane, "marks") for lane in _collecting(step, lanes[-1])]
        script += [*around, command, *around]
        script += [story.asked(lane, look) for lane in lanes[-1] for look in ("conflicts", "orphans", "tree")]
    _weigh(script, len(commands))
    told = ask(memory, script)
    looks: list[list[_Looks]] = []
    for step, looked in zip(story.steps, lanes):
        around_it = _collecting(step, looked)
        before = {lane: next(told) for lane in around_it}
        next(told)
        marks = {lane: (before[lane], next(told)) for lane in around_it}
        looks.append([_Looks(lane, next(told), next(told), next(told), marks.get(lane)) for lane in looked])
    # (so that it is told where the program doesn't end well)
    list(told)
    return looks


def _weigh(script: list[str], commands: int) -> None:
    """Ends where the script is too long with the looks between its commands."""
    size = sum(len(to_bytes(line)) + 1 for line in script)
    if size > SCRIPT_BYTES:
        most = commands * SCRIPT_BYTES // size
        raise Fault(f"the script is too long for a picture: with what is asked between its {commands:,} commands it has "
                    f"{size:,} bytes, and {SCRIPT_BYTES:,} is the most. Draw its first {most:,} commands or so: "
                    "head -n shortens it", Status.UNFIT)


def _is_sweep(step: Step) -> bool:
    return step.lane is None and step.name == "sweep"


def _collecting(step: Step, lanes: list[int]) -> list[int]:
    """Who collects at a step: one at a collection, and all at a sweep."""
    if _is_sweep(step):
        return lanes
    return [step.lane] if step.lane is not None and step.text == "collect" else []


# Where an entry stands for a discard.
ATTIC = "0.1"


class _Names:
    """The names that the objects of one volume have at one replica, or had there when they had one, by their
    identifiers."""

    def __init__(self, anywhere: dict[str, str]) -> None:
        self.paths = {"0.0": ""}
        # Those that they had at any replica.
        self.anywhere = anywhere

    def follow(self, tree: Answer) -> None:
        """Learns from a `tree`, whose lines are of a directory, a name and an object each."""
        rows = [line.split(" ") for line in tree.listed]
        above = {target: (directory, name.partition("#")[0]) for directory, name, target, *_ in reversed(rows)}
        for target in above:
            parts: list[str] = []
            at = target
            while at in above and len(parts) < len(above):
                at, name = above[at]
                parts.append(name)
            if at == "0.0":
                self.paths[target] = self.anywhere[target] = "".join(f"/{part}" for part in reversed(parts))

    def of(self, identifier: str) -> str:
        return self.paths.get(identifier) or self.anywhere.get(identifier) or f"~{identifier}"

    def conflict(self, line: str) -> str:
        words = line.split(" ")
        if words[0] == "name" and len(words) == 3:
            return f"name {self.paths.get(words[1], self.of(words[1]))}/{words[2]}"
        return self.of(words[-1])

    def orphan(self, line: str) -> str:
        identifier = _orphan_of(line)
        made = self.paths.get(identifier) or self.anywhere.get(identifier)
        return f"~{identifier} ({made})" if made else f"~{identifier}"

    def removed(self, line: str) -> str:
        """A line of `marks`: a name, or of one in the attic the discard for which it stands."""
        _, directory, name, target, *_ = line.split(" ")
        return f"the discard of {self.of(target)}" if directory == ATTIC else name


def _orphan_of(line: str) -> str:
    return line.split(" ")[0].removeprefix("~")


# What begins and ends, in words.
_BEGINS = {Mood.CONFLICT: "in conflict: ", Mood.ORPHAN: "orphan: "}
_ENDS = {Mood.CONFLICT: "no more in conflict: ", Mood.ORPHAN: "no more an orphan: "}


def _follow_replicas(story: Story, looks: list[list[_Looks]]) -> None:
    """Notes what comes up and ends, and makes the bars beside the replicas of it."""
    anywhere: list[dict[str, str]] = [{} for _ in range(story.lanes // story.members)]
    names = {lane: _Names(anywhere[(lane - 1) // story.members]) for lane in range(1, story.lanes + 1)}
    open_spans: dict[tuple[int, Mood, str], Step] = {}
    down: dict[int, Step] = {}
    for step, looked in zip(story.steps, looks):
        for look in looked:
            there = names[look.lane]
            there.follow(look.tree)
            _follow_standing(story, step, look, down)
            if look.conflicts.refusal:
                continue
            _follow_mood(story, step, look.lane, Mood.CONFLICT,
                         {line: there.conflict(line) for line in look.conflicts.listed}, there.conflict, open_spans)
            # (of an orphan by its identifier, since what stands behind it may change)
            _follow_mood(story, step, look.lane, Mood.ORPHAN,
                         {_orphan_of(line): there.orphan(line) for line in look.orphans.listed}, there.orphan, open_spans)
        _follow_collections(step, [look for look in looked if look.marks], names)
    for (lane, mood, _), begin in open_spans.items():
        story.spans.append(Span(lane, begin, None, mood))
    for lane, begin in down.items():
        story.spans.append(Span(lane, begin, None, None))


def _follow_standing(story: Story, step: Step, look: _Looks, down: dict[int, Step]) -> None:
    if look.conflicts.refusal == "down":
        down.setdefault(look.lane, step)
    elif look.lane in down:
        story.spans.append(Span(look.lane, down.pop(look.lane), step, None))


def _follow_mood(story: Story, step: Step, lane: int, mood: Mood, told: dict[str, str], name: Callable[[str], str],
                 open_spans: dict[tuple[int, Mood, str], Step]) -> None:
    """Of what is told by this key, each with its name; what has ended is named as it is named by then."""
    for key, named in told.items():
        if (lane, mood, key) not in open_spans:
            open_spans[lane, mood, key] = step
            step.notes.append(Note(mood, _BEGINS[mood] + named))
    for ended in [it for it in open_spans if it[:2] == (lane, mood) and it[2] not in told]:
        story.spans.append(Span(lane, open_spans.pop(ended), step, mood))
        step.notes.append(Note(mood, _ENDS[mood] + name(ended[2])))


def _follow_collections(step: Step, looks: list[_Looks], names: dict[int, _Names]) -> None:
    """What collections gave up: the removed entries that were held and that none who collects holds now."""
    marks = [(look.lane, *look.marks) for look in looks if look.marks]
    if any(after.refusal for _, _, after in marks):
        return
    held = {line.split(" ")[0] for _, _, after in marks for line in after.listed}
    before = {line.split(" ")[0]: (lane, line) for lane, told, _ in marks for line in told.listed}
    given_up = [names[lane].removed(line) for entry, (lane, line) in before.items() if entry not in held]
    if given_up:
        step.notes.append(Note(Mood.COLLECTION, "gives up: " + ", ".join(given_up)))
