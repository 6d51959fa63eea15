"""Long stories, folded."""
from __future__ import annotations

from collections import Counter

from answers import Answer
from story import Span, Step, Story

# Up to so many commands nothing is folded. Above, those of one replica that stand together, at least so many of them,
# and with which nothing begins or ends; and where more steps are left, all but the first and the last of them.
UNFOLDED = 80
LEAST = 4


def fold(story: Story) -> None:
    if len(story.steps) > UNFOLDED:
        _fold_plain(story)
    if len(story.steps) > UNFOLDED:
        _fold_middle(story)


def _fold_plain(story: Story) -> None:
    needed = _steps_of_signs(story)
    steps: list[Step] = []
    group: list[Step] = []
    for step in story.steps:
        plain = step.lane is not None and not step.notes and id(step) not in needed
        if group and not (plain and step.lane == group[0].lane):
            steps += _folded(group)
            group = []
        (group if plain else steps).append(step)
    story.steps = steps + _folded(group)


def _steps_of_signs(story: Story) -> set[int]:
    """The steps at which arrows, lines and bars begin or end."""
    found = [link.step for link in story.links]
    found += [step for message in story.messages for step in (message.sender, message.taken) if step]
    found += [step for span in story.spans for step in (span.begin, span.end) if step]
    return set(map(id, found))


def _folded(group: list[Step]) -> list[Step]:
    return [_as_one(group, group[0].lane)] if len(group) >= LEAST else group


def _as_one(group: list[Step], lane: int | None) -> Step:
    """One step for several: how many of each command they are, and how many of each answer."""
    parts = [part for step in group for part in step.folded or [step]]
    ends = Counter(f"no {part.answer.refusal}" if part.answer.refusal else part.answer.line.split(" ")[0]
                   for part in parts)
    names = Counter(part.name for part in parts)
    whole = f"{len(parts)} commands, from line {parts[0].number} to line {parts[-1].number}"
    return Step(parts[0].number, _counted(names), lane, Answer(_counted(ends)), whole, [], parts)


def _counted(counter: Counter[str]) -> str:
    return ", ".join(f"{count} {what}" for what, count in counter.most_common())


def _fold_middle(story: Story) -> None:
    """Leaves the first and the last steps, and of signs those that can be drawn there."""
    side = UNFOLDED // 2
    middle = story.steps[side:-side]
    one = _as_one(middle, None)
    gone = set(map(id, middle))
    story.steps = [*story.steps[:side], one, *story.steps[-side:]]
    story.links = [link for link in story.links if id(link.step) not in gone]
    story.messages = [
        message for message in story.messages
        if id(message.sender) not in gone and (message.taken is None or id(message.taken) not in gone)
    ]

    def kept(step: Step) -> Step:
        return one if id(step) in gone else step

    spans = [Span(it.lane, kept(it.begin), it.end and kept(it.end), it.mood) for it in story.spans]
    story.spans = [span for span in spans if not (span.begin is one and span.end is one)]
