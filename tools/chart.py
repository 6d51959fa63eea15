"""A story as a drawing: a lane for each replica, from the first command above to the last below."""
from __future__ import annotations

from collections.abc import Callable, Iterator
from dataclasses import dataclass

from refusals import meaning
from story import Fate, Link, Message, Mood, Note, Span, Step, Story
from svg import Drawing, Point, columns, cut, text_width, visible

# Sizes, in pixels. Texts of a box have so many columns at most, and of a listing so many lines are shown.
SIZE = 12
LINE = 15
PADDING = 6
GAP = 12
MARGIN = 16
NUMBERS = 34
BAR = 6
HEAD = 26
NARROW, WIDE = 48, 96
BOX_COLUMNS = 38
BOX_LEAST = 90
# (of what is shown to who points at a box)
TITLE_COLUMNS = 400
LISTED = 4
TITLE_LINE = 17
# A message comes to the upper half of a box, and goes from the lower one.
SHIFT = 8

STYLE = """
text { white-space: pre; font: 12px "DejaVu Sans Mono", Menlo, Consolas, monospace; fill: #1f2328; }
.title { font: 13px sans-serif; } .number, .told { fill: #6e7781; } .number { font-size: 10px; }
.command { font-weight: bold; } .ok { fill: #1a7f37; } .no { fill: #b42318; }
.lane { stroke: #afb8c1; stroke-width: 2; fill: none; }
.down { stroke: #b42318; stroke-width: 2; stroke-dasharray: 3 4; }
.head { fill: #eaeef2; stroke: #8c959f; } .box { fill: #fff; stroke: #8c959f; }
.box-no { fill: #fff5f4; stroke: #d1242f; } .box-stop { fill: #fff8e5; stroke: #bf8700; stroke-width: 2; }
.box-store { fill: #fff5f4; stroke: #b42318; stroke-width: 3; }
.box-restart { fill: #f0fff4; stroke: #1a7f37; stroke-width: 2; }
.box-folded { fill: #f6f8fa; stroke: #8c959f; stroke-dasharray: 4 2; }
.message, .ask { stroke: #0550ae; stroke-width: 1.6; fill: none; } .ask { stroke-dasharray: 5 3; }
.link { stroke: #8c959f; stroke-width: 1.2; stroke-dasharray: 1 3; fill: none; }
.dot { fill: #0550ae; } .linked { fill: #8c959f; } .cross { stroke: #b42318; stroke-width: 2; fill: none; }
.lost, .numbered { fill: #b42318; font-size: 10px; paint-order: stroke; stroke: #fff; stroke-width: 3px; }
.numbered { fill: #0550ae; }
.conflict { fill: #b35900; } .orphan { fill: #8250df; } .collection { fill: #0550ae; }
.bar-conflict { fill: #f2a33a; } .bar-orphan { fill: #b392f0; }
"""
ARROW = ('<marker id="arrow" viewBox="0 0 10 10" refX="9" refY="5" markerWidth="7" markerHeight="7" orient="auto">'
         '<path d="M0 0 L10 5 L0 10 z" fill="#0550ae"/></marker>')


SHOWN_AS = {
    Mood.CONFLICT: "a conflict, for as long as the replica shows it",
    Mood.ORPHAN: "an orphan, for as long as the replica shows it",
}


@dataclass(frozen=True)
class Line:
    """A line of a box."""

    text: str
    style: str


@dataclass(frozen=True)
class Box:
    """A step with its lines, from its upper edge down."""

    step: Step
    lines: list[Line]
    top: float

    @property
    def height(self) -> float:
        return len(self.lines) * LINE + 2 * PADDING

    @property
    def middle(self) -> float:
        return self.top + self.height / 2

    @property
    def width(self) -> float:
        return max(text_width(line.text, SIZE) for line in self.lines) + 2 * PADDING


@dataclass(frozen=True)
class Lane:
    """Where a replica stands: its bars, then the column of its boxes."""

    left: float
    bars: int
    column: float

    @property
    def middle(self) -> float:
        return self.left + self.bars * BAR + self.column / 2

    @property
    def right(self) -> float:
        return self.left + self.bars * BAR + self.column


def _lines(step: Step) -> list[Line]:
    def line(text: str, style: str) -> Line:
        # (of a long text no more is made visible than is shown)
        return Line(cut(visible(text[:BOX_COLUMNS + 1]), BOX_COLUMNS), style)

    answer = step.answer
    lines = [line(step.text, "command"), line(answer.line, "no" if answer.refusal else "told" if step.folded else "ok")]
    means = meaning(answer.refusal) if answer.refusal else ""
    lines += _wrapped_lines(f"({means})", "told") if means else []
    shown = answer.listed if len(answer.listed) <= LISTED + 1 else answer.listed[:LISTED]
    lines += [line(told, "told") for told in shown]
    if len(shown) < len(answer.listed):
        lines.append(line(f"and {len(answer.listed) - len(shown)} more", "told"))
    return lines + [part for note in step.notes for part in _note_lines(note)]


def _note_lines(note: Note) -> list[Line]:
    return _wrapped_lines(note.text, note.mood.value)


def _wrapped_lines(told: str, style: str) -> list[Line]:
    """A text, in several lines where it is long, so that no name is cut off."""
    text = visible(told)
    lines = []
    while columns(text) > BOX_COLUMNS:
        front = text[:BOX_COLUMNS].rfind(" ")
        at = front if front > 0 else BOX_COLUMNS
        lines.append(Line(text[:at], style))
        text = "  " + text[at:].lstrip()
    return [*lines, Line(text, style)]


def _numbered(numbers: list[int]) -> str:
    """The numbers of messages, where they follow each other as `2 to 4`."""
    first, last = numbers[0], numbers[-1]
    if last - first == len(numbers) - 1 and last > first + 1:
        return f"{first} to {last}"
    return ", ".join(map(str, numbers))


def _box_style(step: Step) -> str:
    if step.folded:
        return "box-folded"
    if step.answer.refusal:
        return "box-store" if step.answer.refusal == "store" else "box-no"
    return {"stop": "box-stop", "restart": "box-restart"}.get(step.name, "box")


def _wrapped(text: str, width: float) -> list[str]:
    """A title in lines of so many pixels, by a width of letters that is on the safe side."""
    lines: list[str] = []
    for word in text.split():
        if lines and len(lines[-1]) + len(word) + 1 <= width / 7.2:
            lines[-1] += f" {word}"
        else:
            lines.append(word)
    return lines


class Chart:
    """Lays out a story and draws it."""

    def __init__(self, story: Story, title: str) -> None:
        self.story = story
        self.drawing = Drawing()
        self.bars = self._bars()
        self.gutter = WIDE if story.messages else NARROW
        self.lanes = self._lanes()
        self.width = max(self.lanes[-1].right + MARGIN, 420)
        self.title = _wrapped(visible(title), self.width - 2 * MARGIN)
        self.top = MARGIN + len(self.title) * TITLE_LINE + (8 if self.title else 0)
        self.boxes: dict[int, Box] = {}
        self.bottom = self._place_boxes(self.top + HEAD + GAP)

    # Layout

    def _bars(self) -> dict[int, list[list[Span]]]:
        """For each lane its spans of conflicts and orphans, in columns of which no two spans share a step."""
        order = {id(step): place for place, step in enumerate(self.story.steps)}
        bars: dict[int, list[list[Span]]] = {lane: [] for lane in range(1, self.story.lanes + 1)}
        for span in sorted(self.story.spans, key=lambda span: order[id(span.begin)]):
            if span.mood is None:
                continue
            for column in bars[span.lane]:
                last = column[-1].end
                if last is not None and order[id(last)] < order[id(span.begin)]:
                    column.append(span)
                    break
            else:
                bars[span.lane].append([span])
        return bars

    def _lanes(self) -> list[Lane]:
        widths = {lane: max(BOX_LEAST, text_width(self.story.head(lane), SIZE) + 2 * PADDING) for lane in self.bars}
        for step in self.story.steps:
            if step.lane:
                widths[step.lane] = max(widths[step.lane], Box(step, _lines(step), 0).width)
        lanes = []
        left = float(MARGIN + NUMBERS)
        for lane, width in widths.items():
            lanes.append(Lane(left, len(self.bars[lane]) + 1, width))
            left = lanes[-1].right + self.gutter
        return lanes

    def lane(self, number: int) -> Lane:
        return self.lanes[number - 1]

    def _place_boxes(self, top: float) -> float:
        for step in self.story.steps:
            box = Box(step, _lines(step), top)
            self.boxes[id(step)] = box
            top += box.height + GAP
        return top

    def box(self, step: Step) -> Box:
        return self.boxes[id(step)]

    def _edges(self, box: Box) -> tuple[float, float]:
        """The left and the right edge of a box: in its lane as wide as its texts, else over all lanes."""
        if not box.step.lane:
            return self.lanes[0].left, self.lanes[-1].right
        middle = self.lane(box.step.lane).middle
        return middle - box.width / 2, middle + box.width / 2

    def _edge_to(self, box: Box, lane: int) -> float:
        """The edge of a box that looks to another lane."""
        left, right = self._edges(box)
        return right if box.step.lane and lane > box.step.lane else left

    # Drawing

    def draw(self) -> str:
        self._draw_frame()
        for span in self.story.spans:
            if span.mood is None:
                self._draw_down(span)
        for lane, bar_columns in self.bars.items():
            for place, spans in enumerate(bar_columns):
                for span in spans:
                    self._draw_bar(span, self.lane(lane).left + place * BAR)
        for link in self.story.links:
            self._draw_link(link)
        for message in self.story.messages:
            self._draw_message(message)
        for step in self.story.steps:
            self._draw_box(self.box(step))
        height = self._draw_legend(self.bottom + GAP)
        size = f'width="{self.width:.0f}" height="{height:.0f}" viewBox="0 0 {self.width:.0f} {height:.0f}"'
        head = f'<svg xmlns="http://www.w3.org/2000/svg" {size}>\n<style>{STYLE}</style>\n<defs>{ARROW}</defs>\n'
        ground = '<rect width="100%" height="100%" fill="#fff"/>\n'
        return head + ground + "\n".join(self.drawing.elements) + "\n</svg>\n"

    def _draw_frame(self) -> None:
        for place, line in enumerate(self.title):
            self.drawing.text((MARGIN, MARGIN + 12 + place * TITLE_LINE), line, "title")
        for number, lane in enumerate(self.lanes, 1):
            self.drawing.path([(lane.middle, self.top + HEAD), (lane.middle, self.bottom)], "lane")
            head = self.story.head(number)
            width = max(text_width(head, SIZE) + 2 * PADDING, 88)
            self.drawing.add("rect", None, x=lane.middle - width / 2, y=self.top, width=width, height=HEAD, rx=12,
                             class_="head")
            self.drawing.text((lane.middle, self.top + 17), head, "name", text_anchor="middle")

    def _draw_down(self, span: Span) -> None:
        x = self.lane(span.lane).middle
        end = self.box(span.end).top if span.end else self.bottom
        points = [(x, self.box(span.begin).top), (x, end)]
        self.drawing.path(points, "lane", style="stroke: #fff")
        self.drawing.path(points, "down")

    def _draw_bar(self, span: Span, x: float) -> None:
        assert span.mood
        top = self.box(span.begin).top
        end = self.box(span.end).top + self.box(span.end).height if span.end else self.bottom
        self.drawing.add("rect", None, x=x, y=top, width=BAR - 2, height=end - top, rx=2,
                         class_=f"bar-{span.mood.value}")

    def _draw_link(self, link: Link) -> None:
        box = self.box(link.step)
        edge = (self._edge_to(box, link.lane), box.middle)
        other = (self.lane(link.lane).middle, box.middle)
        self.drawing.add("circle", None, cx=other[0], cy=other[1], r=4, class_="dot" if link.is_pull else "linked")
        if link.is_pull:
            self.drawing.path([other, edge], "message", marker_end="url(#arrow)")
        else:
            self.drawing.path([other, edge], "link")

    def _draw_message(self, message: Message) -> None:
        style = "ask" if message.is_ask else "message"
        begin = self.box(message.sender)
        lane = message.sender.lane or message.to
        forward = 1 if message.to > lane else -1
        start = (self._edge_to(begin, message.to), begin.middle + SHIFT)
        if not message.taken:
            self._draw_lost(start, self._brink(lane, forward), forward, style, f"{_numbered(message.numbers)} lost")
            return
        end_box = self.box(message.taken)
        end = (self._edge_to(end_box, lane), end_box.middle - SHIFT)
        # Along the row of its sender, where no other box is, up to the gutter before the lane of its receiver.
        brink = (self._brink(message.to, -forward) - forward * self.gutter, start[1])
        near = (self._brink(message.to, -forward), end[1])
        self.drawing.path([start, brink, near, end], style, marker_end="url(#arrow)")
        # Close to its receiver, where no other message comes by; its number below, since it comes from above.
        if message.fate in (Fate.STALE, Fate.MIXED):
            self.drawing.cross((near[0] - forward * 6, near[1] - 2), "cross", 4)
        below = 11 if message.fate is Fate.TAKEN else 14
        self.drawing.text((near[0] - forward * 4, near[1] + below), _numbered(message.numbers), "numbered",
                          text_anchor="end" if forward > 0 else "start")

    def _brink(self, lane: int, side: int) -> float:
        """Where the boxes of a lane end, to the right of it or to the left."""
        return self.lane(lane).right if side > 0 else self.lane(lane).left

    def _draw_lost(self, start: Point, brink: float, forward: int, style: str, told: str) -> None:
        """A message that ends in the air between two lanes: on the row of its sender, which those that come leave."""
        end = (brink + forward * self.gutter * 0.35, start[1])
        self.drawing.path([start, end], style)
        self.drawing.cross(end, "cross", 4)
        self.drawing.text((end[0] + forward * 8, end[1] + 4), told, "lost",
                          text_anchor="start" if forward > 0 else "end")

    def _draw_box(self, box: Box) -> None:
        left, right = self._edges(box)
        self.drawing.begin(cut(visible(box.step.whole[:TITLE_COLUMNS + 1]), TITLE_COLUMNS))
        self.drawing.text((MARGIN + NUMBERS - 10, box.top + PADDING + 10), str(box.step.number), "number",
                          text_anchor="end")
        self.drawing.add("rect", None, x=left, y=box.top, width=right - left, height=box.height, rx=4,
                         class_=_box_style(box.step))
        for place, line in enumerate(box.lines):
            self.drawing.text((left + PADDING, box.top + PADDING + 11 + place * LINE), line.text, line.style)
        self.drawing.end()

    def _draw_legend(self, top: float) -> float:
        """What the signs mean that are in the drawing; gives where it ends."""
        told = list(self._signs())
        for draw, text in told:
            middle = top + LINE / 2
            draw(MARGIN, middle)
            self.drawing.text((MARGIN + 48, middle + 4), text, "told")
            top += LINE + 4
        return top + MARGIN - GAP / 2

    def _signs(self) -> Iterator[tuple[Callable[[float, float], None], str]]:
        """How to draw each sign that is in the drawing, from a place on, and what it means."""
        links = {link.is_pull for link in self.story.links}
        asks = {message.is_ask for message in self.story.messages}
        moods = {span.mood for span in self.story.spans}
        if True in links or False in asks:
            part = ", or a piece of it" if any(message.is_piece for message in self.story.messages) else ""
            yield self._line("message", marker_end="url(#arrow)"), f"what a replica holds{part}, brought to another"
        if True in asks:
            yield self._line("ask", marker_end="url(#arrow)"), "an ask for it"
        fates = {message.fate for message in self.story.messages}
        refused = [fate.value for fate in (Fate.STALE, Fate.MIXED) if fate in fates]
        if Fate.LOST in fates:
            yield self._lost_sign, "a message that is lost: it never comes"
        if self.story.messages:
            yield self._number_sign, "the number of a message, as its sender was answered"
        if refused:
            yield self._refused_sign, f"a {' or '.join(refused)} message, of which nothing is taken"
        if False in links:
            yield self._line("link"), "a comparison of two"
        for mood in (Mood.CONFLICT, Mood.ORPHAN):
            if mood in moods:
                yield self._bar_sign(mood), SHOWN_AS[mood]
        if None in moods:
            yield self._line("down"), "the replica is down"

    def _line(self, style: str, **attributes: str) -> Callable[[float, float], None]:
        return lambda x, y: self.drawing.path([(x, y), (x + 38, y)], style, **attributes)

    def _lost_sign(self, x: float, y: float) -> None:
        self.drawing.path([(x, y), (x + 30, y)], "message")
        self.drawing.cross((x + 30, y), "cross", 4)

    def _number_sign(self, x: float, y: float) -> None:
        self.drawing.text((x + 19, y + 4), "7", "numbered", text_anchor="middle")

    def _refused_sign(self, x: float, y: float) -> None:
        self.drawing.cross((x + 19, y), "cross")

    def _bar_sign(self, mood: Mood) -> Callable[[float, float], None]:
        return lambda x, y: self.drawing.add("rect", None, x=x + 17, y=y - 7, width=BAR - 2, height=14, rx=2,
                                             class_=f"bar-{mood.value}")
