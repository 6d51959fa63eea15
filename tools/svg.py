"""Shapes and texts of a drawing."""
from __future__ import annotations

import unicodedata
from dataclasses import dataclass, field
from html import escape
from itertools import accumulate

from spelling import to_bytes

# Of one character of the script's typeface, by the size of the type; some typefaces are narrower.
WIDTH_BY_SIZE = 0.61

Point = tuple[float, float]


def visible(text: str) -> str:
    """The text with what no typeface has, and what no page may have, spelled by its bytes."""
    return "".join(one if one.isprintable() else "".join(f"\\x{byte:02x}" for byte in to_bytes(one)) for one in text)


def _columns_of(one: str) -> int:
    return 2 if unicodedata.east_asian_width(one) in "WF" else 1


def columns(text: str) -> int:
    """How many columns a visible text takes."""
    return sum(map(_columns_of, text))


def cut(text: str, most: int) -> str:
    """The text, or its beginning and three points where it has more columns."""
    # (a long text is looked at no further than it is shown)
    if columns(text[:most + 1]) <= most:
        return text
    ends = accumulate(map(_columns_of, text[:most]))
    return text[:sum(end <= most - 3 for end in ends)] + "..."


def text_width(text: str, size: float) -> float:
    return columns(text) * size * WIDTH_BY_SIZE


def _number(number: float) -> str:
    return f"{number:.1f}".removesuffix(".0")


def _attribute(key: str, value: float | str) -> str:
    told = escape(value) if isinstance(value, str) else _number(value)
    return f' {key.rstrip("_").replace("_", "-")}="{told}"'


@dataclass
class Drawing:
    """Elements in the order in which they lie over each other."""

    elements: list[str] = field(default_factory=list)

    def add(self, name: str, text: str | None = None, /, **attributes: float | str) -> None:
        told = "".join(_attribute(key, value) for key, value in attributes.items())
        content = "/>" if text is None else f">{escape(text, quote=False)}</{name}>"
        self.elements.append(f"<{name}{told}{content}")

    def text(self, place: Point, text: str, class_: str, **attributes: float | str) -> None:
        self.add("text", text, x=place[0], y=place[1], class_=class_, **attributes)

    def path(self, points: list[Point], class_: str, **attributes: float | str) -> None:
        told = "M" + " L".join(f"{_number(x)} {_number(y)}" for x, y in points)
        self.add("path", None, d=told, class_=class_, **attributes)

    def cross(self, place: Point, class_: str, size: float = 5) -> None:
        x, y = place
        self.path([(x - size, y - size), (x + size, y + size)], class_)
        self.path([(x - size, y + size), (x + size, y - size)], class_)

    def begin(self, title: str) -> None:
        """Begins a group with a title, which a page shows to who points at it."""
        self.elements.append(f"<g><title>{escape(title, quote=False)}</title>")

    def end(self) -> None:
        self.elements.append("</g>")
