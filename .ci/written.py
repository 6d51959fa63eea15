"""The grammar of a line of a script, as docs/FORMATS.md writes it, over the bytes of a line as characters."""
import re
from functools import cache
from pathlib import Path

DOCUMENT = Path(__file__).resolve().parent.parent / "docs" / "FORMATS.md"
TOKEN = re.compile(r"\"[^\"]*\"|'[^']*'|[\w]+|[{}\[\]|-]")
ESCAPED = re.compile(r"\\x[0-9a-f]{2}|\\.|.", re.DOTALL)
# The letters for bytes that stand for themselves in a rule.
BYTES = {"LF": "\n", "any": "".join(map(chr, set(range(256)) - {10}))}


def written(block):
    """The rules of a block of the document: each with its tokens and its note."""
    rules, name = {}, None
    for line in block.splitlines():
        head, _, rest = line.strip().partition("= ") if re.match(r" {4}\w+ *= ", line) else ("", "", line.strip())
        rule, _, note = rest.partition("   ")
        name = head.strip() or name
        tokens, notes = rules.setdefault(name, ([], []))
        ranges = re.findall(r"0x(\w\w) to 0x(\w\w)", rule)
        tokens += [("bytes", "".join(chr(byte) for first, last in ranges for byte in range(int(first, 16), int(last, 16) + 1)))
                   ] if ranges else TOKEN.findall(rule)
        notes.append(note.strip())
    return {name: (tokens, " ".join(notes).strip()) for name, (tokens, notes) in rules.items()}


def blocks():
    """The grammar of scripts, and the rules that take the place of some of it over several volumes, and of a replica on a
    machine of its own."""
    return re.findall(r"(?:^    (?:\w+ *= |  +\| ).*\n)+", DOCUMENT.read_text(encoding="utf-8"), re.MULTILINE)


class Grammar:
    """The rules, and where a match of one may end."""

    def __init__(self, volumes, is_alone=False):
        first, several, alone = map(written, blocks()[:3])
        self.volumes = volumes
        self.rules = {**first, **(several if volumes else {}), **(alone if is_alone else {})}
        self.line = ""

    def is_line(self, line):
        self.line = line
        self.ends.cache_clear()
        return len(line) in self.ends("line", 0)

    @cache
    def ends(self, name, place):
        """Where a match of the rule may end that begins at the place, as its note says."""
        if name in BYTES:
            return {place + 1} if self.line[place:place + 1] in tuple(BYTES[name]) else set()
        tokens, note = self.rules[name]
        if tokens and isinstance(tokens[0], tuple):
            return {place + 1} if place < len(self.line) and self.line[place] in tokens[0][1] else set()
        found, rest = self.choice(tokens, {place})
        assert not rest, f"{name}: {rest}"
        return {end for end in found if self.holds(note, self.line[place:end])}

    def choice(self, tokens, places):
        """Where one of the ways may end, and the tokens behind them."""
        found = set()
        while True:
            ends, tokens = self.sequence(tokens, places)
            found |= ends
            if tokens[:1] != ["|"]:
                return found, tokens
            tokens = tokens[1:]

    def sequence(self, tokens, places):
        while tokens and tokens[0] not in ("|", "}", "]"):
            before, (places, tokens) = places, self.item(tokens, places)
            while tokens[:1] == ["-"]:
                without, tokens = self.item(tokens[1:], before)
                places = places - without
        return places, tokens

    def item(self, tokens, places):
        token, rest = tokens[0], tokens[1:]
        if token == "[":
            ends, rest = self.choice(rest, places)
            return places | ends, rest[1:]
        if token == "{":
            reached = set(places)
            while True:
                ends, behind = self.choice(rest, places)
                places = ends - reached
                if not places:
                    return reached, behind[1:]
                reached |= places
        if token[0] in "\"'":
            text = token[1:-1]
            return {place + len(text) for place in places if self.line.startswith(text, place)}, rest
        return set().union(*(self.ends(token, place) for place in places)), rest

    def holds(self, note, matched):
        """Whether what the note says of a rule is so of this."""
        number = re.search(r"(\d+)$", matched)
        limits = re.match(r"(?:(\d+) to|at most) (\d+|V)( components| bytes)?", note)
        if "neither a sweep nor a why" in note:
            return not re.search(r"^(@\d )?(sweep|\d+ why)\b", matched)
        if "none of give" in note:
            return not re.search(r"^((give|pull|alike|stop|sweep)\b|\d+ why$)", matched)
        if not limits:
            return True
        least, most = int(limits[1] or 0), self.volumes if limits[2] == "V" else int(limits[2])
        if limits[3] == " components":
            return matched.count("/") <= most
        if limits[3] == " bytes":
            return least <= len(ESCAPED.findall(matched)) <= most and matched not in (".", "..")
        return number is not None and least <= int(number[1]) <= most
