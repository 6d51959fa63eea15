"""The modes of the program, their options, and what is wrong with words that fit none.

A word that isn't an option's is a value: the mode first, then the folder of a volume. The words fit a mode exactly where
the program takes them (`docs/FORMATS.md`), so whatever is wrong is said before anything is built.
"""
from __future__ import annotations

from built import COMMAND
from faults import Fault, Status

# (what takes long to import is imported where it is needed, here and wherever each call comes by)
TYPE_CHECKING = False
if TYPE_CHECKING:
    from collections.abc import Mapping, Sequence


class Option:
    """An option with a number: its letter in the usage, what it says, its least and its greatest value, and that in
    words."""

    # What stands behind it, and the option without which it says nothing.
    value = "a number"
    beside: Option | None = None

    def __init__(self, name: str, letter: str, what: str, least: int, most: int, rule: str) -> None:
        self.name = name
        self.letter = letter
        self.what = what
        self.least = least
        self.most = most
        self.rule = rule

    @property
    def help(self) -> str:
        return f"{self.what}, {self.least:,} to {self.most:,}"

    def why_none(self, value: str) -> str | None:
        """Why this is no number of the option, or nothing where it is one."""
        if not (value.isascii() and value.isdigit()):
            return f"{value} is no number; {self.rule}"
        if value != "0" and value.startswith("0"):
            return f"{value} has zeros in front"
        if len(value) > len(str(self.most)) or not self.least <= int(value) <= self.most:
            return f"{value}: {self.rule}"
        return None


class TagOption(Option):
    """The option with the tag of a volume, which stands only beside another one."""

    value = "32 hexadecimal digits"

    def __init__(self, name: str, letter: str, what: str, beside: Option) -> None:
        super().__init__(name, letter, what, 0, 0, "")
        self.beside = beside

    @property
    def help(self) -> str:
        return f"{self.what}, {self.value}"

    def why_none(self, value: str) -> str | None:
        if len(value) == TAG_DIGITS and set(value) <= HEX_DIGITS:
            return None
        return f"{value}: a tag has {self.value}"


TAG_DIGITS = 32
HEX_DIGITS = set("0123456789abcdefABCDEF")
MEMBERS = Option("--members", "N", "how many replicas keep the volume", 2, 8, "a volume has 2 to 8 members")
IDS = Option("--ids", "I", "how many updates each replica may make over its life", 1, 100_000,
             "a replica makes 1 to 100,000 updates over its life")
BYTES = Option("--bytes", "B", "how many bytes each replica may write over its life", 0, 4_194_304,
               "a replica writes at most 4,194,304 bytes over its life")
VOLUMES = Option("--volumes", "V", "how many volumes there are", 1, 4, "there are 1 to 4 volumes")
REPLICA = Option("--replica", "R", "the number of the replica that this machine keeps", 1, 8,
                 "replicas have the numbers 1 to 8")
TAG = TagOption("--tag", "HEX", "the tag of the volume's messages, the same on all its machines", REPLICA)
SEED = Option("--seed", "S", "the seed from which the script is generated", 0, 2_147_483_647,
              "a seed is 0 to 2,147,483,647")
STEPS = Option("--steps", "T", "how many steps the script has", 0, 5_000, "a generated script has at most 5,000 steps")
OPTIONS = {it.name: it for it in (MEMBERS, IDS, BYTES, VOLUMES, REPLICA, TAG, SEED, STEPS)}

STRICT = "--strict"
ALL = "--all"
JSON = "--json"
# Words of the launcher's own, which the program doesn't see, with what they do.
FLAGS = {
    STRICT: "ends with 74 if a command was refused",
    ALL: "lists each line that isn't a command, and executes nothing",
    JSON: "prints each answer as one JSON value on a line of its own",
}


class Mode:
    """A mode: what it does, which options it needs and which it may have, whether it wants the folder of a volume,
    whether it reads a script, and which of the launcher's own words it may have."""

    def __init__(self, name: str, does: str, needs: tuple[Option, ...] = (), may_have: tuple[Option, ...] = (), *,
                 has_root: bool = False, has_script: bool = False, flags: tuple[str, ...] = ()) -> None:
        self.name = name
        self.does = does
        self.needs = needs
        self.may_have = may_have
        self.has_root = has_root
        self.has_script = has_script
        self.flags = tuple(FLAGS) if has_script else flags

    @property
    def form(self) -> str:
        """Its words, as the program takes them."""
        words = [self.name, *(f"{it.name} {it.letter}" for it in self.needs)]
        words += [self._form_of(it) for it in self.may_have if not it.beside]
        return " ".join(words + ["ROOT"] * self.has_root)

    def _form_of(self, option: Option) -> str:
        """An option that may be there, with those that may stand beside it."""
        beside = [self._form_of(it) for it in self.may_have if it.beside is option]
        return f"[{' '.join([option.name, option.letter, *beside])}]"

    @property
    def usage(self) -> str:
        return f"usage: {COMMAND} {self.form}" + " <SCRIPT" * self.has_script

    @property
    def help(self) -> str:
        """All of its words, with what each means."""
        rows = [(f"{it.name} {it.letter}", it.help) for it in (*self.needs, *self.may_have)]
        rows += [("ROOT", "the folder of the volume")] * self.has_root
        rows += [(flag, FLAGS[flag]) for flag in self.flags]
        width = max(len(word) for word, _ in rows)
        return "\n".join([self.usage, "", self.does, "", *(f"    {word:{width}}  {what}" for word, what in rows)])


INIT = Mode("init", "Makes an empty volume in the folder ROOT. With --replica it makes only this replica, in ROOT/R; the others\n"
            "are made on machines of their own, with the same tag and the same N, I and B. Without --tag one is chosen\n"
            "at random, and told.",
            (MEMBERS,), (REPLICA, TAG, IDS, BYTES), has_root=True)
RUN = Mode("run", "Executes a script on the volume in ROOT, and answers each command on standard output.",
           has_root=True, has_script=True)
MEMBER = Mode("member", "Executes a script of replica R in ROOT/R. The volume's other replicas are on machines of their own.\n"
              "Messages from them are files in ROOT/R/in, and those to them are put into ROOT/R/out.", (REPLICA,),
              has_root=True, has_script=True)
CHECK = Mode("check", "Reports for each replica of the volume in ROOT whether its files are damaged.", has_root=True,
             flags=(JSON,))
REPLAY = Mode("replay", "Executes a script on a fresh volume in memory, and keeps nothing.", (MEMBERS,),
              (IDS, BYTES), has_script=True)
VOLUMES_MODE = Mode("volumes", "Executes a script on several fresh volumes in memory, joined by names.",
                    (MEMBERS, VOLUMES), (IDS, BYTES), has_script=True)
GEN = Mode("gen", "Executes a script generated from a seed, in memory, and prints a summary.",
           (MEMBERS, SEED, STEPS))
MODES = {it.name: it for it in (INIT, RUN, MEMBER, CHECK, REPLAY, VOLUMES_MODE, GEN)}


class Misuse(Fault):
    """The words fit no mode."""

    def __init__(self, words: str, usage: str) -> None:
        super().__init__(f"{words}\n{usage}", Status.USAGE)


class Call:
    """Words that fit a mode: those for the program, the folder, what the options say, and the launcher's own."""

    def __init__(self, mode: Mode, words: Sequence[str], root: str | None, given: Mapping[str, str], flags: set[str]) -> None:
        self.mode = mode
        self.words = words
        self.root = root
        self.given = given
        self.flags = flags

    @property
    def volumes(self) -> int:
        """How many volumes there are where they are numbered."""
        return int(self.given.get(VOLUMES.name, "0"))

    @property
    def replica(self) -> int | None:
        """The replica that is on this machine, where the words are of one alone."""
        return int(self.given[REPLICA.name]) if REPLICA.name in self.given else None

    @property
    def needs_tag(self) -> bool:
        """Whether a replica is to be made alone, and no tag is given for it."""
        return self.mode is INIT and self.replica is not None and TAG.name not in self.given

    def with_tag(self, tag: str) -> Call:
        """The same with this tag."""
        return Call(self.mode, [f"{TAG.name}={tag}", *self.words], self.root, {**self.given, TAG.name: tag}, self.flags)

    @property
    def folder(self) -> str | None:
        """The folder that the program uses: that of the volume, or of one replica in it."""
        if self.root is None or self.replica is None:
            return self.root
        return f"{self.root}/{self.replica}"


def is_value(word: str) -> bool:
    """Whether a word may stand alone, or behind an option."""
    return word == "-" or not word.startswith("-")


def place_of_mode(words: Sequence[str]) -> int | None:
    """Where the first value stands, which is to be a mode or a tool. What stands behind an option is none."""
    place = 0
    while place < len(words):
        word = words[place]
        if word == "--":
            return place + 1 if place + 1 < len(words) else None
        if is_value(word):
            return place
        place += 2 if word in OPTIONS else 1
    return None


def likely(word: str, known: Sequence[str]) -> str:
    """What was meant, as a question, where something known is like it."""
    from difflib import get_close_matches
    found = get_close_matches(word.lower(), known, 1, 0.6)
    return f" (did you mean {found[0]}?)" if found else ""


def judge(mode: Mode, words: Sequence[str]) -> Call:
    """The words, the mode's name among them, where they fit it."""
    given, values, flags, kept = _read(mode, words)
    for option in mode.needs:
        if option.name not in given:
            raise Misuse(f"{mode.name} needs {option.name} {option.letter}, {option.what}", mode.usage)
    for name, value in given.items():
        why = OPTIONS[name].why_none(value)
        if why:
            raise Misuse(f"{name} {why}", mode.usage)
        _look_beside(mode, OPTIONS[name], given)
    rest = values[1:]
    if mode.has_root and not rest:
        raise Misuse(f"{mode.name} needs ROOT, the folder of the volume", mode.usage)
    if mode.has_root and not rest[0]:
        raise Misuse("ROOT is empty", mode.usage)
    if len(rest) > mode.has_root:
        raise Misuse(f"{mode.name} takes no {rest[mode.has_root]!r}" + _script_hint(mode), mode.usage)
    return Call(mode, kept, rest[0] if mode.has_root else None, given, flags)


def _look_beside(mode: Mode, option: Option, given: Mapping[str, str]) -> None:
    """Refuses an option by what the others say."""
    beside = option.beside
    if beside and beside.name not in given:
        raise Misuse(f"{option.name} is only for a replica on a machine of its own: {beside.name} {beside.letter} is "
                     "missing", mode.usage)
    count = given.get(MEMBERS.name, "")
    if option is REPLICA and not MEMBERS.why_none(count or "8") and int(given[option.name]) > int(count or "8"):
        raise Misuse(f"{option.name} {given[option.name]}: with {MEMBERS.name} {count} the replicas are 1 to {count}",
                     mode.usage)


def _script_hint(mode: Mode) -> str:
    return ": a script comes on standard input" if mode.has_script else ""


def _read(mode: Mode, words: Sequence[str]) -> tuple[Mapping[str, str], list[str], set[str], list[str]]:
    """The options with their values, the values that stand alone, the launcher's own words, and all others."""
    given: dict[str, str] = {}
    values: list[str] = []
    flags: set[str] = set()
    kept: list[str] = []
    allowed = [it.name for it in (*mode.needs, *mode.may_have)]
    rest = iter(words)
    for word in rest:
        if word in mode.flags:
            flags.add(word)
            continue
        kept.append(word)
        if word == "--":
            behind = list(rest)
            values += behind
            kept += behind
            break
        if is_value(word):
            values.append(word)
        else:
            name, joined, value = word.partition("=")
            if name not in allowed:
                raise Misuse(f"{mode.name} has no option {name}{likely(name, [*allowed, *mode.flags])}", mode.usage)
            if not joined:
                value = next(rest, "--")
                kept.append(value)
                if not is_value(value):
                    raise Misuse(f"{name} needs {OPTIONS[name].value} behind it, {OPTIONS[name].what}", mode.usage)
            if name in given:
                raise Misuse(f"{name} is given twice", mode.usage)
            given[name] = value
    return given, values, flags, kept
