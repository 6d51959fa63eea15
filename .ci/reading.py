"""A second reading of what the files of a replica hold, written from docs/FORMATS.md and docs/MODEL.md alone."""
import struct
from dataclasses import dataclass, replace
from typing import NamedTuple

UPDATES = 100_000
BYTES = 4_194_304
FILE_BYTES = 16_384
LINK_BYTES = 1_024
NAME_BYTES = 64
VERSIONS = 8
LAST_GENERATION = 2**63 - 1
# A volume is opened from fewer saves than this of each replica.
OPENED_BELOW = 2**62

ROOT = (0, 0)
ATTIC = (0, 1)
DIRECTORY = 0
LINK = 5
KINDS = 6


class Refused(Exception):
    """The bytes spell nothing, or what they spell doesn't fit."""


def need(holds):
    if not holds:
        raise Refused


class Entry(NamedTuple):
    directory: tuple
    name: bytes
    target: tuple
    # None while it is live; else the two sets, as bits.
    marks: tuple | None


class File(NamedTuple):
    kind: int
    # Vectors with their bytes, rising.
    versions: tuple
    cover: tuple


@dataclass(frozen=True)
class Saved:
    me: int
    members: int
    ids: int
    bytes: int
    next: int
    used: int
    generation: int
    entries: dict
    files: dict


class Reader:
    """Takes one value after the other from bytes."""

    def __init__(self, data):
        self.data = data
        self.at = 0

    def take(self, count):
        need(self.at + count <= len(self.data))
        self.at += count
        return self.data[self.at - count:self.at]

    def number(self, size):
        return int.from_bytes(self.take(size), "big")

    def identifier(self):
        return self.number(1), self.number(4)

    def name(self):
        name = self.take(self.number(1))
        need(1 <= len(name) <= NAME_BYTES and not set(name) & set(b"\0/#") and name not in (b".", b".."))
        return name

    def counts(self, members):
        return tuple(self.number(4) for _ in range(members))

    def end(self):
        need(self.at == len(self.data))


def covers(one, other):
    return all(mine >= theirs for mine, theirs in zip(one, other))


def joined(one, other):
    return tuple(map(max, one, other))


def is_issuable(identifier, members):
    return 1 <= identifier[0] <= members and 1 <= identifier[1] <= UPDATES


def has_members_only(marks, members):
    return marks < 1 << members


def read_tables(reader, members):
    """Entries and files by their identifiers."""
    entries, files = {}, {}
    last = (-1, -1)
    for _ in range(reader.number(4)):
        identifier, entry = read_entry(reader, members)
        need(last < identifier)
        entries[identifier] = entry
        last = identifier
    last = (-1, -1)
    for _ in range(reader.number(4)):
        identifier, file = read_file(reader, members)
        need(last < identifier)
        files[identifier] = file
        last = identifier
    for entry in entries.values():
        need(entry.target in files and (entry.directory in (ROOT, ATTIC) or entry.directory in files))
    return entries, files


def read_entry(reader, members):
    identifier, directory = reader.identifier(), reader.identifier()
    name, target, state = reader.name(), reader.identifier(), reader.number(1)
    need(state in (0, 1))
    marks = (reader.number(1), reader.number(1)) if state else None
    need(is_issuable(identifier, members) and is_issuable(target, members))
    need(directory in (ROOT, ATTIC) or is_issuable(directory, members))
    need(marks is None or marks[0] and all(has_members_only(each, members) for each in marks))
    need(marks is not None or directory != ATTIC)
    return identifier, Entry(directory, name, target, marks)


def read_file(reader, members):
    identifier, kind = reader.identifier(), reader.number(1)
    versions = tuple(read_version(reader, members) for _ in range(reader.number(1)))
    file = File(kind, versions, reader.counts(members))
    need(is_issuable(identifier, members) and kind < KINDS)
    need(all(count <= UPDATES for count in file.cover))
    if kind == DIRECTORY:
        need(not versions and not any(file.cover))
    else:
        need(1 <= len(versions) <= VERSIONS)
        vectors = [vector for vector, _ in versions]
        need(all(one < other and not covers(other, one) for at, one in enumerate(vectors) for other in vectors[at + 1:]))
    need(kind != LINK or is_one_text(versions))
    return identifier, file


def is_one_text(versions):
    """Whether these may be the versions of a symbolic link."""
    return len(versions) == 1 and 1 <= len(versions[0][1]) <= LINK_BYTES


def read_version(reader, members):
    counts = reader.counts(members)
    text = reader.take(reader.number(2))
    need(len(text) <= FILE_BYTES and all(count <= UPDATES for count in counts))
    return counts, text


def holds_own_past(me, next_one, entries, files):
    """Whether all that is of this replica is of updates that it has made."""
    identifiers = [each for key, entry in entries.items() for each in (key, entry.directory, entry.target)]
    vectors = [each for file in files.values() for each in [vector for vector, _ in file.versions] + [file.cover]]
    return all(number < next_one for replica, number in [*identifiers, *files] if replica == me) and all(
        vector[me - 1] < next_one for vector in vectors)


def read_image(data):
    reader = Reader(data)
    begin = reader.take(4)
    need(begin in (b"FIC1", b"FIC2"))
    me, members = reader.number(1), reader.number(1)
    ids, most, next_one, used, generation = (reader.number(size) for size in (4, 4, 4, 4, 8))
    need(2 <= members <= 8 and 1 <= me <= members and 1 <= ids <= UPDATES and most <= BYTES)
    need(1 <= next_one <= ids + 1 and used <= most and generation <= LAST_GENERATION)
    entries, files = read_tables(reader, members)
    reader.end()
    need(holds_own_past(me, next_one, entries, files))
    need(begin == b"FIC2" or all(file.kind != LINK for file in files.values()))
    return Saved(me, members, ids, most, next_one, used, generation, entries, files)


def bits(replica):
    return 1 << (replica - 1)


class Change:
    """What an update of the replica makes of what it saved: its entries and files, and what it writes."""

    def __init__(self, saved):
        need(saved.next <= saved.ids)
        self.saved = saved
        self.own = (saved.me, saved.next)
        self.entries, self.files = dict(saved.entries), dict(saved.files)
        self.written = 0

    def is_place(self, directory):
        return directory == ROOT or self.is_held(directory) and self.files[directory].kind == DIRECTORY

    def is_held(self, identifier):
        return identifier in self.files

    def is_file(self, identifier):
        return self.is_held(identifier) and self.files[identifier].kind != DIRECTORY

    def make(self, directory, name, kind, texts):
        """An object with one version of each of these texts, and an entry that leads to it."""
        need(self.is_place(directory))
        first = tuple(int(replica == self.saved.me) for replica in range(1, self.saved.members + 1))
        self.files[self.own] = File(kind, tuple((first, text) for text in texts), (0,) * self.saved.members)
        self.insert(directory, name, self.own)
        self.spend(sum(map(len, texts)))

    def spend(self, count):
        need(self.saved.used + count <= self.saved.bytes)
        self.written = count

    def insert(self, directory, name, target, marks=None):
        self.entries[self.own] = Entry(directory, name, target, marks)

    def kill(self, identifiers, target):
        need(identifiers)
        for each in identifiers:
            entry = self.entries.get(each)
            need(entry and entry.marks is None and entry.target == target)
            self.entries[each] = entry._replace(marks=(bits(self.saved.me), 0))

    def cover(self, identifier):
        file = self.files[identifier]
        for vector, _ in file.versions:
            file = file._replace(cover=joined(file.cover, vector))
        self.files[identifier] = file

    def write(self, identifier, text):
        need(self.is_file(identifier) and len(text) <= FILE_BYTES)
        file = self.files[identifier]
        need(file.kind != LINK)
        self.spend(len(text))
        vector = (0,) * self.saved.members
        for each, _ in file.versions:
            vector = joined(vector, each)
        at = self.saved.me - 1
        vector = (*vector[:at], vector[at] + 1, *vector[at + 1:])
        self.files[identifier] = file._replace(versions=((vector, text),))

    def made(self):
        saved = self.saved
        return replace(saved, next=saved.next + 1, used=saved.used + self.written, entries=self.entries, files=self.files)


def identifiers_of(reader):
    listed = []
    for _ in range(reader.number(4)):
        listed.append(reader.identifier())
        need(is_issuable(listed[-1], 8) and (len(listed) == 1 or listed[-2] < listed[-1]))
    return listed


def read_directory(reader, members):
    directory = reader.identifier()
    need(directory in (ROOT, ATTIC) or is_issuable(directory, members))
    return directory


def apply(saved, body):
    """What the record of this body makes of what was saved."""
    reader = Reader(body)
    tag = reader.number(1)
    need(saved.generation < LAST_GENERATION)
    if tag == 10:
        made = saved
    elif tag == 11:
        made = taken(saved, *read_tables(reader, saved.members))
    elif tag == 12:
        made = collected(saved)
    else:
        made = changed(saved, tag, reader)
    reader.end()
    return replace(made, generation=saved.generation + 1)


def changed(saved, tag, reader):
    change = Change(saved)
    if tag == 1:
        directory, name, kind = reader.identifier(), reader.name(), reader.number(1)
        need(kind < LINK)
        change.make(directory, name, kind, () if kind == DIRECTORY else (b"",))
    elif tag == 2:
        directory, name, target = reader.identifier(), reader.name(), reader.identifier()
        need(change.is_place(directory) and change.is_file(target))
        change.insert(directory, name, target)
    elif tag == 3:
        target = reader.identifier()
        change.kill(identifiers_of(reader), target)
        change.cover(target)
    elif tag == 4:
        target, directory, name = reader.identifier(), reader.identifier(), reader.name()
        change.kill(identifiers_of(reader), target)
        need(change.is_place(directory))
        change.insert(directory, name, target)
    elif tag in (5, 6, 7):
        target = reader.identifier()
        change.write(target, reader.take(reader.number(2)))
    elif tag == 8:
        target, directory, name = reader.identifier(), reader.identifier(), reader.name()
        need(change.is_place(directory) and change.is_held(target))
        change.insert(directory, name, target)
    elif tag == 9:
        target = reader.identifier()
        need(change.is_file(target))
        change.insert(ATTIC, b"discarded", target, (bits(saved.me), 0))
        change.cover(target)
    elif tag == 13:
        directory, name, text = reader.identifier(), reader.name(), reader.take(reader.number(2))
        need(1 <= len(text) <= LINK_BYTES)
        change.make(directory, name, LINK, (text,))
    else:
        raise Refused
    return change.made()


def taken(saved, entries, files):
    """What is saved once the peer's tables are taken."""
    need(holds_own_past(saved.me, saved.next, entries, files))
    every = (1 << saved.members) - 1
    merged = {}
    for identifier in sorted({*saved.entries, *entries}):
        entry = merged_entry(saved.entries.get(identifier), entries.get(identifier), bits(saved.me), every)
        if entry:
            merged[identifier] = entry
    touched = {each for entry in merged.values() for each in (entry.directory, entry.target)}
    held = {}
    for identifier in sorted({*saved.files, *files}):
        if identifier not in files:
            held[identifier] = saved.files[identifier]
        elif identifier in saved.files:
            held[identifier] = merged_file(saved.files[identifier], files[identifier])
        elif identifier in touched:
            held[identifier] = files[identifier]
    return replace(saved, entries=merged, files=held)


def merged_entry(mine, theirs, me, every):
    if mine is None:
        if theirs is None or theirs.marks and theirs.marks[0] & me:
            return None
        marks = theirs.marks and (theirs.marks[0] | me, theirs.marks[1])
        mine = theirs
    elif mine.marks is None:
        marks = theirs and theirs.marks and (theirs.marks[0] | me, theirs.marks[1])
    elif theirs is None:
        marks = mine.marks if mine.marks[0] != every else (every, every)
    else:
        marks = mine.marks if theirs.marks is None else tuple(one | other for one, other in zip(mine.marks, theirs.marks))
    if marks and marks[0] == every:
        marks = (every, marks[1] | me)
    return mine._replace(marks=marks or None)


def merged_file(mine, theirs):
    need(mine.kind == theirs.kind)
    texts = {}
    for vector, text in mine.versions + theirs.versions:
        need(texts.setdefault(vector, text) == text)
    kept = tuple((vector, text) for vector, text in sorted(texts.items())
                 if not any(other != vector and covers(other, vector) for other in texts))
    need(len(kept) <= (1 if mine.kind == LINK else VERSIONS))
    return File(mine.kind, kept, joined(mine.cover, theirs.cover))


def collected(saved):
    """What is saved once what all know that all know is given up."""
    every = (1 << saved.members) - 1
    live = [entry for entry in saved.entries.values() if entry.marks is None]
    named, lived_in = {entry.target for entry in live}, {entry.directory for entry in live}
    orphans = {identifier for identifier, file in saved.files.items() if identifier not in named and (
        identifier in lived_in if file.kind == DIRECTORY
        else any(not covers(file.cover, vector) for vector, _ in file.versions))}
    entries = {key: entry for key, entry in saved.entries.items() if entry.marks is None or entry.marks[1] != every}
    touched = {each for entry in entries.values() for each in (entry.directory, entry.target)}
    files = {key: file for key, file in saved.files.items() if key in touched or key in orphans}
    return replace(saved, entries=entries, files=files)


def slot_in(disk):
    """The generation, the body and the place of the tail of the slot on a disk, where one is open and whole."""
    if len(disk) < 18 or disk[0] != 1:
        return None
    generation, length = struct.unpack(">QQ", disk[1:17])
    return (generation, disk[17:17 + length], 17 + length) if 18 + length <= len(disk) else None


def records_behind(disk, gate, generation):
    """The bodies of the records behind a slot, from the gate of the first one on."""
    bodies = []
    while disk[gate] == 1 and gate + 14 <= len(disk):
        number, length = struct.unpack(">QI", disk[gate + 1:gate + 13])
        if number != generation + 1 or gate + 14 + length > len(disk):
            break
        bodies.append(disk[gate + 13:gate + 13 + length])
        gate += 13 + length
        generation = number
    return bodies


def saved_on(a, b):
    """What a replica has saved on its two disks."""
    found = [(slot, disk) for slot, disk in ((slot_in(a), a), (slot_in(b), b)) if slot]
    need(found)
    (generation, body, tail), disk = max(found, key=lambda one: one[0][0])
    saved = read_image(body)
    need(saved.generation == generation)
    for record in records_behind(disk, tail, generation):
        saved = apply(saved, record)
    return saved


def line_of(replica, a, b):
    """What a check says of a replica whose files hold this."""
    if not a and not b:
        return f"replica {replica} empty"
    try:
        saved = saved_on(a, b)
        need(saved.me == replica and saved.generation < OPENED_BELOW)
    except Refused:
        return f"replica {replica} damaged"
    live = sum(entry.marks is None for entry in saved.entries.values())
    return (f"replica {replica} members {saved.members} generation {saved.generation} live {live}"
            f" dead {len(saved.entries) - live} objects {len(saved.files)}")
