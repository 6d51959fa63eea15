"""A second reading of messages as files, and of the note of an open ask, written from docs/FORMATS.md alone."""
import struct
from dataclasses import dataclass

TAG_BYTES = 16
# The most bytes of a message's file, and those of each piece but the last one of its reply.
FILE_BYTES = 4_140
PIECE_BYTES = 4_096
PIECES = 262_144
VERSION, ASK, PIECE = 2, 1, 3
ASK_HEAD, PIECE_HEAD = struct.Struct(">BBBBQ"), struct.Struct(">BBBBQQII")
# The gate of a slot, its generation, and the length of its body; and the body of a note.
SLOT_HEAD, NOTE = struct.Struct(">BQQ"), struct.Struct(">BQ")


@dataclass(frozen=True)
class Message:
    """An ask, of which there are no pieces, or a piece of a reply."""

    sender: int
    receiver: int
    number: int
    state: int = 0
    pieces: int = 0
    index: int = 0
    body: bytes = b""

    @property
    def name(self):
        if not self.pieces:
            return f"ask-{self.sender}-{self.receiver}-{self.number}"
        return self.named(self.index)

    def named(self, index):
        """The name of a piece of the same reply."""
        return f"piece-{self.sender}-{self.receiver}-{self.number}-{self.state}-{index}"

    @property
    def reply(self):
        """What tells all pieces of one reply from those of others."""
        return self.sender, self.receiver, self.number, self.state, self.pieces


def message_in(held, tag, members):
    """The message of a volume with this tag and so many members that a file holds, or None where it holds none."""
    spelled = held[TAG_BYTES:]
    if len(held) > FILE_BYTES or held[:TAG_BYTES] != tag or len(spelled) < ASK_HEAD.size:
        return None
    version, kind, sender, receiver, number = ASK_HEAD.unpack_from(spelled)
    if version != VERSION or sender == receiver or not {sender, receiver} <= set(range(1, members + 1)):
        return None
    if kind == ASK:
        return Message(sender, receiver, number) if len(spelled) == ASK_HEAD.size else None
    if kind != PIECE or len(spelled) <= PIECE_HEAD.size:
        return None
    *_, state, pieces, index = PIECE_HEAD.unpack_from(spelled)
    body = spelled[PIECE_HEAD.size:]
    is_last = index == pieces - 1
    if index >= pieces or pieces > PIECES or len(body) > PIECE_BYTES or not is_last and len(body) < PIECE_BYTES:
        return None
    return Message(sender, receiver, number, state, pieces, index, body)


def noted(disks):
    """What is noted on two disks, of which the bytes are given: the member that was asked, and the number of the ask;
    or None where no ask is open. There is a note, or this raises a ValueError."""
    slots = [slot for slot in map(_slot_of, disks) if slot is not None]
    if not slots:
        raise ValueError("no note")
    # (of two equal generations the first)
    _, body = max(slots, key=lambda slot: slot[0])
    to, number = NOTE.unpack(body)
    return (to, number) if to else None


def _slot_of(held):
    """The generation and the body of the slot on a disk, if it is open and complete."""
    if len(held) < SLOT_HEAD.size:
        return None
    gate, generation, length = SLOT_HEAD.unpack_from(held)
    body = held[SLOT_HEAD.size:SLOT_HEAD.size + length]
    return (generation, body) if gate == 1 and len(held) > SLOT_HEAD.size + length else None
