"""Refusals in words."""
from __future__ import annotations

import re

import formats

_WORDS = {
    "nomail": "there is no message with this number; of a `take`, no file of this name in the folder `in`: carry it, or "
              "correct the name",
    "link": "the system refused a message's file: see that the folder `in` of the replica may be read, and `out` be "
            "written; then do the same again, or ask again",
    "member": "the volume has no such replica, or both are the same one",
    "down": "the replica has stopped, and answers nothing until it is restarted",
    "nofuse": "a disk in a folder can't be told to stop",
    "stale": "this isn't the answer to the replica's open ask: it isn't needed, and may be removed; ask again where there is "
             "news",
    "missing": "a piece of this answer isn't in the folder `in` yet: carry all of them, and then take any one",
    "badmessage": "this is no whole message of this volume to this replica, or doesn't fit what it holds: carry the file "
                  "again, and compare the tags of both; else files were changed from outside, see \"When a volume is "
                  "damaged\" in docs/FORMATS.md",
    "mixed": "the replica holds pieces of another state than this one: ask again, or wait for the rest of those",
    "notorphan": "no orphan has this identifier",
    "noentry": "nothing has this name",
    "ambiguous": "several objects have this name",
    "notdir": "this is a file or a symbolic link, not a directory",
    "isdir": "this is a directory, not a file",
    "islink": "this is a symbolic link: `readlink` prints its target",
    "notlink": "this is no symbolic link",
    "intoself": "a directory can't go into itself",
    "exists": "the name is taken",
    "conflict": "the file is in conflict: `versions` prints its versions, `settle` and `resolve` end it",
    "noconflict": "the file isn't in conflict",
    "declined": "the resolver of the file's kind can't merge its versions",
    "notempty": "something lies in the directory, and it has no other name",
    "toolong": "it is more than a file, or a symbolic link, may have",
    "spent": "the replica has made all the updates of its life",
    "quota": "the replica has written all the bytes of its life",
    "linkfull": "the messages of this run have no more room",
    "crossing": "the two paths are in different volumes",
    "store": "the disks of the replica failed; a restart opens them again",
    "image": "the disks hold no image of this replica that fits",
}


def meaning(refusal: str) -> str:
    """What a refusal means, without what is to be done; nothing where it isn't known."""
    return re.split("[:;]", _WORDS.get(refusal, ""))[0]


def in_words(refusal: str) -> str:
    """A refusal with what it means, in short words, or as the document says it."""
    words = _WORDS.get(refusal) or formats.refusals().get(refusal)
    return f"no {refusal}: {words}" if words else f"no {refusal}"
