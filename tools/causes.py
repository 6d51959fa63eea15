"""Why the files of a replica can't be used, as the system says it."""
from __future__ import annotations

import errno
import os

from built import COMMAND

TYPE_CHECKING = False
if TYPE_CHECKING:
    from collections.abc import Iterator, Sequence

MOST_MEMBERS = 8
DISKS = ("a.img", "b.img")
# What lies beside the disks of a replica that is on a machine of its own: the tag of its volume, and the note of its ask.
TAG_FILE = "volume"
NOTE_FILES = ("ask-a.img", "ask-b.img")


def disks_of(root: str, replica: int) -> list[str]:
    return [os.path.join(root, str(replica), name) for name in DISKS]


def members(root: str) -> list[int]:
    """The replicas of which the folder has files."""
    return [replica for replica in range(1, MOST_MEMBERS + 1) if any(map(os.path.lexists, disks_of(root, replica)))]


def why_no_volume(root: str) -> str | None:
    """Why the folder can't be that of a volume, or nothing where it has files of some replica, or may have."""
    try:
        os.listdir(root)
    except FileNotFoundError:
        return f"{root}: there is no such folder"
    except NotADirectoryError:
        return f"{root}: it is no folder"
    except OSError:
        # (the program says so)
        return None
    if members(root):
        return None
    return f"{root}: this is no volume: there is no file {root}/1/a.img; {COMMAND} init makes one"


def alone(root: str) -> list[int]:
    """The replicas in the folder that are on a machine of their own."""
    return [replica for replica in range(1, MOST_MEMBERS + 1)
            if os.path.lexists(os.path.join(root, str(replica), TAG_FILE))]


def why_not_whole(root: str) -> str | None:
    """Why a volume can't be used as a whole, or nothing where none of its replicas is on a machine of its own."""
    found = alone(root)
    if not found:
        return None
    tag = os.path.join(root, str(found[0]), TAG_FILE)
    return (f"{tag}: the replicas of this volume are on machines of their own, so none runs a script of all of them; "
            f"{COMMAND} member --replica {found[0]} {root} runs one of replica {found[0]}")


def why_not_alone(root: str) -> str | None:
    """Why no replica that is on a machine of its own can be made in the folder, or nothing where it has no volume that
    was made as a whole."""
    whole = sorted(set(members(root)) - set(alone(root)))
    if not whole:
        return None
    return (f"{os.path.join(root, str(whole[0]))}: the volume that is there was made as a whole, and {COMMAND} run {root} "
            "uses it; choose another ROOT")


def is_read_only(root: str) -> bool:
    """Whether some file of the volume can't be written."""
    return any(os.access(disk, os.F_OK) and not os.access(disk, os.W_OK)
               for replica in range(1, MOST_MEMBERS + 1) for disk in disks_of(root, replica))


def of_opening(root: str, replica: int) -> str:
    """Why the files of the replica can't be opened, or aren't those of the volume."""
    why = why_no_volume(root)
    if why:
        return why
    folders = (root, os.path.join(root, str(replica)))
    return _of_files(folders, disks_of(root, replica)) or _of_disks(root, replica)


def of_opening_alone(root: str, replica: int) -> str:
    """The same of a replica that is on a machine of its own."""
    folder = os.path.join(root, str(replica))
    tag, *notes = (os.path.join(folder, name) for name in (TAG_FILE, *NOTE_FILES))
    why = _of_files((root, folder), [tag, *disks_of(root, replica), *notes])
    if why:
        return why
    if not os.path.isdir(folder):
        return f"{folder}: there is no such folder; {COMMAND} init --members N --replica {replica} {root} makes it"
    is_there = any(map(os.path.lexists, disks_of(root, replica)))
    if is_there and not os.path.exists(tag):
        return (f"{tag}: there is no such file: was the volume made as a whole? Then {COMMAND} run {root} uses it")
    if is_there and not any(map(os.path.exists, notes)):
        return f"{folder}: there is neither ask-a.img nor ask-b.img"
    return _of_disks(root, replica)


def _of_files(folders: Sequence[str], files: Sequence[str]) -> str | None:
    """Which of these can't be opened, and why, where one can't that is there."""
    for path in (*folders, *files):
        try:
            os.close(os.open(path, os.O_RDONLY if path in folders else os.O_RDWR))
        except FileNotFoundError:
            continue
        except OSError as error:
            return f"{path}: {_reason(error)}"
    return None


def _of_disks(root: str, replica: int) -> str:
    """What there is of the disks of a replica."""
    there = [path for path in disks_of(root, replica) if os.path.exists(path)]
    if not there:
        return f"{os.path.join(root, str(replica))}: there is neither a.img nor b.img"
    sizes = ", ".join(f"{path} has {_bytes(os.path.getsize(path))}" for path in there)
    return f"{sizes}: {COMMAND} check {root} tells whether they are damaged"


def _bytes(count: int) -> str:
    return "1 byte" if count == 1 else f"{count:,} bytes"


def of_making(root: str, replica: int) -> str:
    """Why the files of the replica can't be made."""
    for path in (*_above(root), root, os.path.join(root, str(replica))):
        if not os.path.lexists(path):
            return _of_writing(path)
        if not os.path.isdir(path):
            return f"{path}: it is no folder"
    return _of_writing(disks_of(root, replica)[0])


def of_occupied(root: str, replica: int) -> str:
    folder = os.path.join(root, str(replica))
    beside = [os.path.join(folder, name) for name in (TAG_FILE, *NOTE_FILES)]
    path = next((path for path in (*disks_of(root, replica), *beside) if os.path.exists(path) and os.path.getsize(path)),
                root)
    if os.path.lexists(beside[0]):
        return f"{path}: it holds something already; {COMMAND} member --replica {replica} {root} uses the replica that is there"
    return f"{path}: it holds something already; {COMMAND} run {root} uses the volume that is there"


def _above(root: str) -> Iterator[str]:
    """The folders above a root, from the top."""
    above = os.path.dirname(os.path.abspath(root))
    if above != os.path.abspath(root):
        yield from _above(above)
        yield above


def _of_writing(path: str) -> str:
    """What the system says of writing where this is to be."""
    folder = os.path.dirname(path) or "."
    if not os.access(folder, os.W_OK | os.X_OK):
        read_only = os.path.exists(folder) and os.statvfs(folder).f_flag & os.ST_RDONLY
        return f"{folder}: {os.strerror(errno.EROFS if read_only else errno.EACCES).lower()}"
    room = os.statvfs(folder)
    if room.f_blocks and not room.f_bavail:
        return f"{folder}: {os.strerror(errno.ENOSPC).lower()}"
    return f"{path}: it couldn't be made"


def _reason(error: OSError) -> str:
    return (error.strerror or str(error)).lower()
