"""Runs the program as it was asked for, and says beside its own words what they don't tell (`telling.py`).

Each call comes by here, so nothing is imported that takes long and isn't needed by most.
"""
from __future__ import annotations

import os
import signal
import sys

import built
import causes
import lock
from faults import Fault, Status, say
from modes import ALL, CHECK, GEN, INIT, JSON, REPLAY, RUN, VOLUMES_MODE

TYPE_CHECKING = False
if TYPE_CHECKING:
    from collections.abc import Sequence
    from types import FrameType

    from modes import Call

BLOCK = 65_536
SCRIPT_BYTES = 1_048_576
# Where the script comes from, where that isn't standard input.
INPUT = "FICUS_INPUT"
# Modes that touch no folder, and answer before the program is proved, but with this in the environment.
UNPROVED = (REPLAY, VOLUMES_MODE, GEN)
WAITS_FOR_PROOF = "FICUS_PROVED"
# What is handed on to the program, where it comes to this.
SIGNALS = (signal.SIGINT, signal.SIGTERM, signal.SIGHUP)
# Commands with which conflicts may come.
BRINGS = (b"pull ", b"sweep ", b"give ")


class Run:
    """A run of the program: how it ended, what it said, how many commands it refused with which word, and what it
    answered, where that was kept."""

    def __init__(self, status: int = 0, said: str = "") -> None:
        self.status = status
        self.said = said
        self.refused: dict[str, int] = {}
        self.kept = bytearray()
        self.reader_is_gone = False

    def take(self, answers: bytes) -> None:
        """Keeps all answers."""
        self.kept += answers
        _count(b"\n" + answers, self.refused)


def launch(call: Call) -> int:
    """Does what the words ask for."""
    script = _script() if call.mode.has_script else b""
    if ALL in call.flags:
        from telling import tell_bad_lines
        return tell_bad_lines(call, script or b"")
    _look_at_folder(call)
    if not built.is_built():
        import building
        building.need_kit()
        if call.mode in UNPROVED and not os.environ.get(WAITS_FOR_PROOF) and script is not None:
            import unproved
            answered = unproved.answer(call.words, script)
            if answered:
                return _finish(call, script, answered)
        building.prove()
    why = causes.why_no_volume(call.root) if call.mode is CHECK and call.root else None
    if why:
        raise Fault(why, Status.NO_IMAGE)
    folder = _locked(call)
    try:
        locks = () if folder is None else (folder,)
        return _make_alone(call, locks) if call.needs_tag else _carry_out(call, script, locks)
    finally:
        if folder is not None:
            os.close(folder)


def _look_at_folder(call: Call) -> None:
    """Ends where a folder keeps replicas that are on machines of their own, and the call is of a whole volume, or the
    other way round."""
    if call.root is None:
        return
    why = causes.why_not_whole(call.root) if call.mode is RUN else None
    if why:
        raise Fault(why, Status.NO_IMAGE)
    why = causes.why_not_alone(call.root) if call.mode is INIT and call.replica else None
    if why:
        raise Fault(why, Status.OCCUPIED)


def _make_alone(call: Call, locks: tuple[int, ...]) -> int:
    """Makes a replica on a machine of its own, with a tag that is chosen here, and tells it."""
    from secrets import token_hex

    from telling import tell_tag
    tag = token_hex(16)
    status = _carry_out(call.with_tag(tag), b"", locks)
    if not status:
        tell_tag(call, tag)
    return status


def _carry_out(call: Call, script: bytes | None, locks: tuple[int, ...]) -> int:
    if call.mode is RUN and script is not None and causes.is_read_only(call.root or ""):
        from copying import over_copy
        with over_copy(call, script) as words:
            return _finish(call, script, ask(words, script, locks, keep=True))
    counts = script and call.mode is RUN and sys.stdout.isatty() and any(word in script for word in BRINGS)
    if not counts:
        keep = call.mode is CHECK or JSON in call.flags
        return _finish(call, script, ask(call.words, script, locks, keep=keep))
    from telling import conflicts, tell_of_conflicts
    before = conflicts(call, locks)
    status = _finish(call, script, ask(call.words, script, locks))
    if not status:
        tell_of_conflicts(before, conflicts(call, locks))
    return status


def _script() -> bytes | None:
    """What comes on standard input, no more of it than the program reads; nothing where it can't be read."""
    read = bytearray()
    try:
        while len(read) <= SCRIPT_BYTES:
            block = os.read(_input(), SCRIPT_BYTES + 1 - len(read))
            if not block:
                break
            read += block
    except OSError:
        # (the program says so)
        return None
    return bytes(read)


def _input() -> int:
    return int(os.environ.get(INPUT, "0"))


def _locked(call: Call) -> int | None:
    """The lock on the folder of the volume, or of the replica that is alone, where the mode has one."""
    if call.folder is None:
        return None
    return lock.take_to_make(call.folder) if call.mode is INIT else lock.take(call.folder)


def ask(words: Sequence[str], given: bytes | None, locks: tuple[int, ...] = (), keep: bool = False) -> Run:
    """Runs the program over this input, or over standard input itself where that can't be read, and hands on its answers
    as they come, or keeps them. The locks are the program's too, so that they stay where this alone is killed."""
    run = Run()
    source = _input()
    if given is not None:
        source = os.memfd_create("script")
        _write(source, given)
        os.lseek(source, 0, os.SEEK_SET)
    answers, put_answers = os.pipe()
    said, put_said = os.pipe()
    for held in locks:
        os.set_inheritable(held, True)
    process = os.posix_spawn(built.program(), [built.program(), *words], os.environ, file_actions=[
        (os.POSIX_SPAWN_DUP2, source, 0), (os.POSIX_SPAWN_DUP2, put_answers, 1), (os.POSIX_SPAWN_DUP2, put_said, 2)])
    os.close(put_answers)
    os.close(put_said)

    def hand_on(which: int, _: FrameType | None) -> None:
        os.kill(process, which)

    for number in SIGNALS:
        if signal.getsignal(number) is not signal.SIG_IGN:
            signal.signal(number, hand_on)
    _hand_on(answers, run, keep)
    os.close(answers)
    run.said = _all_of(said).decode("utf-8", "surrogateescape")
    run.status = os.waitstatus_to_exitcode(os.waitpid(process, 0)[1])
    return run


def _all_of(source: int) -> bytes:
    read = bytearray()
    while block := os.read(source, BLOCK):
        read += block
    os.close(source)
    return bytes(read)


def _hand_on(answers: int, run: Run, keep: bool) -> None:
    """Hands on what comes, or keeps it, and counts the refusals in it."""
    rest = b"\n"
    while block := os.read(answers, BLOCK):
        if keep:
            run.kept += block
        elif not put(block):
            run.reader_is_gone = True
            return
        lines, end, behind = (rest + block).rpartition(b"\n")
        _count(lines + end, run.refused)
        rest = end + behind


def _count(lines: bytes, refused: dict[str, int]) -> None:
    """Counts the lines that are refusals: no line of a listing has two words of which the first is `no`."""
    for behind in lines.split(b"\nno ")[1:]:
        word = behind.partition(b"\n")[0]
        if word.isalpha():
            refused[word.decode()] = refused.get(word.decode(), 0) + 1


def put(block: bytes) -> bool:
    """Writes all of a block to standard output. Says whether whoever reads is there still."""
    try:
        _write(1, block)
    except BrokenPipeError:
        return False
    except OSError:
        raise Fault("write fault", Status.WRITE_FAULT) from None
    return True


def _write(target: int, block: bytes) -> None:
    while block:
        block = block[os.write(target, block):]


def _finish(call: Call, script: bytes | None, run: Run) -> int:
    """Hands on what was kept, says what the program said and what is to be said beside it, and gives the status."""
    if run.kept:
        shown = bytes(run.kept)
        if JSON in call.flags:
            from as_json import of_check, of_script
            shown = of_check(shown) if call.mode is CHECK else of_script(script or b"", shown)
        run.reader_is_gone = not put(shown)
    if run.reader_is_gone:
        return run.status if run.status > 0 else Status.WRITE_FAULT
    if run.status < 0:
        say("interrupted" if run.status == -signal.SIGINT else f"the program was ended by signal {-run.status}")
        return 128 - run.status
    sys.stderr.write(run.said)
    sys.stderr.flush()
    if run.status or run.refused or call.mode is CHECK:
        from telling import tell
        return tell(call, script, run)
    return Status.DONE
