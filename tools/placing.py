"""Puts files into a folder so that nothing is ever written over that wasn't looked at.

What is to stand there is written beside and renamed, or changes places with what stands there: that is looked at once more
where nobody writes to it by its name any more, and goes back where it is another one.
"""
from __future__ import annotations

import errno
import os
from collections.abc import Callable
from functools import lru_cache
from typing import Any

# Of the system's call `renameat2`: fails where the new name is taken; both names change places.
NO_REPLACE, EXCHANGE = 1, 2
HERE = -100
UNKNOWN = (errno.ENOSYS, errno.EINVAL, errno.ENOTSUP, errno.EPERM)

Expected = Callable[[bytes], bool]


@lru_cache(maxsize=None)
def _call() -> Any:
    """The system's call, where it has it."""
    import ctypes
    call = getattr(ctypes.CDLL(None, use_errno=True), "renameat2", None)
    if call is not None:
        call.argtypes = [ctypes.c_int, ctypes.c_char_p, ctypes.c_int, ctypes.c_char_p, ctypes.c_uint]
    return call


def _rename(one: bytes, other: bytes, how: int) -> bool:
    """Renames it so, or says that the system doesn't."""
    call = _call()
    if call is None:
        return False
    if call(HERE, one, HERE, other, how) == 0:
        return True
    from ctypes import get_errno
    failed = get_errno()
    if failed in UNKNOWN:
        return False
    raise OSError(failed, os.strerror(failed), other)


def put_new(beside: bytes, place: bytes) -> bool:
    """Gives it this name, unless something has it."""
    try:
        if _rename(beside, place, NO_REPLACE):
            return True
    except FileExistsError:
        return False
    if os.path.lexists(place):
        return False
    os.rename(beside, place)
    return True


def put_over(beside: bytes, place: bytes, is_expected: Expected) -> bool:
    """Puts it in the place of what stands there, where that is what is expected."""
    try:
        if _rename(beside, place, EXCHANGE):
            if is_expected(beside):
                os.unlink(beside)
                return True
            _rename(beside, place, EXCHANGE)
            return False
    except FileNotFoundError:
        return False
    if not is_expected(place):
        return False
    os.rename(beside, place)
    return True


def take_away(place: bytes, beside: bytes, is_expected: Expected) -> bool:
    """Removes what stands there, where that is what is expected."""
    try:
        os.rename(place, beside)
    except FileNotFoundError:
        return True
    if is_expected(beside):
        os.unlink(beside)
        return True
    return not put_new(beside, place)
