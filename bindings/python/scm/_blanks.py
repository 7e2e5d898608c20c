"""A version of a file without changes of blanks, without a session."""
import ctypes
from typing import Tuple

from ._library import Error, library
from ._values import Text, bytes_of


def without_blank_changes(old: Text, new: Text) -> Tuple[bytes, int]:
    """Returns the version `new` of a file without the changes from `old` that are of blanks alone, and how many lines are left out. A line
    that differs by blanks alone (tabs, vertical tabs, form feeds, carriage returns, spaces) is as `old` has it."""
    before, after = bytes_of(old), bytes_of(new)
    written, left_out, room = ctypes.c_size_t(len(before) + len(after)), ctypes.c_size_t(), -1
    while written.value > room:
        room = written.value
        out = ctypes.create_string_buffer(room or 1)
        more = out, room, ctypes.byref(written), ctypes.byref(left_out)
        code = library.gabro_without_blank_changes(before, len(before), after, len(after), *more)
        if code:
            raise Error(code)
    return out.raw[: written.value], left_out.value
