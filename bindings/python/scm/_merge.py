"""The merge of two changed files, without a session."""
import ctypes
from typing import Iterable, List, NamedTuple, Tuple

from ._library import Error, check, library
from ._values import Text, bytes_of

# the versions that a line of a merge comes from, by the letters of records
VERSIONS = {b" ": "agreed", b"o": "ours", b"b": "base", b"t": "theirs"}
# the letter of a record, and the number behind it
HEAD, NUMBER = 1, 8
# the line ends that lines get which have none: each file has at most one such line
LINE_ENDS = 3
# how many signs git's markers have
MARKER_LENGTH = 7


class MergeLine(NamedTuple):
    """A line of a merge. `version` is "agreed" of a line that is taken without asking, else "ours", "base" or "theirs". A version of a
    conflict without lines has one with an empty text."""

    version: str
    text: str


def arguments_of(base: Text, ours: Text, theirs: Text) -> Tuple[List[object], int]:
    """Returns the arguments of three files, and how many bytes they have together."""
    files = [bytes_of(text) for text in (base, ours, theirs)]
    return [argument for data in files for argument in (data, len(data))], sum(map(len, files))


def done(code: int) -> None:
    """Raises an Error unless a call was done."""
    if code:
        raise Error(code)


def lines_in(records: bytes) -> List[MergeLine]:
    """Returns the lines that records have."""
    lines, at = [], 0
    while at < len(records):
        letter, start = records[at : at + HEAD], at + HEAD + NUMBER
        at = start + int.from_bytes(records[at + HEAD : start], "little")
        lines.append(MergeLine(VERSIONS[letter], records[start:at].decode()))
    return lines


def merge_texts(base: Text, ours: Text, theirs: Text) -> List[MergeLine]:
    """Returns the lines of the merge of two files that both came from `base`. gabrosty.h says at gabro_merge_texts how they are shown, and
    `Session.add_merge` does it."""
    files, size = arguments_of(base, ours, theirs)
    written, room = ctypes.c_size_t(2 * size + 4096), 0
    while written.value > room:
        room = written.value
        out = ctypes.create_string_buffer(room)
        done(library.gabro_merge_texts(*files, out, room, ctypes.byref(written)))
    return lines_in(out.raw[: written.value])


def bytes_of_marks(marks: Iterable[bool]) -> bytes:
    """Returns the bytes of marks, in their order."""
    return bytes(1 if mark else 0 for mark in marks)


def merged_bytes(base: Text, ours: Text, theirs: Text, marks: Iterable[bool]) -> bytes:
    """Returns the merge of three files by the marks of its items, as `Session.marks` returns them."""
    files, size = arguments_of(base, ours, theirs)
    given, written = bytes_of_marks(marks), ctypes.c_size_t()
    out = ctypes.create_string_buffer(size + LINE_ENDS)
    done(library.gabro_merged_bytes(*files, given, len(given), out, len(out), ctypes.byref(written)))
    return out.raw[: written.value]


def marked_bytes(
    base: Text,
    ours: Text,
    theirs: Text,
    marks: Iterable[bool],
    base_label: Text = "",
    ours_label: Text = "",
    theirs_label: Text = "",
    marker_length: int = MARKER_LENGTH,
) -> bytes:
    """Returns the merge as `merged_bytes` does, but with git's markers around each conflict that is open, in the style `diff3`. A label
    is behind the marker of its version, unless it is empty or has a line end. A marker has `marker_length` signs, or one more than any
    line of the file begins with, whichever is greater. Raises ValueError for a length that C would wrap."""
    check("N", marker_length)
    files, size = arguments_of(base, ours, theirs)
    labels, _ = arguments_of(base_label, ours_label, theirs_label)
    given, written, room = bytes_of_marks(marks), ctypes.c_size_t(size + 4096), 0
    while written.value > room:
        room = written.value
        out = ctypes.create_string_buffer(room)
        done(library.gabro_marked_bytes(*files, given, len(given), *labels, marker_length, out, room, ctypes.byref(written)))
    return out.raw[: written.value]


def open_conflicts(base: Text, ours: Text, theirs: Text, marks: Iterable[bool]) -> int:
    """Returns how many conflicts of the merge of three files have no item that is taken by the marks."""
    files, _ = arguments_of(base, ours, theirs)
    given, count = bytes_of_marks(marks), ctypes.c_size_t()
    done(library.gabro_open_conflicts(*files, given, len(given), ctypes.byref(count)))
    return count.value
