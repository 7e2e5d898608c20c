"""The values that a session takes and returns."""
import enum
import os
from typing import NamedTuple, Optional, Type, TypeVar, Union

from ._library import NO_INDEX

# a text: `str`, or the bytes of UTF-8
Text = Union[str, bytes]
# a path: a text, or an object for a path, as of pathlib
Path = Union[str, bytes, "os.PathLike[str]", "os.PathLike[bytes]"]

# how a session ended
ENDS = "not_ended accepted cancelled no_memory set_up clean_up render read serialize write other bug".split()
# what a click acts on
OWNERS = "nobody menu menu_item button file section mark fold dialog added removed context mode binary file_edge".split()


class Stage(enum.IntEnum):
    """What a session waits for."""

    WAITING = 0
    EDITING = 1
    ACCEPTED = 2
    ENDED = 3
    NONE = 4
    BUILDING = 5


class Dialog(enum.IntEnum):
    """The dialog that lies over the screen."""

    NONE = 0
    QUESTION = 1
    HELP = 2


class Contents(enum.IntEnum):
    """The kind of the contents of a side of a file."""

    UNCHANGED = 0
    TEXT = 1
    BINARY = 2


class Mark(enum.IntEnum):
    """The mark of a file, a section or a line."""

    UNCHECKED = 0
    PARTLY = 1
    CHECKED = 2


class Colour(enum.IntEnum):
    """The colour of a place: the terminal's own, or one of the eight basic ones."""

    NONE = 0
    BLACK = 1
    RED = 2
    GREEN = 3
    YELLOW = 4
    BLUE = 5
    MAGENTA = 6
    CYAN = 7
    WHITE = 8


class Theme(enum.IntEnum):
    """The colours of a layer. The name of a theme stands for it, in small letters."""

    DARK = 0
    LIGHT = 1
    SIXTEEN = 2
    NONE = 3


class Folds(enum.IntEnum):
    """What a layer unfolds at the start. The name of a member stands for it, in small letters."""

    AS_IT_IS = 0
    ALL_FOLDED = 1
    ALL_OPEN = 2
    OPEN_IF_IT_FITS = 3


# the names of the themes and the folds
THEMES = [theme.name.lower() for theme in Theme]
FOLDS = [folds.name.lower() for folds in Folds]

Member = TypeVar("Member", bound=enum.IntEnum)


def member_of(kind: Type[Member], value: Union[Member, str]) -> Member:
    """Returns the member of `kind` that `value` is, or is the name of."""
    if not isinstance(value, str):
        return kind(value)
    members = {member.name.lower(): member for member in kind}
    if value not in members:
        raise ValueError("%r is none of %s" % (value, ", ".join(members)))
    return members[value]


class Key(NamedTuple):
    """Names an item: a commit, a file in the state, a section in its file, and a line in its section, each counted from 0. An index
    that the item has not is NO_INDEX: the key of a file has no section and no line."""

    commit: int
    file: int
    section: int
    line: int

    def __repr__(self) -> str:
        """Returns the key as Python writes it, with NO_INDEX by its name."""
        indexes = ("NO_INDEX" if index == NO_INDEX else str(index) for index in self)
        return "Key(%s)" % ", ".join(map("%s=%s".__mod__, zip(self._fields, indexes)))


class Cell(NamedTuple):
    """One place of the screen: the symbol that begins there, and its number of columns, or nothing and 0 at a later column of a symbol; its
    colour, and that of the background; and whether it is bold, dim, underlined, and shown with both colours exchanged."""

    symbol: str
    columns: int
    foreground: Colour
    background: Colour
    is_bold: bool
    is_dim: bool
    is_underlined: bool
    is_reversed: bool


class Item(NamedTuple):
    """What an item is: its kind, of a file "file", of a section "section" (of changed lines), "context", "mode" or "binary", of a line
    "added", "removed" or "context"; and how many parts it has: of a file its sections, of a section its lines, of a line none."""

    kind: str
    parts: int


class LinePlace(NamedTuple):
    """Where an item is: its file in the state, counted from 0, and the number of its first line in the old version of the file and in
    the new one, counted from 1. A line that a version has not is where its next line is."""

    file: int
    old_line: int
    new_line: int


class Side(NamedTuple):
    """One side of a file: the kind of its contents, its mode, and its text as bytes, or None."""

    contents: Contents
    mode: int
    text: Optional[bytes]


def bytes_of(text: Text) -> bytes:
    """Returns the bytes of a text."""
    return text if isinstance(text, bytes) else text.encode()


def bytes_of_path(path: Path) -> bytes:
    """Returns the bytes of a path. Bytes that are no text to the file system come back as they were, as by os.fsencode."""
    text = os.fspath(path)
    return text if isinstance(text, bytes) else text.encode(errors="surrogateescape")


def shown_path(path: bytes) -> bytes:
    """Returns a path as it is shown: in UTF-8, with U+FFFD for bytes that are none."""
    return path.decode(errors="replace").encode()
