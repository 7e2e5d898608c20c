"""What a file has changed: as the front end takes it, and as what a choice leaves of it."""
import collections
import os

from .packs import name_of
from .records import record
from .words import shown

ABSENT, LINK, SUBMODULE = "000000", "120000", "160000"
# the modes of sides that are no file: their bytes are no lines
NO_FILES = ABSENT, LINK
# a text of no more bytes has no line that is too long for the front end, which counts a byte that is no UTF-8 as four of 1,000,000
SURELY_SHOWN = 250_000

# the records of a text that both versions have, in one piece: most changes are such
OF_A_TEXT = b"path %d\n%b\nold-mode 6\n%b\nold %d\n%b\nnew-mode 6\n%b\nnew %d\n%b\n"

# One side of a file: its mode, and the name of git's object with its contents.
Side = collections.namedtuple("Side", "mode name")


class Read:
    """A side of a file whose bytes were read. Its name is made only where it is asked for: `algorithm` is how git makes it."""

    __slots__ = "mode", "data", "algorithm", "made"

    def __init__(self, mode, data, algorithm):
        self.mode, self.data, self.algorithm, self.made = mode, data, algorithm, None

    @property
    def name(self):
        self.made = self.made or name_of(self.data, self.algorithm)
        return self.made

    def __eq__(self, other):
        if isinstance(other, Read):
            return self.mode == other.mode and self.data == other.data
        return isinstance(other, Side) and self.mode == other.mode and self.name == other.name


class Unread(bytes):
    """Stands for the contents of a file that are not read, and are `size` bytes long. Its own bytes tell it from others of its kind;
    contents that were read are never equal to it, whatever a file has."""

    def __new__(cls, data, size):
        made = super().__new__(cls, data)
        made.size = size
        return made

    def __eq__(self, other):
        return isinstance(other, Unread) and super().__eq__(other)

    def __ne__(self, other):
        return not self == other

    __hash__ = bytes.__hash__


class Change:
    """The two sides of a file, old and new, with their bytes. `note` is what the user is told behind its path, beside what the front
    end says of it, and `marks` the marks to begin with: a `1` or a `0` for each item, or nothing. `file` is the path of the file that the
    front end opens in an editor, or nothing."""

    note = marks = ""
    file = b""
    # the version, `old` or `new`, whose lines are shown where both differ by blanks alone, or nothing: then each such line is an item
    blanks_of = ""
    # the words behind that of a side in the records that have the mode at each of its paths
    modes = "mode",
    # the renamed file of which this is one path
    whole = None

    def __init__(self, path, sides, contents):
        self.path, (self.old, self.new) = path, sides
        self.old_data, self.new_data = data_of(self.old, contents), data_of(self.new, contents)
        # nothing stands for what is no file
        old = None if self.old.mode in NO_FILES else self.old_data
        new = None if self.new.mode in NO_FILES else self.new_data
        self.is_unread = isinstance(old, Unread) or isinstance(new, Unread)
        has_zero = (old is not None and b"\0" in old) or (new is not None and b"\0" in new)
        self.has_lines = not (old is None and new is None) and not self.is_unread and not has_zero

    def versions(self):
        """Returns both sides, each with its word in a record and its bytes."""
        return ("old", self.old, self.old_data), ("new", self.new, self.new_data)

    def is_surely_shown(self):
        """Whether its lines are shown, without a word for one of its versions."""
        is_short = len(self.old_data) <= SURELY_SHOWN and len(self.new_data) <= SURELY_SHOWN
        return self.has_lines and is_short and self.old.mode != LINK and self.new.mode != LINK

    def records(self):
        """Returns the records that hand it in. What has no lines, and a link, goes without its bytes: it is one item, or none."""
        path, has_words = shown(self.path).encode(), not self.is_surely_shown()
        if not has_words and ABSENT not in (self.old.mode, self.new.mode):
            old, new = self.old_data, self.new_data
            versions = self.old.mode.encode(), len(old), old, self.new.mode.encode(), len(new), new
            made = OF_A_TEXT % (len(path), path, *versions)
            # most have no more
            return made + self.more_records() if self.note or self.marks or self.file else made
        made = record("path", path)
        for word, side, data in self.versions():
            if side.mode != ABSENT:
                made += record(word + "-mode", side.mode)
            if side.mode != ABSENT and has_words:
                # the front end tells two versions apart by their words
                is_first = word == "old" and self.new.mode != ABSENT
                made += record(word + "-words", named(side, data) if is_first else described(side, data))
            if self.has_lines and side.mode != LINK:
                made += record(word, data)
        return made + self.more_records()

    def more_records(self):
        """Returns the records of what is said and marked of it, and of its file."""
        return b"".join([record(word, text) for word, text in (("note", self.note), ("marks", self.marks), ("file", self.file)) if text])

    def paths(self):
        """Returns the change of each of its paths by itself."""
        return (self,)


class Renamed(Change):
    """A file that has another path by now, shown as one file: its path is an item. `gone` and `come` are the changes of the old path
    and of the new one by themselves."""

    modes = "old-path", "mode"

    def __init__(self, gone, come, contents):
        super().__init__(come.path, (gone.old, come.new), contents)
        self.gone, self.come = gone, come
        gone.whole = come.whole = self

    def can_be_shown(self):
        """Whether its lines are shown, or it has no others than before."""
        return self.has_lines or self.old == self.new

    def records(self):
        return super().records() + record("old-path", shown(self.gone.path))

    def paths(self):
        return self.gone, self.come


class Choice(collections.namedtuple("Choice", "change mode data")):
    """What is to be of a change: a mode, and the bytes of the file."""

    def name(self):
        """Returns the name of git's object that has these bytes, if a side of the change has them, or else None."""
        sides = (self.change.old, self.change.old_data), (self.change.new, self.change.new_data)
        return next((side.name for side, data in sides if data == self.data and side.name), None)


def data_of(side, contents):
    """Returns the bytes of a side. `contents` has those of others than Read, by their names."""
    return side.data if isinstance(side, Read) else b"" if side.mode == ABSENT else contents[side.name]


def digest_of(side):
    """Returns what a side of a file is known by: its mode, and a digest of its bytes."""
    import hashlib

    mode, data = side
    return [mode, hashlib.sha256(data).hexdigest()]


def counted_bytes(size):
    """Returns a number of bytes in words, as in `12.3 MB`."""
    return "%d bytes" % size if size < 1_000 else "%.1f KB" % (size / 1_000) if size < 1_000_000 else "%.1f MB" % (size / 1_000_000)


def named(side, data):
    """Returns what describes a side beside a newer one."""
    return "%s, %s" % (counted_bytes(data.size), side.name[:10]) if isinstance(data, Unread) else described(side, data)


def described(side, data):
    """Returns the words for the contents of a side that are one item. Contents that differ have other words: git's name is in them."""
    if isinstance(data, Unread):
        return counted_bytes(data.size) + ", not shown by lines"
    size = "%s byte%s" % (format(len(data), ","), "" if len(data) == 1 else "s")
    return "link to " + shown(os.fsdecode(data)) if side.mode == LINK else "%s, %s" % (size, side.name[:10])
