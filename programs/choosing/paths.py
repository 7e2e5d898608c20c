"""Which paths may be read and written below a folder: none that leads out of it, or to what git and jj keep for themselves."""
import functools
import os
import re

from .words import Stop, shown

# characters that some file systems leave out of a name: HFS+, and those of Linux where a folder folds names. C has the same ones
# (characters.c), and a try compares both
IGNORABLE = (
    "[\x7f-\xa0\xad\u034f\u061c\u115f\u1160\u17b4\u17b5\u180b-\u180f\u200b-\u200f\u2028-\u202e\u2060-\u206f\u3164\ufe00-\ufe0f\ufeff"
    "\uffa0\ufff0-\ufffb\U0001bca0-\U0001bca3\U0001d173-\U0001d17a\U000e0000-\U000e0fff]"
)
# what git and jj keep for themselves, and the short names that some file systems have for these
OWN = r"\.git|\.jj|(?:git|jj)~[0-9]+"


@functools.lru_cache(maxsize=None)
def is_own(name):
    """Whether some file system takes `name` for what git or jj keeps for itself. A backslash separates names there, a colon
    begins the name of a stream, and dots and blanks at the end are left out."""
    text = os.fsencode(name).decode("utf-8", "surrogateescape")
    # the patterns are compiled here, since most calls of a program need none of them
    parts = re.sub(IGNORABLE, "", text).casefold().split("\\")
    return any(re.fullmatch(OWN, part.partition(":")[0].rstrip(". ")) for part in parts)


# a path that no file system takes for what is kept: its names have such signs alone, and begin with no dot
PLAIN = re.compile(r"[A-Za-z0-9_-][A-Za-z0-9_.-]*(?:/[A-Za-z0-9_-][A-Za-z0-9_.-]*)*")


def fault_in(path):
    """Returns why `path` must not be read or written below a folder, or None if it may."""
    if PLAIN.fullmatch(path):
        # most are
        return None
    if "\0" in path:
        return "it has a NUL byte"
    names = path.split("/")
    if not {"", ".", ".."}.isdisjoint(names):
        return "it is no path within the folder"
    return "git or jj keeps it for itself" if any(map(is_own, names)) else None


def check_path(path):
    """Stops if `path` must not be read or written below a folder."""
    fault = fault_in(path)
    if fault:
        raise Stop("%s is refused: %s" % (shown(path), fault))
