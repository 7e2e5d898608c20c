"""How the programs name what they speak of, and why they stop."""
import contextlib
import os

VERSION = "1.1.0"
# it says that nothing was proved, where that is so
BUILD = os.path.join(os.path.dirname(os.path.realpath(__file__)), "../unproved")


def is_own(path):
    """Whether a file, and the folder that it lies in, belong to this user, to root, or to the owner of this module: others may put theirs into
    a folder above."""
    owners = 0, os.geteuid(), os.stat(__file__).st_uid
    return all(os.lstat(at).st_uid in owners for at in (path, os.path.dirname(path)))


def version_of(name):
    """Returns what the program `name` says of its version, and in a second line that nothing was proved for its build, if so."""
    lines = ["%s %s" % (name, VERSION)]
    if os.path.exists(BUILD) and is_own(BUILD):
        with contextlib.suppress(FileNotFoundError), open(BUILD, encoding="utf-8") as file:
            lines.append(file.read().rstrip("\n"))
    return "\n".join(lines)


class Stop(Exception):
    """Why a program ends without success."""


class HalfDone(Stop):
    """Why a program ends where not all is as it was. Its words say what is done."""


def bytes_of(text):
    """Returns the bytes of a path, or of another text, which may have what no path has."""
    try:
        return os.fsencode(text)
    except UnicodeEncodeError:
        return text.encode("utf-8", "backslashreplace")


def printable(text):
    """Returns a text as it can stand on a screen: bytes that are no UTF-8 and control characters are written out."""
    if text.isprintable():
        # most are
        return text
    text = bytes_of(text).decode("utf-8", "backslashreplace")
    return "".join(c if c.isprintable() else c.encode("unicode_escape").decode() for c in text)


def shown(path):
    """Returns a path as it can stand on a screen. A backslash is doubled, so two paths are never shown alike."""
    if isinstance(path, str) and path.isprintable() and "\\" not in path:
        # most are
        return path
    return printable(os.fsdecode(path).replace("\\", "\\\\"))


def words_of(error):
    """Returns what an error says, in one line."""
    name, reason = getattr(error, "filename", None), getattr(error, "strerror", None)
    # of what is open an error has a number
    is_named = isinstance(name, (str, bytes)) and name
    return "%s: %s" % (shown(name), reason) if is_named else reason or str(error)
