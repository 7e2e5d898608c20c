"""What a front end wrote of an accepted choice: the sides of each file, the marks, and the messages. And marks that are kept."""
import functools
import re

from .change import ABSENT, digest_of
from .named import read_named
from .records import record_at
from .words import Stop, shown


SIDES, NO_MODE = ("selected", "unselected"), ABSENT.encode()
# the records of a file whose sides are versions that are there, in one piece: most are such
OF_VERSIONS = (
    rb"marks ([0-9]{1,9})\n([01]*)\n"
    rb"selected-mode 6\n([0-7]{6})\nselected-is 3\n(old|new)\nunselected-mode 6\n([0-7]{6})\nunselected-is 3\n(old|new)\n"
)
WORDS_OF_VERSIONS = "marks", "selected-mode", "selected-is", "unselected-mode", "unselected-is"


class Accepted:
    """An accepted choice among `changes`, with the messages of `count` commits, in the file `path`."""

    def __init__(self, path, changes, count):
        self.changes, self.messages = changes, []
        with open(path, "rb") as file:
            data = file.read()
        try:
            self.messages, files = files_in(data, "accepted")
            self.marks = [file["marks"].decode() for file in files]
            self.found = [{side: side_in(file, side, change) for side in SIDES} for file, change in zip(files, changes)]
            is_whole = (len(self.messages), len(files)) == (count, len(changes))
        except (ValueError, LookupError):
            is_whole = False
        if not is_whole:
            raise Stop("the front end did not write the sides of %d files" % len(changes))

    def sides(self, side):
        """Yields each change with the mode at each of its paths and the bytes that it has on a side: `selected` or `unselected`."""
        return ((change, *found[side]) for change, found in zip(self.changes, self.found))

    def kept(self):
        """Returns the marks as they are kept."""
        return kept_text(self.changes, self.marks, self.messages)


def files_in(data, first):
    """Returns the messages in the records of a front end, of which the first one has the word `first`, and the records of each file by their
    words."""
    messages, files, place, of_versions = [], [], 0, re.compile(OF_VERSIONS)
    while place < len(data):
        versions = of_versions.match(data, place) if place else None
        if versions and int(versions[1]) == len(versions[2]):
            files.append(dict(zip(WORDS_OF_VERSIONS, versions.groups()[1:])))
            place = versions.end()
            continue
        begun = place
        word, value, place = record_at(data, place)
        if (word == first) != (begun == 0):
            raise ValueError(word)
        if word == "message":
            messages.append(value.decode())
        elif word == "marks":
            files.append({word: value})
        elif begun:
            files[-1][word] = value
    return messages, files


def kept_of(changes, marks, messages):
    """Returns the marks of changes: what has to be the same for them to be taken up is with them."""
    files = [{"path": shown(it.path), "sides": sides_of(it), "marks": of_one} for it, of_one in zip(changes, marks)]
    return {"messages": messages, "files": files}


def kept_text(changes, marks, messages):
    """Returns the marks of changes as they are kept."""
    import json

    return json.dumps(kept_of(changes, marks, messages))


def left_in(path, changes):
    """Returns the marks and the messages that a front end has left in a file, or None if it left none."""
    try:
        with open(path, "rb") as file:
            messages, files = files_in(file.read(), "kept")
        marks = [file["marks"].decode() for file in files]
    except (OSError, ValueError, LookupError):
        return None
    return (marks, messages) if len(marks) == len(changes) else None


def left_marks(path, changes):
    """Returns the marks that a front end has left in a file, which was killed while the user chose, as they are kept. Returns None if it left
    none, or if nothing is marked."""
    left = left_in(path, changes)
    return kept_text(changes, *left) if left and any("1" in of_one for of_one in left[0]) else None


@functools.lru_cache(maxsize=None)
def words_of(side, modes):
    """Returns the words of the records that have a side's modes, and that of the one that names its contents."""
    return ["%s-%s" % (side, word) for word in modes], side + "-is"


def side_in(file, side, change):
    """Returns the mode that a side has at each path of a file, and the side's bytes, by the records of the file. Contents may be named
    by the version that has them."""
    mode_words, contents_word = words_of(side, change.modes)
    modes = [file.get(word, NO_MODE).decode("ascii") for word in mode_words]
    versions = {b"old": change.old_data, b"new": change.new_data}
    return modes, file[side] if side in file else versions[file[contents_word]]


def sides_of(change):
    """Returns by what a change is known again. It has other items if changes of blanks are left out."""
    sides = [digest_of((change.old.mode, change.old_data)), digest_of((change.new.mode, change.new_data))]
    return [*sides, "blanks of " + change.blanks_of] if change.blanks_of else sides


def kept_in(path):
    """Returns the marks that are kept in a file."""
    import json

    try:
        kept = json.loads(read_named(path).decode())
        is_well = is_kept(kept)
    except (ValueError, LookupError, RecursionError):
        is_well = False
    if not is_well:
        raise Stop("%s has no marks that were kept" % shown(path))
    return kept


def is_kept(kept):
    """Whether this has what is read of kept marks."""
    if not isinstance(kept, dict) or not all(isinstance(kept.get(name), list) for name in ("messages", "files")):
        return False
    files = kept["files"]
    if not all(isinstance(file, dict) for file in files):
        return False
    texts = [*kept["messages"], *(file.get(name) for file in files for name in ("path", "marks"))]
    return all(map(is_text, texts)) and all(set(file["marks"]) <= {"0", "1"} for file in files)


def is_text(value):
    """Whether a value of JSON is a text that has a form in UTF-8."""
    try:
        return isinstance(value, str) and value.encode() is not None
    except UnicodeEncodeError:
        return False


def take_up(changes, kept):
    """Gives changes the marks that were kept of the same ones. Returns the paths of marked ones that changed since."""
    marked = {file["path"]: file for file in kept["files"] if "1" in file["marks"]}
    for change in changes if marked else ():
        file = marked.get(shown(change.path))
        if file and file.get("sides") == sides_of(change):
            change.marks = file["marks"]
            del marked[file["path"]]
    return list(marked)
