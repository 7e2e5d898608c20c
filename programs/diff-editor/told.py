"""What the user is told beside the changes: the words of jj, and where a file has a conflict."""
import collections
import re

from choosing.words import printable, shown

LONGEST_TITLE = 240  # characters
# as git and jj write the ends of a conflict: seven characters or more, and then a word or nothing
BEGINS = re.compile(rb"^<{7,}(?: .*)?\r?$", re.M)
ENDS = re.compile(rb"^>{7,}(?: .*)?\r?$", re.M)


def title_of(instructions):
    """Returns the words of a text in one line, in ASCII, as the window's title has them; or an empty line. What is said of panes,
    which other tools show, is left out."""
    parts = [part for part in re.split(r"\n\s*\n", instructions) if not re.search(r"\bpane\b", part)]
    words = printable(" ".join(" ".join(parts).split())).encode("ascii", "backslashreplace").decode()
    return words if len(words) <= LONGEST_TITLE else words[: LONGEST_TITLE - 3] + "..."


def conflict_lines(data):
    """Returns the numbers of the first line that begins a conflict and of the last one that ends it, counted from 1, or None."""
    begin = BEGINS.search(data)
    # the last one alone is kept: a file may have millions
    ends = collections.deque(ENDS.finditer(data, begin.start()) if begin else (), maxlen=1)
    return tuple(data.count(b"\n", 0, it.start()) + 1 for it in (begin, *ends)) if ends else None


def has_conflict(change):
    """Whether one of the two sides of a change has lines of a conflict."""
    return bool(conflict_lines(change.old_data) or conflict_lines(change.new_data))


def conflict_note(change):
    """Returns the line that warns of a conflict."""
    for name, data in (("RIGHT", change.new_data), ("LEFT", change.old_data)):
        found = conflict_lines(data)
        if found:
            return "%s has conflict markers in %s, lines %d to %d: choose all of them, or none" % (shown(change.path), name, *found)
    raise ValueError(change.path)
