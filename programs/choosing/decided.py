"""Which files of a choice are left out, and what becomes of each path. No Python decides it: scm-select does, by the library. A version of
a path is its mode with its bytes."""
import collections
import os
import subprocess

from .change import ABSENT as NO_FILE
from .front_end import own_front_end
from .git import reason_in, run_to_end, split_by_zeros
from .words import Stop, shown

KEPT, ABSENT, NOW, GOAL, CHOSEN = "=", "-", "o", "n", "c"

# A path: whether it is there now, whether it is once everything is marked, the version that the marks ask for (ABSENT, NOW, GOAL or
# CHOSEN), and the file that it belongs to, which both paths of a renamed file have. One that is not shown is KEPT, and has no file.
Row = collections.namedtuple("Row", "path is_there is_goal wanted file")

# why nothing is decided, by the letter of the record that says so
FAULTS = {
    "#": "it is no row of a path",
    "2": "it is there twice",
    "!": "it may lead out of the folder, or to what git or jj keeps for itself",
    "/": "a file would lie in another one",
    "+": "a renamed file would not be at exactly one of its paths",
}


class Undecided(Stop):
    """Why nothing is decided."""


class Decided:
    """What becomes of paths: `outcomes` has the version of each path that is shown, and `left_out` each file that is left out, with a
    path of its own that would come, and a path that stays, of which one would lie in the other."""

    def __init__(self, rows, output):
        files, self.outcomes, self.left_out = {row.path: row.file for row in rows}, {}, {}
        records = iter((record[:1], record[2:]) for record in split_by_zeros(output))
        for letter, path in records:
            if letter in FAULTS:
                raise Undecided("%s is refused: %s" % (shown(path) if path else "the choice", FAULTS[letter]))
            if letter == "x":
                self.left_out[files[path]] = path, next(records)[1]
            else:
                self.outcomes[path] = letter

    def is_taken(self, row):
        """Whether the path of `row` has what its marks ask for."""
        return self.outcomes[row.path] == row.wanted


def row_of(path, now, goal, wanted, file):
    """Returns the row of a shown path, by the version that is there now, the one that is there once everything is marked, and the one
    that the marks ask for."""
    letter = ABSENT if wanted[0] == NO_FILE else NOW if wanted == now else GOAL if wanted == goal else CHOSEN
    return Row(path, now[0] != NO_FILE, goal[0] != NO_FILE, letter, file)


def row_that_goes(path):
    """Returns the row of a path that is there now, and is to be gone."""
    return Row(path, True, False, ABSENT, path)


def version_by(letter, now, goal, wanted):
    """Returns the version of a path that was decided, by its letter: one of those of its row."""
    return {ABSENT: (NO_FILE, b""), NOW: now, GOAL: goal, CHOSEN: wanted}[letter]


def given_of(rows):
    """Returns the rows as scm-select takes them: those of one file stand one after the other."""
    files = {}
    for row in rows:
        files.setdefault(row.path if row.file is None else (row.file,), []).append(row)
    ordered = ((row, number > 0) for found in files.values() for number, row in enumerate(found))
    return os.fsencode("".join([head_of(row, is_second) + row.path + "\0" for row, is_second in ordered]))


def head_of(row, is_second):
    return (NOW if row.is_there else ABSENT) + (GOAL if row.is_goal else ABSENT) + row.wanted + ("+" if is_second else " ")


def decide(rows):
    """Has scm-select decide what becomes of the paths of `rows`, each of which has one. Stops if they are not those of two trees (Undecided), or
    if it cannot be run."""
    pipes = dict.fromkeys(("stdin", "stdout", "stderr"), subprocess.PIPE)
    try:
        status, output, said = run_to_end([*own_front_end(), "--decide"], given_of(rows), **pipes)
    except OSError as error:
        raise Stop("scm-select cannot be run: %s" % error.strerror) from None
    if status:
        raise Stop(reason_in(said))
    return Decided(rows, output)
