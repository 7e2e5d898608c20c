"""How a program has the user choose in the front end, and keeps the marks."""
import os
import signal

from .accepted import Accepted, kept_of, left_in, left_marks
from .change import ABSENT, Choice
from .faults import step
from .git import run_in_terminal
from .records import record
from .said import program, say, tell
from .temporary import new_file
from .terminal import Kept
from .words import Stop, is_own, shown, words_of

HERE = os.path.dirname(os.path.realpath(__file__))
# where it lies beside an installed program, and what builds it in a tree
INSTALLED, BUILDS = os.path.join(HERE, "../../../bin/scm-select"), os.path.join(HERE, "../../tools/select")
AT_ONCE = 1_000_000  # how many bytes are written at once
# a front end that failed has said why; one of which the user changed a file in an editor has left the marks
STATUSES = ACCEPTED, GIVEN_UP, FAILED, FILE_CHANGED = 0, 1, 2, 3
# keys: made by tools/dev/make-pages
KEYS = """Keys:
  Down, j                   moves down, to the next item
  Up, k                     moves up, to the previous item
  Right, l, Shift-Right, L  moves in: to the first section of a file, or the
                            first line of a section
  Left, h                   moves out: to the section of a line, or the file of
                            a folded section; folds an open section, and a file
  Space                     marks the selected item, or takes its mark away; of
                            a file or section, everything in it
  a                         inverts all marks
  F                         unfolds everything, or folds all if everything is
                            unfolded
  c                         accepts what is marked
  q                         gives up; asks first if something is marked or a
                            message is not empty (then Enter quits, and q goes
                            back); with the layer the programs do not ask where
                            no mark and no message was changed
  ?                         opens or closes the help, which names the keys
  /                         searches for a text, downwards
  n, N                      searches for it again, downwards or upwards
  v                         begins a range at the selected line; ends it
  Space                     while a range is begun: marks its lines, or takes
                            their marks away, and ends it
  Esc                       while a range is begun: ends it
  u                         undoes the last change of marks
  ctrl-r                    does again what was undone last
  g, Home                   selects the first item
  G, End                    selects the last item that is not folded away
  ], [                      selects the next or the previous section, also in a
                            file that is folded
  }, {                      selects the next or the previous file
  ctrl-n, ctrl-p            selects the next or the previous item
  >, <                      shows the columns further right or left
"""
# end of keys
EPILOGUE = KEYS + """
SELECT names another front end: a command that takes --changes, a file of changes, and a file to write to what was accepted. The
man page of scm-select has their form, and says how to choose colours (SELECT_THEME, NO_COLOR) and keys (~/.config/gabrosty/keys)."""


def own_front_end():
    """Returns the command of scm-select as the tree of this program builds it, else as it is installed with it. Stops if another user has put
    that there."""
    path = BUILDS if os.path.exists(BUILDS) and is_own(BUILDS) else INSTALLED
    if os.path.exists(path) and not is_own(path):
        raise Stop("%s is another user's, and is not run" % shown(os.path.realpath(path)))
    return [path]


def front_end():
    asked = os.environ.get("SELECT", "").strip()
    if not asked:
        return own_front_end()
    import shlex

    try:
        return shlex.split(asked)
    except ValueError as error:
        raise Stop("SELECT has no such form: %s" % error) from None


class FileChanged:
    """Stands for a choice that ended since the user changed a file in an editor. `kept` has the marks as they were then."""

    def __init__(self, kept):
        self.kept = kept


def records_of(changes, messages, settings, files_folder):
    """Yields the records that hand in changes, with the messages of commits, the names of settings, and the folder of the files that can be
    opened, if there are such."""
    yield from (record("message", message) for message in messages)
    yield from (record(name) for name in settings)
    yield from (record("blanks-of-" + version) for version in {change.blanks_of for change in changes if change.blanks_of})
    yield from [record("folder", os.fsencode(files_folder))] if files_folder else []
    yield from (change.records() for change in changes)


def ask(changes, folder, task, messages=(), environment=None, settings=(), words=None, files_folder=None):
    """Has the user choose in the front end, whose title says the `task`. `settings` may have `read-only` and `mark-all`. The user may open the
    files of changes, which lie in `files_folder`, in an editor. If the front end is killed, keeps the marks that it left, if the command `words`
    can take them up. Returns the front end's status, and the path of what it wrote."""
    handed, accepted = os.path.join(folder, "changes"), os.path.join(folder, "accepted")
    with open(handed, "wb", AT_ONCE) as file:
        file.writelines(records_of(changes, messages, settings, files_folder))
    open(accepted, "w").close()
    more = {"SELECT_TITLE": "%s: %s" % (program(), task), **(environment or {})}
    status = status_in_terminal([*front_end(), "--changes", handed, accepted], {**os.environ, **more})
    if status not in STATUSES:
        tell_end(status, left_marks(accepted, changes) if words else None, words)
    return status, accepted


def status_in_terminal(command, environment):
    """Runs the front end, and returns its status. If it ends in a way of its own, the terminal is given back as it was."""
    terminal = Kept()
    try:
        status = run_in_terminal(command, environment)[0]
    except OSError as error:
        raise Stop("the front end cannot be run: " + words_of(error)) from None
    if status not in STATUSES:
        terminal.give_back()
    return status


def tell_end(status, kept, words):
    """Says how a front end has ended in a way of its own, and keeps the marks that it left, if there are any."""
    say("the front end " + words_on(status) + ("" if kept or status >= 0 else ": the marks are lost"))
    if kept:
        keep(kept, words)


def words_on(status):
    """Returns how a program has ended: by a signal, if `status` is the negative number of one."""
    names = {-it: it.name for it in signal.Signals}
    return "was killed by %s" % names.get(status, -status) if status < 0 else "ended with status %d" % status


def choose(changes, folder, given_up, task, messages=(), failed=None, **more):
    """Has the user choose as `ask` does. Returns what was accepted, or FileChanged. Stops with the words `given_up` if the user gives up, and
    with `failed`, if that is given, if the front end failed."""
    with step("choosing"):
        status, accepted = ask(changes, folder, task, messages, **more)
        if status == FILE_CHANGED:
            return file_changed(accepted, changes)
        if status:
            raise Stop(failed or given_up if status == FAILED else given_up)
        return Accepted(accepted, changes, len(messages))


def file_changed(path, changes):
    """Returns what stands for a choice that ended since the user changed a file, with the marks that the front end left in the file `path`, and
    says so."""
    left = left_in(path, changes)
    if left is None:
        raise Stop("the front end did not write the marks of %d files" % len(changes))
    say("a file was changed in the editor: the changes are shown anew")
    return FileChanged(kept_of(changes, *left))


def choices_in(accepted, side, now):
    """Returns what is to be of each change by what was accepted, if it is not so now. `side` is `selected` or `unselected`, and `now`
    says which side of a change is in place: `old` or `new`."""
    choices = []
    for whole, modes, data in accepted.sides(side):
        for change, mode in zip(whole.paths(), modes):
            wanted = mode, b"" if mode == ABSENT else data
            if wanted != (getattr(change, now).mode, getattr(change, now + "_data")):
                choices.append(Choice(change, *wanted))
    return choices


def keep(kept, words):
    """Writes marks as they are kept into a file, and says where. `words` are the command that takes them up."""
    import shlex

    try:
        path = write_new(kept, words[0] + "-", ".marks")
    except OSError as error:
        say("your marks cannot be kept: " + words_of(error))
    else:
        say("your marks are kept; to take them up: %s --marks %s" % (" ".join(words), shlex.quote(path)))


def write_new(text, prefix, suffix):
    """Writes a text into a new temporary file, and returns its path. If that fails, no file stays."""
    handle, path = new_file(prefix, suffix)
    try:
        with open(handle, "w", encoding="utf-8") as file:
            file.write(text)
    except OSError:
        os.unlink(path)
        raise
    return path


def keep_lost(git, entries):
    """Stores in git what files lose by `entries` (see Files.change), and prints the names of it. Returns these names. Stops if
    they cannot be printed."""
    lost = [(path, old[1]) for path, old, new in entries if old[0] != ABSENT and old[1] != new[1]]
    names = git.store([data for _, data in lost])
    tell(["kept: %s %s" % (name, shown(path)) for name, (path, _) in zip(names, lost)], "what git kept cannot be named")
    return names
