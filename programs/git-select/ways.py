"""What git-select does with a choice in the index: stages it, or takes it out."""
import collections
import os

from choosing.change import ABSENT, Renamed, Side, Unread
from choosing.decided import ABSENT as NOTHING, KEPT, Row, decide, row_of
from choosing.waiting import counted, waits
from choosing.words import Stop, shown
from lock import Lock
from look import MOST_READ
from repository import FALSE
from sides import changed_in_index, changed_in_tree


# What an option does with a choice: the side of each change that is put in place, the version that is there `now`, the one that is there once
# everything is marked (`goal`), where the new versions lie, and what is written, in this order. docs/WRITES.md says what that is.
Use = collections.namedtuple("Use", "side now goal new_in writes")
REPOSITORY, WORKING_TREE = "the repository", "the working tree"
USES = {
    "Stage": Use("selected", "old", "new", WORKING_TREE, ["the index"]),
    "Unstage": Use("unselected", "new", "old", REPOSITORY, ["the index"]),
    "Restore": Use("unselected", "new", "old", WORKING_TREE, ["the files"]),
    "Stash": Use("unselected", "new", "old", WORKING_TREE, ["the stash", "the files"]),
    "Commit": Use("selected", "old", "new", WORKING_TREE, ["the commit", "the index"]),
    "Amend": Use("selected", "old", "new", WORKING_TREE, ["the commit", "the index"]),
    "Fixup": Use("selected", "old", "new", WORKING_TREE, ["the commit", "the index"]),
    "Split": Use("selected", "old", "new", REPOSITORY, ["HEAD"]),
}
# how many files are named when something is done
MOST_NAMED = 20
# more bytes than files have
NO_LIMIT = 1 << 60


def file_of(change):
    """Returns the change as it is shown: both paths of a renamed file are one."""
    return change.whole or change


def version_in(change, word):
    """Returns the version of a change that `word` names, `old` or `new`: its mode and its bytes."""
    return getattr(change, word).mode, getattr(change, word + "_data")


def name_of(change):
    """Returns what a change is called in a message."""
    return "%s => %s" % (shown(change.gone.path), shown(change.path)) if isinstance(change, Renamed) else shown(change.path)


class Way:
    """A way to use a choice. `use` says what it does. Nothing is said from the first of its `writes` to the last."""

    # the paths of the files that are not read, once these are known
    unread = None
    # how often the changes were read to be shown
    times_read = 0

    def __init__(self, repository, options, start, folder):
        self.repository, self.options, self.start, self.folder = repository, options, start, folder
        self.seen = {}  # of files that were read what stat said of them, and their sides, by path
        self.notes, self.written = [], []  # what is said once all is written, and which of `writes` are

    def check(self):
        """Stops if it can be seen already that the choice could not be used."""

    def tree_before(self):
        """Returns the name of a tree whose paths can be given beside those of the index, or None."""
        return None

    def empty(self):
        """Returns what is said where nothing differs."""
        return self.no_change

    def task(self):
        """Returns what the key `c` does, for the title."""
        return self.does + self.along()

    def along(self):
        """Returns what goes along with a choice, for the title and the status row."""
        return ""

    def before(self):
        """Returns what is said before the user chooses."""
        return []

    def messages(self, kept):
        """Returns the messages of commits that the user can edit. `kept` is that of kept marks."""
        return []

    def environment(self):
        """Returns the variables that the front end is given: the editor that opens files, if git has one of its own."""
        editor = self.repository.editor_for_git()
        return {"VISUAL": editor} if editor else {}

    def prepare(self, choices, accepted):
        """Reads what `write` needs as it was before all is looked at again. Stops if what was accepted cannot be used."""

    def shows_untracked(self):
        """Whether files that git does not know are shown, as the user asks for here, or has set."""
        mode = self.options.untracked or self.repository.settings.get("status.showuntrackedfiles", "normal")
        return mode not in FALSE

    def most_read(self):
        """Returns how many bytes of files are read at most."""
        return NO_LIMIT if self.options.read_all else MOST_READ

    def unread_sides(self, choices, scratch):
        """Stores the new versions of chosen files that were not read, as `git add` does. Returns their sides, by change."""
        changes = {choice.change.path: choice.change for choice in choices if isinstance(choice.change.new_data, Unread)}
        if self.has_new() or not changes:
            return {}
        given = b"".join(os.fsencode(path) + b"\0" for path in changes)
        words = "-c", "core.splitIndex=false", "update-index", "-z", "--add", "--replace", "--stdin"
        self.repository.git(*words, given=given, GIT_INDEX_FILE=scratch.environment["GIT_INDEX_FILE"])
        return {changes[path]: side for path, side in scratch.sides(changes).items()}

    def stored(self, choices, now):
        """Stores the contents of `choices` that the repository does not have. Returns what an index that has their sides `now` is to
        have of them."""
        names = [getattr(choice.change, now).name if choice.mode == ABSENT else self.name_of(choice) for choice in choices]
        missing = [choice for choice, name in zip(choices, names) if not name]
        with waits("storing %s .." % counted(len(missing), "file")):
            stored = iter(self.repository.store([choice.data for choice in missing], [choice.name() for choice in missing]))
        return [(choice.change.path, Side(choice.mode, name or next(stored))) for choice, name in zip(choices, names)]

    def has_new(self):
        """Whether the repository has the new versions."""
        return self.use.new_in == REPOSITORY

    def is_now(self, choice):
        """Whether all is already as a choice has it."""
        return (choice.mode, choice.data) == version_in(choice.change, self.use.now)

    def name_of(self, choice):
        """Returns the name of the object that has the bytes of a choice, if a version has them that the repository has."""
        change = choice.change
        sides = [(change.old, change.old_data)]
        if self.has_new() or isinstance(change.new_data, Unread):
            sides.append((change.new, change.new_data))
        return next((side.name for side, data in sides if data == choice.data), None)

    def lines(self, paths):
        """Returns a line for each file that is done, or one for all if they are many, and the user has not asked for each."""
        if len(paths) > MOST_NAMED and not self.options.verbose:
            return ["%s: %s" % (self.done, counted(len(paths), "file"))]
        return ["%s: %s" % (self.done, shown(path)) for path in paths]

    def paths_there(self):
        """Returns the paths that are beside those of a choice."""
        return self.repository.indexed()

    def row(self, change, choice, file):
        """Returns the row of a path of a shown file: without a choice its marks ask for what is there now."""
        now, goal = (version_in(change, side) for side in (self.use.now, self.use.goal))
        return row_of(change.path, now, goal, (choice.mode, choice.data) if choice else now, file)

    def rows(self, choices):
        """Returns the rows of the files of `choices`, and if a path of these comes also those of the paths beside them."""
        chosen = {choice.change.path: choice for choice in choices}
        files = dict.fromkeys(file_of(choice.change) for choice in choices)
        rows = [self.row(change, chosen.get(change.path), file) for file in files for change in file.paths()]
        if all(row.is_there or row.wanted == NOTHING for row in rows):
            return rows
        others = dict.fromkeys(self.paths_there())
        for row in rows:
            others.pop(row.path, None)
        return [*rows, *(Row(path, True, False, KEPT, None) for path in others)]

    def without_blocked(self, choices):
        """Returns `choices` without the files that would remove one that stays. Notes these."""
        rows = {row.path: row for row in self.rows(choices)}
        decided = decide(rows.values())
        for file, (_, other) in sorted(decided.left_out.items(), key=lambda it: it[0].path):
            why = "stays" if rows[other].file in decided.left_out else "is not marked"
            self.notes.append("%s is not %s: that would remove %s, which %s" % (name_of(file), self.done, shown(other), why))
        return [choice for choice in choices if decided.is_taken(rows[choice.change.path])]

    def all_of(self, choices):
        """Returns `choices`. Stops if one of them would remove a file that is not chosen."""
        if len(self.without_blocked(choices)) < len(choices):
            raise Stop("what is left out is named above")
        return choices

    def locked_index(self):
        """Keeps others from the index, as git does, and gives a copy of it that can take its place. Stops if the repository is
        another one by now."""
        self.repository.check_same()
        return Lock(self.repository.index, os.path.join(self.folder, "index"))


class Stage(Way):
    use = USES["Stage"]
    done, nothing, no_change = "staged", "nothing was staged", "there is nothing to stage"
    words, does = ("git-select",), "stages what is marked"
    accepts = "stages"

    def read(self, scratch, only=None):
        """Returns the sides of each file that differs, by path, and notes on what is left out. With `only`, a set of paths, others may
        be passed over."""
        return changed_in_tree(self, scratch, only)

    def write(self, choices, scratch, accepted, lock):
        """Puts `choices` in place, under the `lock` of the index. Returns what to report, and whether something was left."""
        taken = self.without_blocked(choices)
        if taken:
            self.put(self.stored(taken, self.use.now), lock.copy)
            lock.keep()
            self.written.append("the index")
        return self.reports(taken), len(taken) < len(choices)

    def put(self, entries, index):
        """Writes paths with their sides into an index."""
        self.repository.update(entries, GIT_INDEX_FILE=index)

    def reports(self, choices):
        emptied = dict.fromkeys(choice.change.path for choice in choices if self.is_emptied(*choice))
        others = [choice.change.path for choice in choices if choice.change.path not in emptied]
        return [*self.lines(others), *("%s: %s, as an empty file" % (self.done, shown(path)) for path in emptied)]

    def is_emptied(self, change, mode, data):
        """Whether a choice leaves an empty file where the goal is none, or one with lines."""
        if data or mode == ABSENT:
            return False
        goal_mode, goal_data = version_in(change, self.use.goal)
        return goal_mode == ABSENT or bool(goal_data)


class Unstage(Stage):
    done, nothing, no_change = "unstaged", "nothing was unstaged", "there is nothing to unstage"
    words, does = ("git-select", "--unstage"), "takes what is marked out of the index"
    accepts = "unstages"
    use = USES["Unstage"]

    def tree_before(self):
        return self.repository.last_tree()

    def read(self, scratch, only=None):
        return changed_in_index(self, scratch)

    def put(self, entries, index):
        # the working tree does not have each file of the index: what it is not to have would count as deleted there
        skipped = self.repository.skipped([path for path, side in entries if side.mode != ABSENT], index)
        super().put(entries, index)
        self.repository.skip(skipped, index)
