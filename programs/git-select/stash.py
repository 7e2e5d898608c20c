"""What git-select does with a choice in the working tree: stashes it."""
import contextlib
import os

from choosing.change import ABSENT, LINK
from choosing.files import Files
from choosing.folders import IS_FOLDER, closing, folder_of
from choosing.front_end import choices_in
from choosing.git import Git
from choosing.waiting import waits
from choosing.words import HalfDone, Stop, printable, shown
from restore import Restore
from scratch import NO_HOOKS
from ways import USES, Stage


def write_out(top, entries):
    """Writes paths with their modes and bytes into the new folder `top`. Raises OSError if a path leads through a link, as one of these may
    where a disk folds names."""
    os.makedirs(top)
    with closing(os.open(top, IS_FOLDER)) as opened:
        for path, side in entries:
            make_folders(path, opened)
            with folder_of(path, opened) as (folder, name):
                write_in(folder, name, *side)


def make_folders(path, top):
    """Makes the folders that `path` lies in below the open folder `top`, where they are missing."""
    for at, sign in enumerate(path):
        if sign == "/":
            with folder_of(path[:at], top) as (folder, name), contextlib.suppress(FileExistsError):
                os.mkdir(name, dir_fd=folder)


def write_in(folder, name, mode, data):
    """Writes a new file or link in an open folder, or nothing if `mode` is that of no file."""
    if mode == LINK:
        os.symlink(data, os.fsencode(name), dir_fd=folder)
    elif mode != ABSENT:
        made = os.open(name, os.O_WRONLY | os.O_CREAT | os.O_EXCL | os.O_NOFOLLOW, 0o777 if mode == "100755" else 0o666, dir_fd=folder)
        with open(made, "wb") as file:
            file.write(data)


def word_for(stash):
    """Returns a word that names the stash with this name: its first signs, up to a letter. git takes a word of digits for a place in the
    list of stashes."""
    words = (stash[:length] for length in range(10, len(stash) + 1))
    return next((word for word in words if not word.isdigit()), stash + "^0")


class Trial(Git):
    """A copy of a repository's index, with some files of its working tree, in `folder`. `scratch` has the store of objects that git
    writes to. `entries` are the paths, each with the mode and the bytes that the file has."""

    # what watches the repository's files knows nothing of these
    options = "-c", "core.fsmonitor=false", "-c", "core.splitIndex=false", *NO_HOOKS

    def __init__(self, repository, scratch, index, folder, entries):
        import shutil

        top, own = (os.path.join(folder, name) for name in ("files", "own"))
        write_out(top, entries)
        os.makedirs(own)
        shutil.copy2(index, os.path.join(own, "index"))
        with open(os.path.join(own, "HEAD"), "w") as file:
            file.write(repository.last_commit() + "\n")
        super().__init__(top, {
            **scratch.environment, "GIT_DIR": own, "GIT_COMMON_DIR": repository.path_to(repository.common), "GIT_WORK_TREE": top,
            "GIT_INDEX_FILE": os.path.join(own, "index"),
        })

    def is_popped(self, stash):
        """Whether `git stash pop` has a stash back."""
        return self.run("stash", "apply", "--quiet", stash)[0] == 0

    def is_applied(self, stash, wanted):
        """Whether the files are as they are `wanted` once the lines of a stash are applied to them."""
        status, lines, _ = self.run("stash", "show", "-p", "--binary", stash)
        if status or self.run("apply", given=lines)[0]:
            return False
        files = Files(self.top)
        return all(files.read(path)[0] == side for path, side in wanted)


class Stash(Restore):
    use = USES["Stash"]
    done, nothing, no_change = "stashed", "nothing was stashed", "there is nothing to stash"
    words, does = ("git-select", "--stash"), "stashes what is marked"
    accepts = "stashes"

    def check(self):
        self.repository.check_no_conflict()
        self.repository.check_identity()
        self.repository.check_last_commit()

    def write(self, choices, scratch, accepted, lock):
        """Takes files of the working tree back, as Restore does, once git has what is marked as a stash."""
        entries = self.entries(self.all_of(choices), scratch)
        kept = self.kept(entries)
        staged = Stage(self.repository, self.options, self.start, self.folder)
        stashed = self.stored(staged.all_of(choices_in(accepted, staged.use.side, staged.use.now)), staged.use.now)
        stash = self.repository.store_stash(stashed, self.options.message, self.folder, lock.copy)
        try:
            self.notes += self.files.change(entries)
        except HalfDone:
            raise
        except BaseException:
            self.repository.drop_stash(stash)
            raise
        self.written += self.use.writes
        return [*self.reports(entries), *self.way_back(stash, entries, kept, scratch, lock)], False

    def kept(self, entries):
        """Stores what files lose. Returns the names and the paths of it."""
        lost = [(path, old[1]) for path, old, new in entries if old[0] != ABSENT and old[1] != new[1]]
        return list(zip(self.repository.store([data for _, data in lost]), (path for path, _ in lost)))

    def way_back(self, stash, entries, kept, scratch, lock):
        """Returns what is said of how the stash is had back: the first way that works on a copy of the files."""
        trials = (Trial(self.repository, scratch, lock.copy, os.path.join(self.folder, name), [(it[0], it[2]) for it in entries])
                  for name in ("popped", "applied"))
        with contextlib.suppress(Stop, OSError), waits("trying git stash pop .."):
            if next(trials).is_popped(stash):
                return ["git stash pop has it back"]
            if next(trials).is_applied(stash, [(it[0], it[1]) for it in entries]):
                return ["%s has it back" % self.applying(stash)]
        words = "to have a file as it was before: git cat-file blob %s > FILE"
        return [*("kept: %s %s" % (name, shown(path)) for name, path in kept), *(words % name for name, _ in kept[:1])]

    def applying(self, stash):
        """Returns the command that applies the lines of a stash. `git apply` passes over files outside of the user's folder."""
        import shlex

        above = os.path.relpath(self.repository.top)
        where = "" if above == os.curdir else "-C %s " % printable(shlex.quote(above))
        return "git stash show -p --binary %s | git %sapply" % (word_for(stash), where)
