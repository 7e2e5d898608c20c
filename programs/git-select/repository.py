"""Git, as git-select asks it: what may differ between the last commit, the index and the working tree."""
import functools
import os
import stat

from choosing.change import ABSENT, Side
from choosing.git import Git, reason_in, split_by_zeros
from choosing.rooms import KEPT, NAME, Room
from choosing.temporary import own_below
from choosing.waiting import counted
from choosing.words import Stop, printable, shown
from index import Index

NO_FILE = "it is neither a file nor a link"
# what git takes for no in a setting
FALSE = "false", "no", "off", "0", ""
SETTINGS = r"^(core\.(filemode|safecrlf|editor)|status\.showuntrackedfiles)$"
IS_ANOTHER = "%s is another folder by now"
# the words by which git takes no bare repository that GIT_DIR does not name: a clone may track the files of one. Git 2.38 knows them
NAMED = "-c", "safe.bareRepository=explicit"
# the words by which git leaves no process behind: it would know an open folder by the number of this program, which another one may have then
AT_ONCE = "-c", "gc.autoDetach=false", "-c", "maintenance.autoDetach=false"
# git's letter for a path that a sparse working tree is not to have
SKIPPED = "S"
# what git says before a path that it passes over
REFUSED = b"Ignoring path "


def index_lines(entries):
    """Returns paths with their sides in the form that `git update-index --index-info` reads."""
    return os.fsencode("".join(["%s %s\t%s\0" % (side.mode, side.name, path) for path, side in entries]))


def lines_of(paths):
    """Returns paths as git reads them with -z."""
    return os.fsencode("\0".join(paths) + "\0") if paths else b""


def update_index(git, entries, **more):
    """Has `git` write paths with their sides into an index. A side that is absent takes its path out of it. Stops if git refuses a
    path: git says that alone, and goes on."""
    status, _, said = git.run("update-index", "-z", "--index-info", given=index_lines(entries), **more)
    if status:
        raise Stop(reason_in(said))
    refused = [line for line in said.splitlines() if line.startswith(REFUSED)]
    if refused:
        raise Stop("git takes no such path: " + shown(refused[0][len(REFUSED) :]))


def differing_in(output):
    """Yields what git says of files that differ: a path, its two sides, and git's letter for the change."""
    parts = split_by_zeros(output)
    for head, path in zip(parts[0::2], parts[1::2]):
        old_mode, new_mode, *names, letter = head[1:].split()
        old, new = (Side(mode, None if mode == ABSENT else name) for mode, name in zip((old_mode, new_mode), names))
        yield path, old, new, letter


def places(git, *questions):
    """Returns the path that `git rev-parse` answers to each question."""
    lines = os.fsdecode(git.git(*NAMED, "rev-parse", *(word for words in questions for word in words))).split("\n")[:-1]
    if len(lines) != len(questions):
        # a path has a line end, so each is asked for alone
        lines = [os.fsdecode(git.git(*NAMED, "rev-parse", *words)).removesuffix("\n") for words in questions]
    return [os.path.join(git.top, line) for line in lines]


def open_folder(path, **below):
    return os.open(path, os.O_RDONLY | os.O_DIRECTORY | os.O_CLOEXEC, **below)


def open_from(path, top, opened):
    """Opens a folder: from the folder `top` on, which is open as `opened`, if `path` leads on from there. So it is found whatever the
    name of `top` leads to by then."""
    begin = os.path.join(top, "")
    is_below = os.path.join(path, "").startswith(begin)
    return open_folder(path[len(begin) :] or os.curdir, dir_fd=opened) if is_below else open_folder(path)


def is_opened_at(path, opened):
    """Whether `path` leads to a folder that is open."""
    try:
        return os.path.samestat(os.stat(path), os.fstat(opened))
    except OSError:
        return False


class Repository(Git):
    """The repository that the folder `start` lies in. Git runs in folders that stay open, and finds the repository anew each time,
    so that it looks each time whether their owner is one whom the user trusts."""

    def __init__(self, start):
        # this variable would change how many lines of context git writes around a difference
        environment = {name: value for name, value in os.environ.items() if name != "GIT_DIFF_OPTS"}
        self.begun = Git(start, environment, {start: open_folder(os.curdir)})
        top, above, self.own, self.common, index, self.objects, kept = places(
            self.begun, ["--show-toplevel"], ["--show-cdup"], ["--absolute-git-dir"], ["--git-common-dir"], ["--git-path", "index"],
            ["--git-path", "objects"], ["--git-path", NAME],
        )
        super().__init__(top, environment, self.begun.opened)
        if top != start:
            self.opened[top] = open_from(above, start, self.opened[start])
        for path in self.own, self.common:
            self.open(path)
        self.room = Room(kept, KEPT, is_removed=True, above=self.open(os.path.dirname(kept)))
        self.index = self.index_at(index)
        if not self.is_found():
            self.check_is_named()
            self.options = AT_ONCE
            self.environment = {**environment, "GIT_DIR": self.path_to(self.own), "GIT_WORK_TREE": top}

    def open(self, path):
        """Has git run in the folder that `path` leads to at this moment. Returns the folder, which stays open."""
        if path not in self.opened:
            base = next((it for it in (self.begun.top, self.top) if path.startswith(os.path.join(it, ""))), self.top)
            self.opened[path] = open_from(path, base, self.opened[base])
        return self.opened[path]

    def index_at(self, path):
        """Returns the index at `path`. If that is a link, git writes what it leads to."""
        above, name = os.path.split(path)
        try:
            path = os.path.realpath(os.path.join(above, os.readlink(name, dir_fd=self.open(above))))
        except OSError:
            return Index(os.path.join(os.path.realpath(above), name), self.open(above))
        return Index(path, self.open(os.path.dirname(path)))

    def check_is_named(self):
        """Stops if git does not find the repository in its top folder, and neither a variable nor a setting names another one for its
        files; or if git, where no variable names it, does not trust its owner."""
        is_given = "GIT_DIR" in self.environment
        if not is_given and "GIT_WORK_TREE" not in self.environment and self.begun.run("config", "--get", "core.worktree")[0]:
            raise Stop(IS_ANOTHER % shown(self.top))
        if not is_given:
            self.git("-c", "safe.bareRepository=all", "rev-parse", "--git-dir", folder=self.own)

    def files(self):
        """Returns the files of the working tree. Plans of their changes are kept in the git directory."""
        from choosing.files import Files

        return Files(self.top, room=self.room, at=self.opened[self.top])

    def path_to(self, path):
        """Returns a path to a folder that is open, by which it is found whatever its name leads to, where the system has one."""
        by_number = "/proc/%d/fd/%d" % (os.getpid(), self.opened[path])
        return by_number if os.path.isdir(by_number) else path

    def path_to_objects(self):
        """Returns such a path to the folder of the repository's objects."""
        above, name = os.path.split(self.objects)
        return os.path.join(self.path_to(above), name) if above in self.opened else self.objects

    def is_found(self):
        """Whether git finds the repository in its top folder, without variables that name it. Then git says how objects are named, too."""
        if not {"GIT_DIR", "GIT_WORK_TREE"}.isdisjoint(self.environment):
            return False
        found = os.fsdecode(self.run("rev-parse", "--absolute-git-dir", "--show-object-format")[1])
        own, _, algorithm = found.removesuffix("\n").rpartition("\n")
        if own == self.own:
            self.algorithm = algorithm
        return own == self.own

    def check_same(self):
        """Stops if git finds another repository by now, or does not trust the owner of this one."""
        top, own, index = places(self.begun, ["--show-toplevel"], ["--absolute-git-dir"], ["--git-path", "index"])
        opened = self.opened[self.top], self.opened[self.own], self.index.folder
        found = top, own, os.path.dirname(os.path.realpath(index))
        for path, now, folder in zip((self.top, self.own, self.index.above), found, opened):
            if not all(is_opened_at(name, folder) for name in {path, now}):
                raise Stop(IS_ANOTHER % shown(path))

    def check_is_top(self, opened):
        """Stops if a folder that is open is not the top folder."""
        if not os.path.samestat(os.fstat(opened), os.fstat(self.opened[self.top])):
            raise Stop(IS_ANOTHER % shown(self.top))

    @functools.cached_property
    def settings_as_set(self):
        """What the user has set of SETTINGS, by the names. One without a value is `true`."""
        found = (line.partition("\n") for line in split_by_zeros(self.run("config", "-z", "--get-regexp", SETTINGS)[1]))
        return {name: value if middle else "true" for name, middle, value in found}

    @functools.cached_property
    def settings(self):
        """The same in small letters."""
        return {name: value.lower() for name, value in self.settings_as_set.items()}

    def editor_for_git(self):
        """Returns the editor that the user has set for git, or None: then it is that of all programs."""
        return self.environment.get("GIT_EDITOR") or self.settings_as_set.get("core.editor")

    def check_writable(self):
        """Stops if it can be seen already that nothing could be written."""
        for folder in (self.index.above, self.objects):
            if not os.access(folder, os.W_OK):
                raise Stop("%s cannot be written to" % shown(folder))

    def check_no_conflict(self):
        """Stops if the index has files in conflict, which git commits and stashes nothing beside."""
        lines = split_by_zeros(self.git("ls-files", "-z", "--unmerged"))
        paths = sorted({line.partition("\t")[2] for line in lines})
        if paths:
            more = " and %s more" % counted(len(paths) - 1, "file") if paths[1:] else ""
            raise Stop("%s%s in conflict: resolve that first" % (shown(paths[0]) + more, " are" if more else " is"))

    def check_identity(self):
        """Stops if git does not know who the user is."""
        for name in "GIT_AUTHOR_IDENT", "GIT_COMMITTER_IDENT":
            status, _, said = self.run("var", name)
            if status:
                raise Stop("git does not know who you are: " + reason_in(said, last=True))

    def check_last_commit(self):
        if not self.last_commit():
            raise Stop("there is no commit yet")

    def check_paths(self, paths, start, tree):
        """Stops if one of `paths`, seen from the folder `start`, is neither in the working tree nor in the index, nor in `tree` if
        that is one."""
        excludes = ":!", ":^", ":(exclude"
        lost = [path for path in paths if not os.path.lexists(os.path.join(start, path)) and not path.startswith(excludes)]
        if lost:
            also = ["--with-tree=" + tree] if tree else []
            words = "ls-files", "--error-unmatch", "--cached", "--others", "--exclude-standard", *also, "--", *lost
            self.git(*words, folder=start)

    def tracked(self, paths, start):
        """Yields what may differ from the index: a path, its side there, its mode now, and git's letter for the change."""
        parts = split_by_zeros(self.git("diff-files", "-z", "--ignore-submodules=dirty", "--", *paths, folder=start))
        for head, path in zip(parts[0::2], parts[1::2]):
            old_mode, new_mode, name, _, letter = head[1:].split()
            yield path, Side(old_mode, None if old_mode == ABSENT else name), new_mode, letter

    def staged(self, paths, start):
        """Yields what differs between the last commit and the index: a path, its two sides, and git's letter."""
        words = "diff-index", "-z", "--cached", "--no-renames", "--ita-invisible-in-index", "--ignore-submodules=none"
        yield from differing_in(self.git(*words, self.last_tree(), "--", *paths, folder=start))

    def between(self, old, new, paths, start):
        """Yields the same of what differs between two trees."""
        yield from differing_in(self.git("diff-tree", "-r", "-z", "--no-renames", old, new, "--", *paths, folder=start))

    def paths_in(self, tree):
        """Returns the paths of the files of a tree."""
        return split_by_zeros(self.git("ls-tree", "-r", "-z", "--full-tree", "--name-only", tree))

    def last_commit(self):
        """Returns the name of the last commit, or an empty text if there is none."""
        return self.run("rev-parse", "--verify", "--quiet", "HEAD^{commit}")[1].decode().strip()

    def last_tree(self):
        """Returns the name of the last commit, or of an empty folder if there is none."""
        return self.last_commit() or self.empty_tree()

    def empty_tree(self):
        """Returns the name of an empty folder, which need not be stored."""
        return self.name_by("hash-object", "-t", "tree", "--stdin", given=b"")

    def name_by(self, *words, **settings):
        """Returns the name of an object that git answers."""
        return self.git(*words, **settings).decode().strip()

    def commit_named(self, name):
        """Returns the name of the commit that the user calls `name`, or an empty text if there is none."""
        found = b"" if name.startswith("-") else self.run("rev-parse", "--verify", "--quiet", name + "^{commit}")[1]
        return found.decode().strip()

    def message_of(self, commit):
        """Returns the message of a commit, or None if it is not UTF-8."""
        words = "--no-show-signature", "--no-notes", "--encoding=UTF-8", "--format=%B"
        try:
            return self.git("log", "-1", *words, commit, "--").decode().removesuffix("\n")
        except UnicodeDecodeError:
            return None

    def subject_of(self, commit):
        """Returns the short name of a commit and the first line of its message."""
        words = "--no-show-signature", "--encoding=UTF-8", "--format=%h %s"
        return os.fsdecode(self.git("log", "-1", *words, commit, "--")).strip()

    def author_of(self, commit):
        """Returns the variables by which a new commit has the author of `commit`."""
        words = "--no-show-signature", "--encoding=UTF-8", "--format=%an%x00%ae%x00@%ad", "--date=raw"
        values = os.fsdecode(self.git("log", "-1", *words, commit, "--")).removesuffix("\n").split("\0")
        return dict(zip(("GIT_AUTHOR_NAME", "GIT_AUTHOR_EMAIL", "GIT_AUTHOR_DATE"), values))

    def commit_tree(self, tree, parents, message, *words, **author):
        """Stores a commit. Returns its name. `author` is what author_of returns, or nothing."""
        words = [*words, *(word for parent in parents for word in ("-p", parent)), "-F", "-"]
        settings = "-c", "i18n.commitEncoding=UTF-8"
        return self.name_by(*settings, "commit-tree", *words, tree, given=os.fsencode(message), **author)

    def signing(self):
        """Returns the words by which a commit is signed, if the user has set that."""
        return ["-S"] if self.run("config", "--type=bool", "--get", "commit.gpgSign")[1].strip() == b"true" else []

    def tree_with(self, tree, entries, folder):
        """Stores a tree that has the files of another one and these entries (see `update`). Returns its name. An index is made
        in `folder`."""
        index = {"GIT_INDEX_FILE": os.path.join(folder, "tree")}
        self.git("read-tree", tree, **index)
        self.update(entries, **index)
        return self.name_by("write-tree", **index)

    def store_stash(self, entries, message, folder, index):
        """Stores a stash of these entries (see `update`), and returns its name. What they change is counted from the last commit, or
        from all that `index` has, if one of them is staged already."""
        last, branch = self.last_commit(), self.run("symbolic-ref", "--quiet", "--short", "HEAD")[1]
        branch = os.fsdecode(branch).strip() or "(no branch)"
        subject = "%s: %s" % (branch, self.subject_of(last))
        words, begun = "On %s: %s" % (branch, message) if message else "WIP on " + subject, "index on " + subject
        base = last if self.is_unstaged(entries) else self.commit_tree(self.tree_of(index), [last], begun)
        tree = self.tree_with(base, entries, folder)
        stash = self.commit_tree(tree, [base, self.commit_tree(base + "^{tree}", [base], begun)], words)
        self.git("stash", "store", "--quiet", "-m", words, stash)
        return stash

    def is_unstaged(self, entries):
        """Whether the index has the paths of these entries as the last commit does."""
        staged = {path for path, *_ in self.staged([], self.top)}
        return staged.isdisjoint(path for path, _ in entries)

    def tree_of(self, index):
        """Stores the tree that a commit of an index has. Returns its name."""
        return self.name_by("write-tree", GIT_INDEX_FILE=index)

    def drop_stash(self, stash):
        """Takes a stash back, if it is the last one."""
        if self.commit_named("refs/stash") == stash:
            self.git("stash", "drop", "--quiet")

    def untracked(self, paths, start):
        """Returns the paths that only the working tree has, but for this program's own, and what git said of folders that it cannot
        read."""
        words = "ls-files", "-z", "--others", "--exclude-standard", "--full-name", "--"
        status, output, said = self.run(*words, *paths, folder=start)
        if status:
            raise Stop(reason_in(said))
        hidden = tuple(path + "/" for path in own_below(self.top))
        found = [path for path in split_by_zeros(output) if not path.startswith(hidden)]
        return found, [printable(line) for line in os.fsdecode(said).splitlines()]

    def reason_against(self, path):
        """Returns why what is at `path` now cannot be staged, or None if it can."""
        try:
            mode = os.lstat(os.path.join(self.top, path)).st_mode
        except OSError as error:
            return error.strerror
        return None if stat.S_ISREG(mode) or stat.S_ISLNK(mode) else NO_FILE

    def no_files(self, paths, start):
        """Returns those of `paths`, seen from the folder `start`, that are neither files nor links nor folders. Git passes over
        them."""
        found = [os.path.join(start, path) for path in paths]
        found = [os.path.relpath(path, self.top) for path in found if not os.path.isdir(path)]
        return [path for path in found if self.reason_against(path) == NO_FILE]

    def indexed(self):
        """Returns the paths in the index."""
        return split_by_zeros(self.git("ls-files", "-z"))

    def unindexed(self):
        """Returns the paths that only the working tree has, with those that git is told to ignore."""
        return split_by_zeros(self.git("ls-files", "-z", "--others"))

    def skipped(self, paths, index):
        """Returns those of `paths` that a sparse working tree is not to have: as an index says, or of a path that it has not, git's rules."""
        lines = split_by_zeros(self.git("ls-files", "-z", "-t", GIT_INDEX_FILE=index))
        letters = {line[2:]: line[0] for line in lines}
        found, missing = [path for path in paths if letters.get(path) == SKIPPED], [path for path in paths if path not in letters]
        if missing and self.run("config", "--type=bool", "--get", "core.sparseCheckout")[1].strip() == b"true":
            # before 2.41 git does not say it
            status, output, _ = self.run("sparse-checkout", "check-rules", "-z", given=lines_of(missing))
            found += sorted({*missing} - {*split_by_zeros(output)}) if status == 0 else []
        return found

    def skip(self, paths, index):
        """Has an index say of its `paths` that the working tree is not to have them."""
        if paths:
            self.git("update-index", "-z", "--skip-worktree", "--stdin", given=lines_of(paths), GIT_INDEX_FILE=index)

    def update(self, entries, **more):
        """Writes paths with their sides into the index (see update_index)."""
        update_index(self, entries, **more)
