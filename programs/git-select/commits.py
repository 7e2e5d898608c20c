"""What git-select does with a choice in commits: commits it, adds it to the last commit, or makes two of that one."""
import functools
import os

from choosing.faults import half_done, step
from choosing.git import reason_in
from choosing.named import read_named
from choosing.said import say
from choosing.signals import status_of
from choosing.waiting import counted
from choosing.words import HalfDone, Stop, shown, words_of
from sides import changed_between
from ways import USES, Stage

# the front end takes no longer message
LONGEST_MESSAGE = 1_000_000
# how many files that are staged already are named before the choice
MOST_NAMED = 20


def can_be_shown(message):
    return len(message.encode()) <= LONGEST_MESSAGE


class Commit(Stage):
    use = USES["Commit"]
    done, nothing, no_change = "committed", "nothing was committed", "there is nothing to commit"
    words, does, too_long = ("git-select", "--commit"), "commits what is marked", "git shows it in its editor"
    accepts = "commits"

    def check(self):
        self.repository.check_no_conflict()
        self.repository.check_identity()

    @functools.cached_property
    def staged(self):
        """The paths of the files that are staged already."""
        return [path for path, *_ in self.repository.staged([], self.repository.top)]

    def empty(self):
        return self.no_change + " beside what is staged: git commit commits that" if self.staged else self.no_change

    def along(self):
        return ", with %s staged before" % counted(len(self.staged), "file") if self.staged else ""

    def before(self):
        if not self.staged:
            return []
        more = ", and %s more" % counted(len(self.staged) - MOST_NAMED, "file") if self.staged[MOST_NAMED:] else ""
        return ["staged before, and %s too: %s%s" % (self.done, ", ".join(map(shown, self.staged[:MOST_NAMED])), more)]

    def messages(self, kept):
        given = self.options.message
        self.begun = "" if given else self.read_message()
        if not can_be_shown(self.begun):
            say("the message to begin with is too long to be shown: " + self.too_long)
            self.begun = ""
        return [given or kept or self.begun]

    def read_message(self):
        """Returns the message to begin with: the template that the user has set."""
        status, path, _ = self.repository.run("config", "--type=path", "--get", "commit.template")
        if status:
            return ""
        path = os.path.join(self.repository.top, os.fsdecode(path).removesuffix("\n"))
        try:
            text = read_named(path).decode(errors="replace")
            return text.replace("\r\n", "\n").replace("\r", "\n")
        except OSError as error:
            raise Stop("the file that commit.template names cannot be read: " + words_of(error)) from None

    def environment(self):
        editor = self.repository.editor()
        return {} if editor is None else {"VISUAL": editor}

    def write(self, choices, scratch, accepted, lock):
        """Commits the index with `choices`, which the index then has. What git and the hooks say is noted."""
        self.repository.update(self.stored(self.all_of(choices), self.use.now), GIT_INDEX_FILE=lock.copy)
        asked, before = self.tree_of(lock), self.repository.last_commit()
        with step("committing"):
            status = status_of(lambda: self.commit("".join(accepted.messages), lock.copy))
        with half_done("it is not known whether git has committed (git log shows it), and the index stays as it was"):
            after = self.repository.last_commit()
            is_made = self.is_made(status, before, after, {asked, self.tree_of(lock)})
        if not is_made:
            moved = "" if after == before else ", and something else moved HEAD to %s" % after[:10]
            raise Stop("git did not commit" + moved)
        self.written.append("the commit")
        with half_done("it is committed, but the index stays as it was (git reset mends that)"):
            lock.keep()
        self.written.append("the index")
        self.note_changes(asked, before, after)
        return [*self.reports(choices), *self.reports_along(choices)], False

    def reports_along(self, choices):
        """Returns what to report of files that were staged before, and of which nothing was chosen."""
        chosen = {choice.change.path for choice in choices}
        return ["%s: %s, staged before" % (self.done, shown(path)) for path in self.staged if path not in chosen]

    def tree_of(self, lock):
        """Returns the name of the tree that a commit of the copied index has."""
        return self.repository.name_by("write-tree", GIT_INDEX_FILE=lock.copy)

    def is_made(self, status, before, after, trees):
        """Whether git made a commit, and `after` is HEAD now. A hook may have moved HEAD; and git may have been cut off behind the
        commit, which then has one of `trees`."""
        # git's status is 1 if it refuses
        if status in (0, 1) or after == before:
            return status == 0 and after != before
        return self.follows(after, before) and self.tree_in(after) in trees

    def follows(self, after, before):
        """Whether a commit has the parent that the new one has."""
        return bool(after) and self.parents_for(before) == self.parents_of(after)

    def parents_for(self, before):
        """Returns the first parent that the new commit has, or none. `before` is the last commit before it."""
        return [before] if before else []

    def parents_of(self, commit):
        return self.repository.git("rev-parse", commit + "^@").decode().split()[:1]

    def tree_in(self, commit):
        return self.repository.name_by("rev-parse", commit + "^{tree}")

    def note_changes(self, asked, before, after):
        """Notes what hooks made of the commit. Stops if HEAD is another commit than the new one by now: a hook may also stage more."""
        with half_done("it is committed"):
            is_moved, is_other = not self.follows(after, before), self.tree_in(after) != asked
        if is_moved:
            raise HalfDone("it is committed, but something moved HEAD behind that: git reflog shows the commit")
        if is_other:
            self.notes.append("a hook changed what is committed: git show")

    def commit(self, message, index):
        """Commits what `index` has, and returns git's status. What git and the hooks say is noted. Without a message of the user
        git opens its editor."""
        if not message.strip() or message == self.begun:
            return self.commit_in_editor(index)
        # as in git's editor, the comments of a template are no part of the message
        return self.commit_with(index, message, "--file=-", *(["--cleanup=strip"] if self.begun else []))

    def commit_with(self, index, message, *words):
        given = {"given": message.encode(), "GIT_INDEX_FILE": index}
        status, output, said = self.repository.run("commit", *words, **given)
        self.note(output + said)
        return status

    def commit_in_editor(self, index, *words):
        status, said = self.repository.with_editor("commit", *words, GIT_INDEX_FILE=index)
        self.note(said)
        return status

    def note(self, said):
        """Notes what git and the hooks said."""
        self.notes += ["git: " + line for line in os.fsdecode(said).splitlines()]


class Amend(Commit):
    use = USES["Amend"]
    words, does, too_long = ("git-select", "--amend"), "adds what is marked to the last commit", "it stays"
    accepts = "amends"

    def check(self):
        super().check()
        self.repository.check_last_commit()
        for name in "MERGE_HEAD", "CHERRY_PICK_HEAD":
            if self.repository.commit_named(name):
                raise Stop("the last commit cannot be amended while %s is there" % name)

    def empty(self):
        return "there is nothing to add: git commit --amend changes the message"

    def read_message(self):
        message = self.repository.message_of("HEAD")
        if message is None:
            say("the message of the last commit is not UTF-8: it stays as it is, if you write no other one")
        return message or ""

    def parents_for(self, before):
        return self.parents_of(before)

    def commit(self, message, index):
        if message == self.begun or not message and not self.begun:
            return self.commit_with(index, "", "--amend", "--no-edit")
        if not message.strip():
            return self.commit_in_editor(index, "--amend")
        return self.commit_with(index, message, "--amend", "--file=-")


class Fixup(Commit):
    use = USES["Fixup"]
    accepts = "commits a fixup"

    words = "git-select", "--fixup"

    def check(self):
        super().check()
        self.repository.check_last_commit()
        self.fixed = self.repository.commit_named(self.options.fixup)
        if not self.fixed:
            raise Stop("%s names no commit" % shown(self.options.fixup))
        self.does = "commits what is marked as a fixup of " + self.fixed[:10]
        self.words = "git-select", "--fixup", self.fixed[:10]

    def messages(self, kept):
        return []

    def commit(self, message, index):
        return self.commit_with(index, "", "--fixup=" + self.fixed)


class Split(Stage):
    use = USES["Split"]
    done, nothing, no_change = "first", "nothing was split", "there is nothing to split: the last commit changes nothing"
    words, does = ("git-select", "--split"), "makes two commits of the last one: what is marked comes first"
    accepts = "splits the commit"

    def check(self):
        self.repository.check_identity()
        self.repository.check_last_commit()
        self.last = self.repository.last_commit()
        parents = self.repository.git("rev-parse", self.last + "^@").decode().split()
        if len(parents) > 1:
            raise Stop("the last commit is a merge, which cannot be split")
        self.parent = parents[0] if parents else None
        self.tree = self.repository.name_by("rev-parse", self.last + "^{tree}")

    def tree_before(self):
        """Returns the name of what the last commit changes."""
        return self.parent or self.repository.empty_tree()

    def read(self, scratch, only=None):
        return changed_between(self, scratch, self.tree_before(), self.last)

    def messages(self, kept):
        begun = self.repository.message_of(self.last)
        if begun is None or not can_be_shown(begun):
            raise Stop("the message of the last commit is too long to be shown, or no text")
        return [self.options.message or kept or begun, begun]

    environment = Commit.environment

    def paths_there(self):
        return self.repository.paths_in(self.tree_before())

    def write(self, choices, scratch, accepted, lock):
        """Makes the two commits, and has HEAD name the second one. The index and the working tree stay."""
        first, second = accepted.messages
        if not first.strip() or not second.strip():
            raise Stop("a commit has no message")
        tree = self.repository.tree_with(self.tree_before(), self.stored(self.all_of(choices), self.use.now), self.folder)
        if tree == self.tree:
            raise Stop("all of it is marked, so nothing is left for the second commit")
        author, signing = self.repository.author_of(self.last), self.repository.signing()
        made = self.repository.commit_tree(tree, [self.parent] if self.parent else [], first, *signing, **author)
        last = self.repository.commit_tree(self.tree, [made], second, *signing, **author)
        if not self.has_files_of(last):
            raise Stop("the second commit would not have the files of the last one")
        self.move_head(last, "split: " + first.strip().split("\n")[0])
        words = "split: %s is %s and %s now: git reset --soft %s takes that back"
        return [*self.reports(choices), words % (self.last[:10], made[:10], last[:10], self.last[:10])], False

    def move_head(self, commit, words):
        """Has HEAD name `commit`. `words` say why, in its log."""
        status, _, said = self.repository.run("update-ref", "-m", words, "HEAD", commit, self.last)
        # git may have been cut off behind that
        if status and self.repository.last_commit() != commit:
            raise Stop(reason_in(said))
        self.written.append("HEAD")

    def has_files_of(self, commit):
        """Whether a commit has the files of the one that is split."""
        names = [self.repository.name_by("rev-parse", name + "^{tree}") for name in (commit, self.last)]
        return names[0] == names[1] == self.tree
