"""What git-select does with a choice in the working tree: takes it back."""
from choosing.change import ABSENT, LINK, Side, Unread
from choosing.files import Files
from choosing.front_end import keep_lost
from choosing.signals import signals_wait
from choosing.waiting import counted, waits
from choosing.words import Stop, shown
from sides import changed_in_tree
from ways import USES, Way

NOT_REGULAR = ABSENT, LINK


def wanted_of(choice, now, made):
    """Returns the mode and the bytes that a file is to have. `now` is what it has, and `made` has what git writes for it."""
    change, (mode, data) = choice.change, made.read(choice.change.path)[0]
    if {choice.mode, change.new.mode, mode, now[0]} & {*NOT_REGULAR}:
        return mode, data
    # what git does not see as changed stays as it is, also where git does not look at it
    return now[0] if choice.mode == change.new.mode else mode, now[1] if choice.data == change.new_data else data


class Restore(Way):
    use = USES["Restore"]
    done, nothing, no_change = "restored", "nothing was restored", "there is nothing to restore"
    words, does = ("git-select", "--restore"), "takes back what is marked"
    accepts = "restores"

    def read(self, scratch, only=None):
        return changed_in_tree(self, scratch, only, is_new_shown=False)

    def prepare(self, choices, accepted):
        self.files = self.repository.files()
        self.repository.check_is_top(self.files.at)
        self.files_now = {choice.change.path: self.files.read(choice.change.path)[0] for choice in choices}

    def paths_there(self):
        # those of the index are in no way of one another
        return self.repository.unindexed()

    def write(self, choices, scratch, accepted, lock):
        """Writes files of the working tree, under the `lock` of the index. What they have now is stored in git first, and
        named."""
        entries = self.entries(self.all_of(choices), scratch)
        names = keep_lost(self.repository, entries)
        self.notes += self.files.change(entries)
        self.written.append("the files")
        reports = self.reports(entries)
        if names:
            reports.append("to have a file as it was before: git cat-file blob %s > FILE" % names[0])
        return reports, False

    def reports(self, entries):
        return self.lines([path for path, _, _ in entries])

    def entries(self, choices, scratch):
        """Returns the paths of the working tree, each with the mode and bytes that are there and those that are to be."""
        now = self.files_now
        with signals_wait(False), waits("preparing %s .." % counted(len(choices), "file")):
            wanted = self.wanted(choices, now, scratch)
        return [(path, now[path], wanted[path]) for path in now]

    def wanted(self, choices, now, scratch):
        """Returns by path the mode and the bytes that the working tree is to have."""
        self.check_written_alike(choices, now, scratch)
        names = scratch.named([(choice.data, choice.name()) for choice in choices])
        entries = [(choice.change.path, Side(choice.mode, name)) for choice, name in zip(choices, names)]
        made = Files(scratch.checked_out(entries, self.folder))
        return {choice.change.path: wanted_of(choice, now[choice.change.path], made) for choice in choices}

    def check_written_alike(self, choices, now, scratch):
        """Stops if git would not write the lines that stay of a file as they are."""
        parts = [it.change for it in choices if (it.mode, it.data) != (it.change.old.mode, it.change.old_data)]
        parts = [change for change in parts if change.new.mode not in NOT_REGULAR]
        scratch.store([change.new_data for change in parts if not isinstance(change.new_data, Unread)])
        made = Files(scratch.checked_out([(change.path, change.new) for change in parts], self.folder))
        for path in (change.path for change in parts):
            if made.read(path)[0][1] != now[path][1]:
                reason = "a filter or line ends would change its other lines: take back all of it, or nothing"
                raise Stop("%s is not %s: %s" % (shown(path), self.done, reason))
