"""A change of files that was cut off, as by a loss of power: what of it is done, and how it is finished or undone."""
import contextlib
import os

from .change import digest_of
from .files import named
from .plans import NOTHING, NOT_PLANNED, in_order, plans_of
from .rooms import WITHIN
from .spare import Spare, parent_for
from .words import Stop, shown


class CutOff:
    """What was left by a change of files that was cut off: its spare folder `spare`, and what is `planned`. If that has no entries,
    the folder is not needed."""

    def __init__(self, spare, planned):
        self.files, self.spare, self.entries = spare.files, spare, in_order(planned.entries)
        self.files.folders = planned.folders

    @property
    def path(self):
        return self.spare.path

    def progress(self):
        """Returns how many of the files are as they are to be, and of how many."""
        return sum(map(self.spare.is_done, self.entries)), len(self.entries)

    def check(self):
        """Stops if what is kept, or what is at a path, is not what the plan says, before anything is moved."""
        for entry in self.entries:
            if self.spare.is_aside(entry):
                self.spare.check_kept(entry.aside, entry.path, entry.old)
            if self.spare.is_made(entry):
                self.spare.check_kept(entry.made, entry.path, entry.new)
            elif entry.comes and not self.spare.is_done(entry):
                raise Stop("what is kept for %s in %s is gone" % (shown(entry.path), shown(self.path)))
            if digest_of(self.files.read(entry.path)[0]) != self.standing(entry):
                raise Stop("%s changed since" % shown(entry.path))

    def standing(self, entry):
        """Returns what is at the path of an entry, by what is kept."""
        if self.spare.is_done(entry):
            return entry.new
        return NOTHING if self.spare.is_aside(entry) else entry.old

    def finish(self):
        """Puts in place what is not there yet. Stops if something else is there, and can be called again then. Returns the entries,
        and what is said of what cannot be removed."""
        self.check()
        for entry in self.entries:
            with named(entry.path, "written"), contextlib.ExitStack() as undo:
                self.spare.do(entry, undo)
                undo.pop_all()
        return self.entries, self.spare.remove()

    def undo(self):
        """Puts back what was there. Stops if something else is there, and can be called again then. Returns the same."""
        self.check()
        for entry in reversed(self.entries):
            with named(entry.path, "written"), contextlib.ExitStack() as undo:
                self.spare.undo(entry, undo)
                undo.pop_all()
        return self.entries, self.spare.remove()


def read_left(plan):
    """Returns what a plan says, or None twice if a program is at work with it. One that was cut off before its first line is removed."""
    if not plan.is_left():
        return None, None
    first, planned = plan.read()
    if not first:
        with contextlib.suppress(OSError):
            plan.remove()
    return first, planned


def spares_left(files, stack, is_at_work):
    """Yields the spare folders of `files` that plans name, each with what the plan says is to be done. With `is_at_work` also those
    that a program is at work with. They are closed with `stack`."""
    kept = stack.enter_context(files.room.found())
    for plan in plans_of(kept, files.room.path, files.top) if kept is not None else []:
        stack.callback(plan.close)
        first, planned = plan.read() if is_at_work else read_left(plan)
        if first and (first.top, first.inode) == (os.path.realpath(files.top), os.fstat(files.at).st_ino):
            spare = Spare(files, plan, first, parent_for(first.place, files, kept))
            stack.callback(spare.close)
            yield spare, planned


@contextlib.contextmanager
def cut_off(files):
    """Gives what was left by a change of `files` that was cut off, or None if there is nothing. It is locked meanwhile. A plan that
    fits to no spare folder counts for nothing."""
    with contextlib.ExitStack() as stack:
        found = None
        for spare, planned in spares_left(files, stack, is_at_work=False):
            if not found and spare.fits(planned.inode):
                found = CutOff(spare, NOT_PLANNED if spare.plan.is_done() else planned)
            elif not found and (spare.plan.is_done() or not planned.entries):
                # it was cut off before its folder was made, or behind the removal of that
                with contextlib.suppress(OSError):
                    spare.plan.remove()
        yield found


def names_within(files):
    """Returns the names of the spare folders that lie in the folder of `files`, also while a program is at work."""
    with contextlib.ExitStack() as stack:
        found = spares_left(files, stack, is_at_work=True)
        return {spare.first.name for spare, planned in found if spare.first.place == WITHIN and spare.fits(planned.inode)}
