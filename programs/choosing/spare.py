"""The spare folder of a change of files: it keeps what is to come and what went, until all is done or put back."""
import contextlib
import errno
import os
import re
import stat

from .change import digest_of
from .folders import IS_FOLDER, IS_PLAIN, closing, identity_of, is_ours, read_whole
from .plans import First, Plan, lines_of, new_token
from .rooms import BESIDE, KEPT, WITHIN
from .words import HalfDone, Stop, shown, words_of

SECRET = "secret"
# the names of the files in it
OURS = r"(?:old|new)-\d+|" + SECRET


def disk_of(opened):
    """Returns by what the disk of an open folder is known: files are renamed within one disk, and within one mount of it."""
    mount = None
    with contextlib.suppress(OSError), open("/proc/self/fdinfo/%d" % opened) as file:
        mount = next((line for line in file if line.startswith("mnt_id:")), None)
    return os.fstat(opened).st_dev, mount


def is_usable(parent, top):
    """Whether a spare folder in the open folder `parent` is of use for files below the open folder `top`."""
    may_write = os.access(".", os.W_OK | os.X_OK, dir_fd=parent)
    return may_write and disk_of(parent) == disk_of(top) and identity_of(parent) != identity_of(top)


def parent_for(place, files, kept):
    """Opens the folder that a spare folder lies in."""
    if place == KEPT:
        return os.open(".", IS_FOLDER, dir_fd=kept)
    return os.open(".." if place == BESIDE else ".", IS_FOLDER, dir_fd=files.at)


def place_for(files, kept):
    """Returns where the spare folder is to lie, and opens the folder around it."""
    place = files.room.place
    parent = parent_for(place, files, kept)
    if place == WITHIN or is_usable(parent, files.at):
        return place, parent
    os.close(parent)
    return WITHIN, parent_for(WITHIN, files, kept)


@contextlib.contextmanager
def noting(notes, path):
    """Adds to `notes` that `path` stays, if it cannot be removed in this block."""
    try:
        yield
    except OSError as error:
        notes.append("%s stays: %s" % (shown(path), error.strerror))


def new_spare(files, kept, stack):
    """Returns a new spare folder for `files`, which is still to be made, with its plan in the open folder `kept`. They are closed
    with `stack`."""
    place, parent = place_for(files, kept)
    first = First(os.path.realpath(files.top), os.fstat(files.at).st_ino, place, ".gabrosty-" + new_token(), new_token())
    plan = stack.enter_context(contextlib.closing(Plan.made(kept, files.room.path, first)))
    return stack.enter_context(contextlib.closing(Spare(files, plan, first, parent)))


@contextlib.contextmanager
def spare_for(files):
    """Gives a new spare folder for `files`. It is removed in the end, and what is said of what stays is then in its `notes`. If
    not all could be put back, it stays."""
    with contextlib.ExitStack() as stack:
        spare = new_spare(files, stack.enter_context(files.room.opened()), stack)
        try:
            spare.make()
            yield spare
        except BaseException as error:
            spare.check_put_back(error)
            raise with_notes(error, spare.remove()) from None
        spare.notes = spare.remove()


def with_notes(error, notes):
    """Returns `error`, with `notes` in its words."""
    is_said = notes and isinstance(error, (Stop, OSError))
    return Stop(", and ".join([words_of(error), *notes])) if is_said else error


class Spare:
    """The spare folder of a `plan` for `files`, open as `at`, in the open folder `parent`. `names` are the files in it, and `entries`
    what is to be done once the plan has that. `first` is the plan's first line."""

    def __init__(self, files, plan, first, parent):
        self.files, self.plan, self.first, self.parent = files, plan, first, parent
        self.at, self.names, self.entries, self.is_there = None, set(), [], False

    @property
    def path(self):
        """Where it lies, to be shown."""
        above = {KEPT: self.plan.where, BESIDE: os.path.dirname(self.first.top), WITHIN: self.first.top}
        return os.path.join(above[self.first.place], self.first.name)

    def make(self):
        os.mkdir(self.first.name, 0o700, dir_fd=self.parent)
        self.is_there = True
        self.open()
        if os.listdir(self.at):
            raise PermissionError(errno.EPERM, "another folder has the name of the spare folder", self.path)
        # another empty folder of this user's may have the name by then; some disks keep no permissions
        with contextlib.suppress(OSError):
            os.fchmod(self.at, 0o700)
        self.make_file(SECRET, self.first.secret.encode())

    def open(self):
        """Opens it. Raises OSError if it is not this user's."""
        at = os.open(self.first.name, IS_FOLDER, dir_fd=self.parent)
        if not is_ours(at, stat.S_ISDIR):
            os.close(at)
            raise PermissionError(errno.EPERM, "it is not yours", self.path)
        self.at, self.names, self.is_there = at, {name for name in os.listdir(at) if re.fullmatch(OURS, name)}, True

    def close(self):
        for opened in (self.at, self.parent):
            if opened is not None:
                os.close(opened)

    def fits(self, inode):
        """Whether the folder is there, and is the one of the plan, which says its `inode` or None. One that was cut off early has
        no secret, and nothing else."""
        with contextlib.suppress(OSError):
            self.open()
            is_same = inode in (None, os.fstat(self.at).st_ino)
            return is_same and (self.has_secret() or set(os.listdir(self.at)) <= {SECRET})
        return False

    def has_secret(self):
        import hmac

        with contextlib.suppress(OSError), closing(os.open(SECRET, os.O_RDONLY | IS_PLAIN, dir_fd=self.at)) as file:
            return hmac.compare_digest(read_whole(file), self.first.secret.encode())
        return False

    def make_file(self, name, data):
        self.names.add(name)
        flags = os.O_WRONLY | os.O_CREAT | os.O_EXCL | IS_PLAIN
        with open(os.open(name, flags, 0o600, dir_fd=self.at), "wb") as file:
            file.write(data)

    def make_link(self, name, target):
        self.names.add(name)
        os.symlink(target, os.fsencode(name), dir_fd=self.at)

    def begin(self, entries):
        """Waits until all that was made is on the disk, and writes into the plan what is to be done."""
        os.fsync(self.at)
        steps = [[entry.path, entry.old, entry.new] for entry in entries]
        self.plan.add([os.fstat(self.at).st_ino, steps, lines_of(self.files.folders)])
        self.entries = entries

    def is_aside(self, entry):
        """Whether what was at the path of `entry` is in the folder."""
        return entry.aside in self.names

    def is_made(self, entry):
        """Whether what is to be at the path of `entry` is still in the folder."""
        return entry.made in self.names

    def is_done(self, entry):
        return not self.is_made(entry) and (self.is_aside(entry) or not entry.was)

    def check(self, path, wanted, side):
        if digest_of(side) != wanted:
            raise Stop("%s changed meanwhile" % shown(path))

    def check_kept(self, name, path, wanted):
        """Stops if the file `name` of the folder, which is for `path`, is not `wanted`."""
        if digest_of(self.files.read_in(self.at, name)[0]) != wanted:
            raise Stop("what is kept for %s in %s has changed" % (shown(path), shown(self.path)))

    def take(self, path, name, wanted):
        """Moves the file at `path` into the folder, as `name`. If it is not `wanted`, moves it back, and stops."""
        folder, last = self.files.beside(path)
        with folder as folder:
            os.rename(last, name, src_dir_fd=folder, dst_dir_fd=self.at)
            self.names.add(name)
            try:
                self.check(path, wanted, self.files.read_in(self.at, name)[0])
            except BaseException:
                self.move_to(folder, last, name, path)
                raise

    def give(self, name, path, wanted, undo):
        """Moves the file `name` of the folder to `path`. Stops if it is not `wanted`, or if something is there. `undo` removes
        folders that are made for it."""
        self.check_kept(name, path, wanted)
        folder, last = self.files.beside(path, undo)
        with folder as folder:
            self.move_to(folder, last, name, path)

    def move_to(self, folder, last, name, path):
        """Moves the file `name` of the folder to `path`, which is `last` in the open folder `folder`. Stops if something is there."""
        if os.access(last, os.F_OK, dir_fd=folder, follow_symlinks=False):
            raise Stop("%s cannot be written: something else is in its place" % shown(path))
        os.rename(name, last, src_dir_fd=self.at, dst_dir_fd=folder)
        self.names.discard(name)

    def do(self, entry, undo):
        """Does what is still to be done for `entry`. `undo` takes that back."""
        if entry.was and not self.is_aside(entry):
            self.take(entry.path, entry.aside, entry.old)
            undo.callback(self.give, entry.aside, entry.path, entry.old, None)
        if self.is_made(entry):
            self.give(entry.made, entry.path, entry.new, undo)
            undo.callback(self.take, entry.path, entry.made, entry.new)
        elif not entry.comes:
            self.files.prune(entry.path, undo)

    def undo(self, entry, undo):
        """Takes back what was done for `entry`. `undo` removes folders that are made if that fails."""
        if entry.comes and not self.is_made(entry) and self.is_done(entry):
            self.take(entry.path, entry.made, entry.new)
        if self.is_aside(entry):
            self.give(entry.aside, entry.path, entry.old, undo)
        if not entry.was:
            self.files.prune(entry.path, undo)

    def check_put_back(self, error):
        """Stops if some entries are done, though all was to be taken back because of `error`."""
        if any(self.is_aside(entry) or entry.comes and not self.is_made(entry) for entry in self.entries):
            words = "%s, and not all could be put back: what is left is in %s, and --undo tries it again"
            raise HalfDone(words % (words_of(error), shown(self.path)))

    def empty(self):
        """Removes the files in it. What says whose it is goes last."""
        for name in sorted(self.names, key=lambda name: name == SECRET):
            with contextlib.suppress(FileNotFoundError):
                os.unlink(name, dir_fd=self.at)

    def remove(self):
        """Removes the folder and its plan, which are needed no more. Returns what is said of what cannot be removed."""
        notes = []
        with noting(notes, self.plan.path):
            self.plan.finish()
            with noting(notes, self.path):
                self.empty()
                if self.is_there:
                    os.rmdir(self.first.name, dir_fd=self.parent)
            self.plan.remove()
        return notes
