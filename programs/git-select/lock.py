"""The lock of an index. All is done in the open folder of the index: another folder that has its name by then is not touched."""
import contextlib
import errno
import os
import re
import stat

from choosing.folders import closing
from choosing.locks import lock_open
from choosing.permissions import Permissions, give, permissions_of_file
from choosing.said import say
from choosing.words import Stop, shown, words_of

IS_LOCKED = "%s is there: another git command is at work, or one was cut off"
IS_LEFT = "%s was left by a git select that was cut off: git select --undo removes it; see git status and git log then"
IS_COPIED = "%s was left by a git select in another copy of this repository: remove it if no git is at work"
# what the lock has in it as long as it is there, before its inode: a copy of it has another one
MARK = b"git select "
MOST_OF_LOCK = 99  # bytes
# what is written beside the index, before it has its place
BESIDE = "git-select-"
LEFT = re.escape(BESIDE) + "[0-9a-f]{16}"
# what a disk says that gives a file no second name
NO_SECOND_NAME = errno.EPERM, errno.EACCES, errno.ENOTSUP, errno.ENOSYS, errno.EMLINK


def lock_name(index):
    """Returns the name of the lock of an index."""
    return index.name + ".lock"


def lock_path(index):
    """Returns where the lock of an index lies, to be shown."""
    return os.path.join(index.above, lock_name(index))


def mark_of(found):
    """Returns by what a file is known, or None if there is none: not by its name alone, since another one may have that by now."""
    return found and (found.st_dev, found.st_ino)


def state_of(found):
    """Returns by what it is seen that an index is as it was, or None if there is none."""
    return found and (*mark_of(found), found.st_size, found.st_mtime_ns)


def mark_in(file):
    """Returns what an open file has in it as the lock."""
    return b"%s%d\n" % (MARK, os.fstat(file.fileno()).st_ino)


def open_left(index):
    """Opens the lock of an index, if it was left by a git select that was cut off. Else returns None."""
    with contextlib.ExitStack() as stack:
        try:
            file = stack.enter_context(open(index.open(lock_name(index), os.O_RDWR), "r+b"))
            is_left = file.read(MOST_OF_LOCK) == mark_in(file)
        except OSError:
            return None
        # one that is at work has locked it in this way too
        is_left = is_left and lock_open(file.fileno()) and mark_of(index.found(lock_name(index))) == mark_of(os.fstat(file.fileno()))
        if is_left:
            stack.pop_all()
        return file if is_left else None


def is_left_at(index):
    """Whether the lock of an index was left by a git select that was cut off."""
    left = open_left(index)
    if left:
        left.close()
    return bool(left)


def words_on_copied(index):
    """Returns what is said of the lock of an index that has the mark of another file, or None if it has none: then the repository
    was copied while that was its lock."""
    with contextlib.suppress(OSError), open(index.open(lock_name(index), os.O_RDONLY), "rb") as file:
        # there may be nothing to read yet in what is no file
        found = file.read(MOST_OF_LOCK) or b""
        return IS_COPIED % shown(lock_path(index)) if found.startswith(MARK) and found != mark_in(file) else None
    return None


def words_on(index):
    """Returns what is said of the lock of an index that is there."""
    return words_on_copied(index) or (IS_LEFT if is_left_at(index) else IS_LOCKED) % shown(lock_path(index))


def check_free(index):
    """Stops if the lock of an index is there."""
    if index.found(lock_name(index)):
        raise Stop(words_on(index))


class Beside:
    """A new file in the folder of `index`, open as `file`. It gets its place by a second name, or by a rename."""

    def __init__(self, index):
        self.index, self.name = index, BESIDE + os.urandom(8).hex()
        self.file = open(index.open(self.name, os.O_WRONLY | os.O_CREAT | os.O_EXCL), "wb")
        lock_open(self.file.fileno())

    def link(self, name):
        """Gives the file the second name `name`, if no file has it."""
        os.link(self.name, name, src_dir_fd=self.index.folder, dst_dir_fd=self.index.folder, follow_symlinks=False)

    def rename(self, name):
        os.rename(self.name, name, src_dir_fd=self.index.folder, dst_dir_fd=self.index.folder)

    def remove(self):
        """Removes the name beside the index, if it is still there. If that fails, it is said, and undoes nothing."""
        try:
            os.unlink(self.name, dir_fd=self.index.folder)
        except FileNotFoundError:
            pass
        except OSError as error:
            say("%s stays: %s" % (shown(os.path.join(self.index.above, self.name)), error.strerror))


class Lock:
    """The lock of an index, by git's own file for it, while a block runs. `copy` is a copy of the index. With `takes_left`, a lock
    that was left by a git select that was cut off is taken over. Signals have to wait while the lock is held.

    The lock is never there without its mark, and it has it until the end: so a lock that is left is known whenever this is cut off."""

    def __init__(self, index, copy, takes_left=False):
        self.index, self.copy, self.takes_left = index, copy, takes_left
        self.name, self.path = lock_name(index), lock_path(index)

    def __enter__(self):
        self.take()
        try:
            self.remove_left()
            self.before = state_of(self.index.copy_to(self.copy))
        except BaseException:
            self.__exit__()
            raise
        return self

    def take(self):
        try:
            file = self.new_lock()
        except FileExistsError:
            file = open_left(self.index) if self.takes_left else None
            if not file:
                raise Stop(words_on(self.index)) from None
        self.file, self.mark = file, mark_of(os.fstat(file.fileno()))

    def new_lock(self):
        """Makes the lock, with its mark, and returns it open."""
        made = Beside(self.index)
        try:
            made.file.write(mark_in(made.file))
            made.file.flush()
            self.give_name(made)
        except BaseException:
            made.file.close()
            raise
        finally:
            made.remove()
        return made.file

    def give_name(self, made):
        """Gives a new file the name of the lock, if no file has it. A disk without second names has one that is empty before that."""
        try:
            made.link(self.name)
        except OSError as error:
            if error.errno not in NO_SECOND_NAME:
                raise
            self.give_name_by_rename(made)

    def give_name_by_rename(self, made):
        os.close(self.index.open(self.name, os.O_WRONLY | os.O_CREAT | os.O_EXCL))
        try:
            made.rename(self.name)
        except OSError:
            os.unlink(self.name, dir_fd=self.index.folder)
            raise

    def remove_left(self):
        """Removes what other calls left beside the index that were cut off. None of them is at work."""
        for name in os.listdir(self.index.folder):
            if re.fullmatch(LEFT, name):
                self.remove_unlocked(name)

    def remove_unlocked(self, name):
        """Removes a file of this user's, unless a program that is at work has it."""
        with contextlib.suppress(OSError), open(self.index.open(name, os.O_RDONLY), "rb") as file:
            found = os.fstat(file.fileno())
            if stat.S_ISREG(found.st_mode) and found.st_uid == os.geteuid() and lock_open(file.fileno()):
                os.unlink(name, dir_fd=self.index.folder)

    def keep(self):
        """Has the copy take the place of the index."""
        if mark_of(self.index.found(self.name)) != self.mark:
            self.take_again()
        made = Beside(self.index)
        try:
            with made.file, open(self.copy, "rb") as new:
                made.file.write(new.read())
                self.make_alike(made.file, os.fstat(new.fileno()))
            made.rename(self.index.name)
        finally:
            made.remove()

    def make_alike(self, file, copied):
        """Gives the new index the permissions of the one that is there, and the time of the copy, of which fstat says `copied`."""
        file.flush()
        give(file.fileno(), self.permissions() or Permissions(copied.st_mode & 0o777, None, ()))
        os.utime(file.fileno(), ns=(copied.st_atime_ns, copied.st_mtime_ns))

    def permissions(self):
        """Returns the permissions of the index that is there, or None if there is none."""
        try:
            opened = self.index.open(self.index.name, os.O_RDONLY)
        except FileNotFoundError:
            return None
        with closing(opened):
            return permissions_of_file(opened)

    def take_again(self):
        """Takes the lock that someone removed. Stops if the index is another one by now."""
        self.file.close()
        self.take()
        if state_of(self.index.found(self.index.name)) != self.before:
            raise Stop("%s was removed, and %s was written meanwhile" % (shown(self.path), shown(self.index.path)))

    def __exit__(self, *_):
        try:
            # a lock that was removed may be another's by now
            if mark_of(self.index.found(self.name)) == self.mark:
                os.unlink(self.name, dir_fd=self.index.folder)
        except OSError as error:
            say("%s stays: %s" % (shown(self.path), words_of(error)))
        # what could not be written is not tried once more
        with contextlib.suppress(OSError):
            self.file.close()
