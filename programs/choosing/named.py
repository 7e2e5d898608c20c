"""The file or the folder that the user names by a path, where links are followed one by one. Each folder is opened from the one before it:
so what was looked at is what is used, whatever a name leads to by then."""
import errno
import os
import stat

from .folders import AT_ONCE, IS_FOLDER, IS_PLAIN, closing, read_whole
from .words import Stop, shown

MOST_LINKS = 40  # as the kernel follows
IS_OF_ANOTHER = "%s: it is another user's, in a folder that others may write to"
# a folder on the way need not be one that the user may list
IS_ON_THE_WAY = getattr(os, "O_PATH", os.O_RDONLY) | os.O_DIRECTORY | os.O_CLOEXEC


def find(name, folder):
    """Returns what lstat says of a name in an open folder, or None if nothing is there."""
    try:
        return os.stat(name, dir_fd=folder, follow_symlinks=False)
    except FileNotFoundError:
        return None


def is_trusted(folder, found, is_foreign=False):
    """Whether what lies in an open folder is this user's, or the folder's owner's, or nobody else may put something there. So the kernel looks
    at links, if it is told to (fs.protected_symlinks), but only where a sticky bit is. Without that bit, only a file may be another's: who may
    write to the folder may replace it, and it leads nowhere. In a folder that `is_foreign` its owner counts as any other user. A second name of
    what is no file may have been given by another user, too."""
    around, is_file = os.fstat(folder), stat.S_ISREG(found.st_mode)
    is_shared, is_sticky = around.st_mode & 0o022, around.st_mode & stat.S_ISVTX
    if not (is_shared and (is_sticky or not is_file)) and not (is_foreign and not is_file):
        return True
    owners = (os.geteuid(),) if is_foreign else (os.geteuid(), around.st_uid)
    return found.st_uid in owners and not (is_shared and is_sticky and not is_file and found.st_nlink > 1)


def can_be_foreign(around, inner, is_up):
    """Whether another user may have put the folder `inner` into the folder `around`, or, if a way goes up from `inner`, may have moved that into
    `around`. Both are what fstat says of a folder."""
    come, left = (around, inner) if is_up else (inner, around)
    return (is_up or around.st_mode & 0o022) and come.st_uid not in (0, os.geteuid(), left.st_uid)


def lies_in_foreign(folder):
    """Whether another user may have put an open folder where it is, or one around it."""
    at, is_foreign, is_root = os.open(os.curdir, IS_ON_THE_WAY, dir_fd=folder), False, False
    try:
        while not is_foreign and not is_root:
            above = os.open(os.pardir, IS_ON_THE_WAY, dir_fd=at)
            with closing(at):
                inner, around = os.fstat(at), os.fstat(above)
            at = above
            is_foreign, is_root = can_be_foreign(around, inner, False), os.path.samestat(inner, around)
    except OSError:
        # who may not go further up sees no more
        pass
    os.close(at)
    return bool(is_foreign)


def is_of_processes(folder):
    """Whether an open folder is one of /proc: a link there leads to what is open, which may have no name any more."""
    try:
        return os.fstat(folder).st_dev == os.stat("/proc").st_dev
    except OSError:
        return False


class Named:
    """What `path` names: in the open folder `at`, whose path without a link is `folder`, the file `name`, which need not be there; or the
    folder itself, then `name` is None. Stops if a link, or what is named and is no folder, is another user's, and all may put theirs
    there. If it `is_to_be_read`, only links are refused, and what is named may be a link of /proc."""

    def __init__(self, path, is_to_be_read=False):
        self.asked, self.left, self.links, self.name = path, path.split("/")[::-1], 0, None
        self.is_to_be_read = is_to_be_read
        self.at, self.parts = os.open(os.curdir, IS_ON_THE_WAY), [part for part in os.getcwd().split("/") if part]
        # whether another user may have put there the folder `at`, or one around it
        self.is_foreign = not os.path.isabs(path) and lies_in_foreign(self.at)
        if os.path.isabs(path):
            self.begin()
        while self.left:
            self.step(self.left.pop())

    @property
    def folder(self):
        return "/" + "/".join(self.parts)

    @property
    def path(self):
        return self.folder if self.name is None else os.path.join(self.folder, self.name)

    def open_folder(self):
        """Opens the folder once more, to be listed."""
        return os.open(os.curdir, IS_FOLDER, dir_fd=self.at)

    def check_is_folder(self):
        """Raises OSError if a file is named, or nothing."""
        if self.name is not None:
            number = errno.ENOTDIR if find(self.name, self.at) else errno.ENOENT
            raise OSError(number, os.strerror(number), self.path)

    def go(self, path, parts, **below):
        """Goes on in the folder at `path`, whose path without a link has these parts."""
        try:
            at = os.open(path, IS_ON_THE_WAY | os.O_NOFOLLOW, **below)
        except OSError as error:
            raise OSError(error.errno, error.strerror, "/" + "/".join(parts)) from None
        before, self.at, self.parts = self.at, at, parts
        with closing(before):
            self.is_foreign = bool(below) and (self.is_foreign or self.goes_astray(before, path == os.pardir))

    def goes_astray(self, before, is_up):
        """Whether another user may have put the folder `at` there, to which the way came from the open folder `before`."""
        found, left = os.fstat(self.at), os.fstat(before)
        return can_be_foreign(*((found, left) if is_up else (left, found)), is_up)

    def begin(self):
        self.go("/", [])

    def step(self, name):
        if name in ("", os.curdir):
            return
        self.check_is_folder()
        if name == os.pardir:
            self.go(name, self.parts[:-1], dir_fd=self.at)
            return
        found = find(name, self.at)
        if found and stat.S_ISDIR(found.st_mode):
            self.go(name, [*self.parts, name], dir_fd=self.at)
            return
        is_link = found and stat.S_ISLNK(found.st_mode)
        if found and (is_link or not self.is_to_be_read):
            self.check(found)
        if is_link and not (self.is_to_be_read and not any(self.left) and is_of_processes(self.at)):
            self.follow(name)
        else:
            self.name = name

    def check(self, found):
        """Stops if what was found in the folder, and is no folder, is not to be used."""
        if not is_trusted(self.at, found, self.is_foreign):
            raise Stop(IS_OF_ANOTHER % shown(self.asked))

    def read_link(self, name):
        """Returns where a link leads to. Another one may have come there since it was looked at: what is read is looked at too."""
        if not hasattr(os, "O_PATH"):
            return os.readlink(name, dir_fd=self.at)
        with closing(os.open(name, os.O_PATH | os.O_NOFOLLOW | os.O_CLOEXEC, dir_fd=self.at)) as link:
            self.check(os.fstat(link))
            return os.readlink("", dir_fd=link)

    def follow(self, name):
        """Goes on along a link."""
        self.links += 1
        if self.links > MOST_LINKS:
            raise OSError(errno.ELOOP, os.strerror(errno.ELOOP), self.asked)
        target = self.read_link(name)
        self.left += target.split("/")[::-1]
        if os.path.isabs(target):
            self.begin()


def open_of_process(name, folder):
    """Opens what a link of /proc in an open folder leads to: a file that is open already."""
    return os.open(name, os.O_RDONLY | AT_ONCE, dir_fd=folder)


def open_of_tree(name, folder):
    """Opens the file of a working tree to which git has made the link `name` in an open folder: by a whole path, on which no link lies. Stops if
    one is there by now. Raises FileNotFoundError if no such path is there."""
    path = os.readlink(name, dir_fd=folder)
    if not os.path.isabs(path):
        raise FileNotFoundError(errno.ENOENT, os.strerror(errno.ENOENT), path)
    found = Named(path, is_to_be_read=True)
    with closing(found.at) as at:
        if found.path != path or found.name is None:
            raise Stop("%s changed meanwhile" % shown(path))
        return os.open(found.name, os.O_RDONLY | IS_PLAIN, dir_fd=at)


def read_named(path):
    """Returns the bytes of the file that the user names by `path`, as Named finds it. Raises OSError if it is no file, or too large."""
    found = Named(path, is_to_be_read=True)
    flags = AT_ONCE if is_of_processes(found.at) else IS_PLAIN
    try:
        with closing(os.open(found.name or os.curdir, os.O_RDONLY | flags, dir_fd=found.at)) as opened:
            if not stat.S_ISREG(os.fstat(opened).st_mode):
                raise OSError(errno.EINVAL, "it is no file")
            return read_whole(opened)
    except OSError as error:
        raise OSError(error.errno, error.strerror, path) from None
