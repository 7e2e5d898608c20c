"""Folders, opened one by one, so that no link in the way of a path is followed; and the whole of an open file."""
import contextlib
import errno
import os
import stat

IS_FOLDER = os.O_RDONLY | os.O_DIRECTORY | os.O_NOFOLLOW | os.O_CLOEXEC
# also a FIFO that took the place of a file is open at once
AT_ONCE = os.O_NONBLOCK | os.O_NOCTTY | os.O_CLOEXEC
IS_PLAIN = AT_ONCE | os.O_NOFOLLOW
MOST_BYTES = 1_000_000_000
TOO_LARGE = "it has more than %s bytes" % format(MOST_BYTES, ",")


@contextlib.contextmanager
def closing(opened):
    try:
        yield opened
    finally:
        os.close(opened)


def identity_of(opened):
    """Returns by what a file or a folder that is open is known: not by its name, since another one may have that by now."""
    found = os.fstat(opened)
    return found.st_dev, found.st_ino


@contextlib.contextmanager
def folder_of(path, top):
    """Gives the folder that `path` lies in below the open folder `top`, open, and the name in it. No link is followed."""
    *names, last = path.split("/")
    at = os.open(".", IS_FOLDER, dir_fd=top)
    for name in names:
        with closing(at):
            below = os.open(name, IS_FOLDER, dir_fd=at)
        at = below
    with closing(at):
        yield at, last


def is_ours(opened, is_kind):
    """Whether what is open is of a kind, by a function of the module stat, and belongs to this user, and nobody else may write to
    it."""
    found = os.fstat(opened)
    return is_kind(found.st_mode) and found.st_uid == os.geteuid() and not found.st_mode & 0o022


def read_whole(opened):
    """Returns the bytes of the open file `opened`. Raises OSError if they are more than MOST_BYTES, or change meanwhile."""
    size = os.fstat(opened).st_size
    if size > MOST_BYTES:
        raise OSError(errno.EFBIG, TOO_LARGE)
    with open(opened, "rb", closefd=False) as file:
        # a byte more, to see that the file grows
        data = file.read(size + 1)
    if len(data) != size:
        raise OSError(errno.EBUSY, "it changes while it is read")
    return data


class Walk:
    """A way through the folders below the open folder `top`: down by their names, and up by `..`, which has to be the folder that
    it came from. However deep they lie, two of them are open at a time."""

    def __init__(self, top):
        self.at, self.names, self.above = os.open(".", IS_FOLDER, dir_fd=top), [], []

    def __enter__(self):
        return self

    def __exit__(self, *_):
        os.close(self.at)

    def go(self, name):
        try:
            opened = os.open(name, IS_FOLDER, dir_fd=self.at)
        except OSError as error:
            raise OSError(error.errno, error.strerror, "/".join([*self.names, name])) from None
        os.close(self.at)
        self.at = opened

    def down(self, name):
        self.above.append(identity_of(self.at))
        self.go(name)
        self.names.append(name)

    def up(self):
        """Goes back to the folder above. Returns the name of the one that it leaves."""
        self.go("..")
        if identity_of(self.at) != self.above.pop():
            raise OSError(errno.EBUSY, "it moved meanwhile", "/".join(self.names))
        return self.names.pop()

    def found(self):
        """Returns the names in the folder, with what lstat says of each."""
        return [(name, os.stat(name, dir_fd=self.at, follow_symlinks=False)) for name in sorted(os.listdir(self.at))]

    def through(self, enter, leave=lambda name: None):
        """Goes into each folder. `enter` returns the names of the folders to go down to from where the way is. `leave` is called
        above a folder that was left, with its name."""
        left = [enter(self)]
        while left:
            if left[-1]:
                self.down(left[-1].pop())
                left.append(enter(self))
            else:
                left.pop()
                if left:
                    leave(self.up())


def folders_in(found):
    return [name for name, status in found if stat.S_ISDIR(status.st_mode)]


def below(top, is_entered):
    """Returns what lstat says of all below the open folder `top`, by path. A folder is entered if `is_entered` holds of its path."""
    paths = {}

    def enter(walk):
        found = [("/".join([*walk.names, name]), name, status) for name, status in walk.found()]
        paths.update((path, status) for path, _, status in found)
        return folders_in((name, status) for path, name, status in found if is_entered(path))

    with Walk(top) as walk:
        walk.through(enter)
    return paths


def remove_below(top):
    """Removes all below the open folder `top`."""
    def enter(walk):
        found = walk.found()
        for name, status in found:
            if not stat.S_ISDIR(status.st_mode):
                os.unlink(name, dir_fd=walk.at)
        return folders_in(found)

    with Walk(top) as walk:
        walk.through(enter, lambda name: os.rmdir(name, dir_fd=walk.at))


def remove_opened(path, opened):
    """Removes the folder at `path`, which is open, with all below it, however deep that is. If another folder has its path by now, that stays."""
    remove_below(opened)
    found = os.stat(path, follow_symlinks=False)
    if (found.st_dev, found.st_ino) != identity_of(opened):
        raise OSError(errno.EBUSY, "another folder is in its place", path)
    os.rmdir(path)
