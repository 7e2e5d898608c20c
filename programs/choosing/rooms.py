"""The folders in which plans of changes are kept (see plans.py): no repository and no other user can put one there."""
import contextlib
import errno
import os
import stat

from .folders import IS_FOLDER, closing, is_ours
from .named import Named
from .words import Stop, shown

NAME = "gabrosty"
# where a spare folder may lie: in the folder of the plan, beside the folder that is changed, or in it
PLACES = KEPT, BESIDE, WITHIN = "kept", "beside", "within"
ANOTHER_STATE = "; XDG_STATE_HOME names another folder"


def check_own(found):
    """Raises PermissionError if what was found belongs to another user than this one and root."""
    if found.st_uid not in (0, os.geteuid()):
        raise PermissionError(errno.EPERM, "it lies in a folder of another user")


class Owned(Named):
    """The folder that a path names. Raises PermissionError if it is another user's, or if a link of theirs leads to it."""

    def __init__(self, path):
        super().__init__(path)
        self.check_is_folder()
        check_own(os.fstat(self.at))

    def check(self, found):
        check_own(found)


class Made(Owned):
    """The same folder, which is made for this user alone if it is not there, and so are those above it. Raises PermissionError too if one
    would be made in a folder of another user."""

    def step(self, name):
        super().step(name)
        if self.name is not None:
            self.make(name)

    def make(self, name):
        check_own(os.fstat(self.at))
        try:
            os.mkdir(name, 0o700, dir_fd=self.at)
        except FileExistsError:
            raise NotADirectoryError(errno.ENOTDIR, "%s is no folder" % shown(self.path)) from None
        self.name = None
        self.go(name, [*self.parts, name], dir_fd=self.at)


class Room:
    """The folder `path` for plans. `place` says where spare folders lie if that is of use (see plans.py), and `hint` is said
    where the folder cannot be used. With `is_removed` it goes once it is empty. `above` is the open folder that it lies in, or None if
    it is found by its path."""

    def __init__(self, path, place, hint="", is_removed=False, above=None):
        self.path, self.place, self.hint, self.is_removed = path, place, hint, is_removed
        self.name, self.above = path if above is None else os.path.basename(path), above

    def check_absolute(self):
        """Raises OSError if the path depends on the current folder, which may be a stranger's."""
        if not os.path.isabs(self.path):
            raise OSError(errno.ENOENT, "HOME names no folder")

    def make(self):
        with contextlib.suppress(FileExistsError):
            os.mkdir(self.name, 0o700, dir_fd=self.above)

    def open(self):
        """Opens the folder. Raises OSError if it cannot be used."""
        self.check_absolute()
        if stat.S_ISLNK(os.stat(self.name, dir_fd=self.above, follow_symlinks=False).st_mode):
            raise OSError(errno.ELOOP, "it is a link, and no link is followed here", self.path)
        folder = os.open(self.name, IS_FOLDER, dir_fd=self.above)
        if not is_ours(folder, stat.S_ISDIR) or not os.access(".", os.W_OK | os.X_OK, dir_fd=folder):
            os.close(folder)
            raise PermissionError(errno.EPERM, "it is no folder that you alone may write to", self.path)
        return folder

    def check(self):
        """Stops if plans cannot be kept."""
        with self.opened():
            pass

    @contextlib.contextmanager
    def opened(self):
        """Gives the folder, open. Makes it if it is not there, and stops if it cannot be used."""
        try:
            self.make()
            folder = self.open()
        except OSError as error:
            raise Stop("no plan can be kept in %s: %s%s" % (shown(self.path), error.strerror, self.hint)) from None
        with closing(folder):
            try:
                yield folder
            finally:
                self.end()

    @contextlib.contextmanager
    def found(self):
        """Gives the folder, open, or None if no plan of this user's can be in it."""
        try:
            folder = self.open()
        except OSError:
            yield None
            return
        with closing(folder):
            yield folder
        self.end()

    def end(self):
        """Removes the folder of a repository if it is empty: another user may need it next."""
        if self.is_removed:
            with contextlib.suppress(OSError):
                os.rmdir(self.name, dir_fd=self.above)


class UserRoom(Room):
    """The folder for plans in the user's own state folder, whose name is `folder`."""

    def __init__(self, place):
        folder, self.home = os.environ.get("XDG_STATE_HOME", ""), None
        if not os.path.isabs(folder):
            self.home, folder = (os.path.expanduser(path) for path in ("~", "~/.local/state"))
        super().__init__(os.path.join(folder, NAME), place, ANOTHER_STATE)

    def go_to(self, kind):
        """Opens the folder around it, as an Owned or a Made one. Raises OSError if another user can have put it there."""
        self.check_absolute()
        if self.home:
            with contextlib.suppress(FileNotFoundError):
                check_own(os.stat(self.home))
        above, self.name = os.path.split(self.path)
        self.above = kind(above).at

    def make(self):
        self.go_to(Made)
        super().make()

    def open(self):
        if self.above is None:
            self.go_to(Owned)
        folder = super().open()
        # a folder that git has checked out can be read by others, as most users have set their mask
        if os.fstat(folder).st_mode & 0o077:
            os.close(folder)
            raise PermissionError(errno.EPERM, "it is not yours alone, with mode 0700", self.path)
        return folder
