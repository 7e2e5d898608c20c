"""Files below a folder, read and put in place. Nothing outside the folder is read or written, whatever links lie in it."""
import contextlib
import errno
import functools
import os
import stat

from .change import ABSENT, LINK, digest_of
from .folders import IS_FOLDER, IS_PLAIN, closing, read_whole
from .named import IS_OF_ANOTHER, is_trusted
from .paths import check_path
from .permissions import OF_ANY_FILE, give, permissions_of_file, permissions_of_folder, permissions_of_new
from .plans import Entry, in_order
from .signals import signals_wait
from .spare import spare_for
from .words import Stop, shown

# what is said of a path of which a part is not there, or is no folder
NO_FOLDER = errno.ENOENT, errno.ENOTDIR, errno.ELOOP
ABSENT_SIDE = ABSENT, b""
THREADS = 16


@contextlib.contextmanager
def named(path, done):
    """An error here names the file, and says that it cannot be `done`."""
    try:
        yield
    except OSError as error:
        raise Stop("%s cannot be %s: %s" % (shown(path), done, error.strerror)) from None


def flush(folder, names):
    """Waits until files are on the disk, many at once, since each of them may have to wait for the next turn of the disk."""
    def flush_one(name):
        with closing(os.open(name, os.O_RDONLY | IS_PLAIN, dir_fd=folder)) as file:
            os.fsync(file)

    # a program that writes no file starts without it
    from concurrent.futures import ThreadPoolExecutor

    with ThreadPoolExecutor(THREADS) as pool:
        for _ in pool.map(flush_one, names):
            pass


def set_permissions(folder, permissions):
    """Gives files their permissions, by name."""
    for name, wanted in permissions.items():
        with closing(os.open(name, os.O_RDONLY | IS_PLAIN, dir_fd=folder)) as file:
            give(file, wanted)


def permissions_for(mode, before):
    """Returns the permissions of a file of git's mode `mode`: those that it had `before`, but for those to run it."""
    bits = before.bits | (before.bits & 0o444) >> 2 if mode == "100755" else before.bits & ~0o111
    return before._replace(bits=bits)


def permissions_wanted(mode, before, source):
    """Returns the permissions of a file of git's mode `mode`: those that it had `before`. A new one has no more than its `source`, if
    that is known, but its owner may read and write it."""
    if before is not None:
        return permissions_for(mode, before)
    most = OF_ANY_FILE if source is None else source
    return permissions_of_new(permissions_for(mode, most._replace(bits=most.bits | 0o600)), 0o600)


def give_to_new_folder(at, name, permissions):
    """Gives the folder `name` in the open folder `at` its permissions, which this user has just made. Stops if another one has its
    place."""
    with closing(os.open(name, IS_FOLDER, dir_fd=at)) as folder:
        if os.fstat(folder).st_uid != os.geteuid() or os.listdir(folder):
            raise OSError(errno.EBUSY, "another folder is in its place")
        give(folder, permissions)


class Files:
    """The files below the folder `top`. With `follow`, which opens what a link in an open folder leads to, such a link counts as that file.
    `room` is where the plan of a change is kept, if they are changed (see rooms.py). `at` is that folder, if it is open already. `name` is
    the file in it that the user names, if that is all: it is refused if it is another user's, and all may put theirs there. `folders` has by
    path the permissions of folders that are made."""

    def __init__(self, top, follow=None, room=None, at=None, name=None):
        self.top, self.follow, self.room, self.name, self.folders = top, follow, room, name, {}
        if at is not None:
            self.at = at

    @functools.cached_property
    def at(self):
        """The folder `top`, as it was when it was first used, also if its name then leads elsewhere."""
        return os.open(self.top, os.O_RDONLY | os.O_DIRECTORY | os.O_CLOEXEC)

    def folder(self, parts, undo=None):
        """Opens a folder by the names that lead to it. With `undo` it makes those that are missing, which `undo` removes."""
        at = os.open(".", IS_FOLDER, dir_fd=self.at)
        for number, name in enumerate(parts):
            with closing(at):
                if undo:
                    self.make_missing(at, parts[: number + 1], undo)
                below = os.open(name, IS_FOLDER, dir_fd=at)
            at = below
        return at

    def make_missing(self, at, parts, undo):
        """Makes the folder that `parts` lead to in the open folder `at`, if it is not there. `undo` removes it."""
        permissions = self.folders.get("/".join(parts))
        try:
            os.mkdir(parts[-1], 0o777 if permissions is None else 0o700, dir_fd=at)
        except FileExistsError:
            return
        undo.callback(self.remove_folder, parts)
        if permissions is not None:
            give_to_new_folder(at, parts[-1], permissions)

    def beside(self, path, undo=None):
        """Opens the folder that `path` lies in. Returns it, to be closed, and the name in it."""
        check_path(path)
        *parts, name = path.split("/")
        return closing(self.folder(parts, undo)), name

    def read(self, path):
        """Returns the mode and the bytes of what is at `path`, and its permissions. What is no file is absent."""
        with named(path, "read"):
            try:
                folder, name = self.beside(path)
            except OSError as error:
                if error.errno in NO_FOLDER:
                    return ABSENT_SIDE, None
                raise
            with folder as folder:
                return self.read_in(folder, name)

    def read_in(self, folder, name):
        try:
            found = os.stat(name, dir_fd=folder, follow_symlinks=False)
        except FileNotFoundError:
            return ABSENT_SIDE, None
        self.check(folder, name, found)
        if stat.S_ISREG(found.st_mode):
            opened = os.open(name, os.O_RDONLY | IS_PLAIN, dir_fd=folder)
        elif not stat.S_ISLNK(found.st_mode):
            return ABSENT_SIDE, None
        else:
            opened = self.target(folder, name)
            if opened is None:
                return (LINK, os.fsencode(os.readlink(name, dir_fd=folder))), None
        with closing(opened) as file:
            self.check(folder, name, os.fstat(file))
            return read_open(file)

    def check(self, folder, name, found):
        """Stops if what was found in a folder is what the user names, and came there by another user since its folder was opened."""
        if name == self.name and not is_trusted(folder, found):
            raise Stop(IS_OF_ANOTHER % shown(os.path.join(self.top, name)))

    def target(self, folder, name):
        """Opens what a link leads to. Returns None if it counts as a link."""
        try:
            return self.follow(name, folder) if self.follow else None
        except FileNotFoundError:
            return None

    def folders_above(self, paths):
        """Returns the permissions of the folders above `paths` that are there, by path."""
        found = {}
        for parent in sorted({path.rpartition("/")[0] for path in paths} - {""}):
            try:
                self.find_folders(parent.split("/"), found)
            except OSError as error:
                if error.errno not in NO_FOLDER:
                    raise
        return found

    def find_folders(self, names, found):
        """Adds to `found` the permissions of each folder on the way that `names` lead. Raises OSError where one is not there."""
        at = os.open(".", IS_FOLDER, dir_fd=self.at)
        for number, name in enumerate(names, 1):
            with closing(at):
                below = os.open(name, IS_FOLDER, dir_fd=at)
            at = below
            path = "/".join(names[:number])
            if path not in found:
                found[path] = permissions_of_folder(at)
        os.close(at)

    def keep_folders(self, entries, sources):
        """Keeps the permissions of the folders that `entries` may remove or make. A new folder has no more than `sources` says."""
        self.folders = {path: permissions_of_new(source, 0o700) for path, source in sources.items()}
        self.folders.update(self.folders_above(path for path, old, new in entries if ABSENT in (old[0], new[0])))

    def change(self, entries, sources=None, of_folders=None):
        """Puts all of `entries` in place, or none of them: paths, each with the mode and bytes that are there and those
        that are to be there. Files come by a rename. Stops if something else is there. A new file has no more permissions than
        `sources` says by path, and a new folder no more than `of_folders`. If this is cut off, a plan says how to finish it, or to
        undo it (see cut_off.py). Returns what is said of what cannot be removed once all is in place."""
        if not entries:
            return []
        for path, _, _ in entries:
            check_path(path)
        with signals_wait(), named(self.top, "written"), spare_for(self) as spare:
            self.keep_folders(entries, of_folders or {})
            self.make_all(spare, entries, sources or {})
            steps = [Entry(number, path, digest_of(old), digest_of(new)) for number, (path, old, new) in enumerate(entries)]
            spare.begin(steps)
            with contextlib.ExitStack() as undo:
                for entry in in_order(steps):
                    with named(entry.path, "written"):
                        spare.do(entry, undo)
                undo.pop_all()
        return spare.notes

    def make_all(self, spare, entries, sources):
        """Makes in `spare` what is to come. Stops if something else than `entries` say is there."""
        permissions = {}
        for number, (path, old, (mode, data)) in enumerate(entries):
            name, (now, before) = "new-%d" % number, self.read(path)
            if now != old:
                raise Stop("%s changed meanwhile" % shown(path))
            with named(path, "written"):
                if mode == LINK:
                    spare.make_link(name, data)
                elif mode != ABSENT:
                    permissions[name] = permissions_wanted(mode, before, sources.get(path))
                    spare.make_file(name, data)
        flush(spare.at, permissions)
        # they may keep the user from opening a file
        set_permissions(spare.at, permissions)

    def prune(self, path, undo):
        """Removes the folders above `path` that are empty now. `undo` makes them again."""
        parts = path.split("/")[:-1]
        while parts:
            try:
                self.keep_folder(parts)
                self.remove_folder(parts)
                undo.callback(self.make_folder, parts)
            except FileNotFoundError:
                # where it was not made yet, one above it may be
                pass
            except OSError:
                return
            parts = parts[:-1]

    def keep_folder(self, parts):
        with closing(self.folder(parts)) as folder:
            self.folders.setdefault("/".join(parts), permissions_of_folder(folder))

    def make_folder(self, parts):
        with closing(self.folder(parts[:-1])) as folder, contextlib.ExitStack() as undo:
            self.make_missing(folder, parts, undo)
            undo.pop_all()

    def remove_folder(self, parts):
        with closing(self.folder(parts[:-1])) as folder:
            os.rmdir(parts[-1], dir_fd=folder)


def read_open(file):
    """Returns the mode and the bytes of an open file, and its permissions. What is no file is absent."""
    found = os.fstat(file)
    if not stat.S_ISREG(found.st_mode):
        return ABSENT_SIDE, None
    return ("100755" if found.st_mode & 0o100 else "100644", read_whole(file)), permissions_of_file(file)
