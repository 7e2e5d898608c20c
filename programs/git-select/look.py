"""What the files of the working tree contain, as `git add` would store it. What git stores as it is is read here, and git is
asked for the rest. The largest files are not read, where all of them together are too much."""
import contextlib
import os
import stat
import time

from choosing.change import LINK, Read, Side, Unread
from choosing.folders import MOST_BYTES, TOO_LARGE, folder_of
from choosing.git import split_by_zeros
from repository import FALSE, NO_FILE, lines_of

# how many bytes are read in all; the largest files beyond that are not
MOST_READ = 20_000_000
# the attributes by which git stores other bytes than a file has; line ends change only where there is a CR
CONVERSIONS = "filter", "ident", "working-tree-encoding"
NO_CONVERSION = "unspecified", "unset"
# has git not hand on each answer alone
AT_ONCE = {"GIT_FLUSH": "0"}

# how a file is opened: what took its place meanwhile is not followed, and not waited for
TO_BE_READ = os.O_RDONLY | os.O_NOFOLLOW | os.O_NONBLOCK | os.O_CLOEXEC

# how long ago a file has to be written to be known by its times: some disks have one time for two writes within that, in nanoseconds
REST = 2_000_000_000

# git's modes of what is read at once: git has just seen that it is a file
FILES = "100644", "100755"


def mark_of(found):
    """Returns what shows that a file is still the same, by what stat says of it."""
    return found.st_ino, found.st_size, found.st_mtime_ns, found.st_ctime_ns


def beyond(sizes, most):
    """Returns the paths of the largest files, of which the others have `most` bytes together, by the sizes of files by path."""
    paths, total = set(), sum(sizes.values())
    for path in sorted(sizes, key=lambda path: (-sizes[path], path)):
        if total <= most:
            break
        total -= sizes[path]
        paths.add(path)
    return paths


class Folders(contextlib.ExitStack):
    """The folders of files below the open folder `top`. No link is followed. The last one stays open, since the next file often lies in it
    too."""

    def __init__(self, top):
        super().__init__()
        self.top, self.above = top, None

    def of(self, path):
        """Returns the folder that a file lies in, open, and the file's name in it."""
        above, _, name = path.rpartition("/")
        if above != self.above:
            self.close()
            self.above = None
            self.at, _ = self.enter_context(folder_of(path, self.top))
            self.above = above
        return self.at, name


def read_file(folder, name, most=MOST_BYTES):
    """Returns what fstat says of a file in a folder that is open, and its bytes, if they are no more than `most`. What is swapped for a link
    or a pipe meanwhile is not read."""
    opened = os.open(name, TO_BE_READ, dir_fd=folder)
    try:
        found = os.fstat(opened)
        if not stat.S_ISREG(found.st_mode):
            raise OSError(0, NO_FILE)
        if found.st_size > most:
            raise OSError(0, TOO_LARGE)
        data = os.read(opened, found.st_size)
        # a large file comes in parts
        while len(data) < found.st_size and (part := os.read(opened, found.st_size - len(data))):
            data += part
        return found, data
    finally:
        os.close(opened)


class Look:
    """A look at files of the working tree, by `scratch`. `modes` has by path the mode that git sees, or None if git does not know the
    file. `old_sizes` has the sizes of old versions. `unread` are the paths that are not read, or None if they are to be found out by
    `most`, how many bytes are read at most. A file that is as an earlier look found it is not read again: `seen` are the sides of that.

    Behind `sides` it has by path why files are left out (`left_out`), the paths of those that are not read (`unread`), what stands for the
    contents of these by name (`contents`), and of files that were read what stat said of them and their sides (`seen`)."""

    def __init__(self, scratch, modes, old_sizes, unread, most, seen):
        self.scratch, self.modes, self.folder = scratch, modes, scratch.opened[scratch.top]
        self.old_sizes, self.unread, self.most, self.before, self.begun = old_sizes, unread, most, seen, time.time_ns()
        self.forget()

    def forget(self):
        """Begins to look."""
        self.left_out, self.stats, self.contents, self.seen, self.by_git = {}, {}, {}, {}, set()

    def sizes(self):
        """Returns how many bytes both versions of each file have."""
        sizes = {path: found.st_size for path, found in self.stats.items() if stat.S_ISREG(found.st_mode)}
        return {path: sizes.get(path, 0) + self.old_sizes.get(path, 0) for path in self.old_sizes.keys() | sizes.keys()}

    def look_at(self, path):
        """Returns what lstat says of a file or a link, or None if there is none. Keeps it, or says why it is left out."""
        try:
            found = os.stat(path, dir_fd=self.folder, follow_symlinks=False)
        except OSError as error:
            self.left_out[path] = error.strerror
            return None
        if not (stat.S_ISREG(found.st_mode) or stat.S_ISLNK(found.st_mode)):
            self.left_out[path] = NO_FILE
            return None
        self.stats[path] = found
        return found

    def mode_of(self, path):
        """Returns git's mode for a file."""
        mode = self.stats[path].st_mode
        if self.modes[path]:
            return self.modes[path]
        can_be_run = mode & 0o100 and self.scratch.setting("core.filemode") not in FALSE
        return LINK if stat.S_ISLNK(mode) else "100755" if can_be_run else "100644"

    def sides(self):
        """Reads the files. Returns their sides by path."""
        self.algorithm = self.scratch.algorithm if self.modes else None
        converted = self.converted([*self.modes])
        sides = self.read_at_once(converted) if self.unread is None else None
        if sides is None:
            sides = self.read_others(converted)
        left_out = self.scratch.add(sorted(self.by_git))
        sides.update(self.scratch.sides(self.by_git - left_out.keys()))
        self.left_out.update(left_out)
        return sides

    def read_at_once(self, converted):
        """Reads the files one after another, without a look at all of them first. Returns the sides of those that git is not to store, or None if
        both versions of all have more than `most` bytes: then the largest ones are not read, and these are to be found out first."""
        sides, left = {}, self.most - sum(self.old_sizes.values())
        with Folders(self.folder) as folders:
            for path, mode in self.modes.items():
                at_once = self.read_tracked(path, folders, left) if mode in FILES and path not in converted else None
                found, data = at_once or (self.look_at(path), None)
                left -= found.st_size if found else 0
                if left < 0:
                    self.forget()
                    return None
                side = self.side_of(path, mode, found, data) if at_once else self.read(path, folders) if self.can_read(path, converted) else None
                if side:
                    sides[path] = side
        self.unread = set()
        return sides

    def read_tracked(self, path, folders, most):
        """Returns what read_file does of a file of which git said just now that it is one. Returns None if it cannot be read, or has more than
        `most` bytes: then it is looked at first."""
        try:
            return read_file(*folders.of(path), min(most, MOST_BYTES))
        except OSError:
            return None

    def read_others(self, converted):
        """Looks at the files, and then reads those that are to be read. Returns the sides of those that git is not to store."""
        for path in self.modes:
            self.look_at(path)
        self.unread = beyond(self.sizes(), self.most) if self.unread is None else self.unread & self.modes.keys()
        sides = {path: self.unread_side(path) for path in self.unread & self.stats.keys()}
        with Folders(self.folder) as folders:
            for path in self.stats:
                side = self.read(path, folders) if path not in self.unread and self.can_read(path, converted) else None
                if side:
                    sides[path] = side
        return sides

    def can_read(self, path, converted):
        """Whether a file is there, and its bytes are what git stores. Else, if it is there, git is to store it."""
        if path in self.stats and path in converted:
            self.by_git.add(path)
        return path in self.stats and path not in converted

    def converted(self, paths):
        """Returns the paths of those files that git is to store, as it may store other bytes than they have."""
        if self.scratch.setting("core.safecrlf") not in (*FALSE, "warn", None):
            return set(paths)
        # of a path without attributes, as most are, git says nothing then
        words = "check-attr", "--stdin", "-z", "--all"
        parts = split_by_zeros(self.scratch.git(*words, given=lines_of(paths), **AT_ONCE)) if paths else []
        found = zip(parts[0::3], parts[1::3], parts[2::3])
        return {path for path, name, value in found if name in CONVERSIONS and value not in NO_CONVERSION}

    def read(self, path, folders):
        """Returns the side of a file that was looked at, and reads it, if it was not read before. Returns None if git is to store it, or if
        it is left out."""
        found, mode = self.stats[path], self.mode_of(path)
        then, before = self.before.get(path, (None, None))
        if then and mark_of(then) == mark_of(found):
            return before if before.mode == mode else Read(mode, before.data, before.algorithm)
        is_link = stat.S_ISLNK(found.st_mode)
        try:
            folder, name = folders.of(path)
            data = os.fsencode(os.readlink(name, dir_fd=folder)) if is_link else read_file(folder, name)[1]
        except OSError as error:
            self.left_out[path] = error.strerror
            return None
        return self.side_of(path, mode, found, data)

    def side_of(self, path, mode, found, data):
        """Returns the side of a file or a link that was read, or None if git is to store it. `found` is what stat said of it before."""
        if b"\r" in data and stat.S_ISREG(found.st_mode):
            self.by_git.add(path)
            return None
        side = Read(mode, data, self.algorithm)
        if found.st_ctime_ns + REST < self.begun:
            self.seen[path] = found, side
        return side

    def unread_side(self, path):
        """Returns the side of a file that is not read. Its name says what shows that it is still the same."""
        name = "%d %d %d %d" % mark_of(self.stats[path])
        self.contents[name] = Unread(name.encode(), self.stats[path].st_size)
        return Side(self.mode_of(path), name)
