"""How scripts put files into a folder that the user names, for tools/copy-libraries, tools/put and those that make packages. Another user may
have put links and files there, and a clone may track links. Nothing is written through them."""
import os
import stat
import sys

sys.path.insert(1, os.path.join(os.path.dirname(os.path.realpath(__file__)), os.pardir, "programs"))
from choosing.folders import IS_FOLDER, IS_PLAIN, closing, identity_of, read_whole, remove_below  # noqa: E402
from choosing.named import Named, find  # noqa: E402
from choosing.words import Stop, shown, words_of  # noqa: E402

IN_THE_WAY = "%s is in the way: it is a link, another user's, or no %s"


def is_owned(found):
    """Whether what was found is this user's or root's: so no other user has put it there."""
    return found.st_uid in (0, os.geteuid())


def spare_name():
    return ".gabrosty-" + os.urandom(8).hex()


def write_new(name, data, mode, at):
    """Writes a file that is not there yet in the open folder `at`."""
    made = os.open(name, os.O_WRONLY | os.O_CREAT | os.O_EXCL | os.O_NOFOLLOW | os.O_CLOEXEC, 0o600, dir_fd=at)
    with open(made, "wb") as file:
        file.write(data)
        os.fchmod(made, mode)


class Folder:
    """An open folder. Each file or folder in it that is replaced or entered has to be no link, and this user's or root's: else it
    stops."""

    def __init__(self, opened, path):
        self.at, self.path = opened, path

    def __enter__(self):
        return self

    def __exit__(self, *_):
        os.close(self.at)

    def find(self, name, is_kind, kind):
        """Returns what lstat says of `name`, or None if nothing is there. Stops if it is not this user's, or of another kind."""
        found = find(name, self.at)
        if found and not (is_kind(found.st_mode) and is_owned(found)):
            raise Stop(IN_THE_WAY % (shown(os.path.join(self.path, name)), kind))
        return found

    def enter(self, name):
        """Opens the folder `name`, and makes it if it is missing."""
        if not self.find(name, stat.S_ISDIR, "folder"):
            os.mkdir(name, dir_fd=self.at)
        below = Folder(os.open(name, IS_FOLDER, dir_fd=self.at), os.path.join(self.path, name))
        if not is_owned(os.fstat(below.at)):
            os.close(below.at)
            raise Stop(IN_THE_WAY % (shown(below.path), "folder"))
        return below

    def read(self, name):
        """Returns the bytes of the file `name`, or None if nothing is there."""
        if not self.find(name, stat.S_ISREG, "file"):
            return None
        with closing(os.open(name, os.O_RDONLY | IS_PLAIN, dir_fd=self.at)) as opened:
            found = os.fstat(opened)
            if not (stat.S_ISREG(found.st_mode) and is_owned(found)):
                raise Stop(IN_THE_WAY % (shown(os.path.join(self.path, name)), "file"))
            return read_whole(opened)

    def put(self, name, data, mode=0o644):
        """Writes a file beside `name`, and has it take the place of what is there by a rename."""
        self.find(name, stat.S_ISREG, "file")
        spare = spare_name()
        try:
            write_new(spare, data, mode, self.at)
            os.rename(spare, name, src_dir_fd=self.at, dst_dir_fd=self.at)
        except BaseException:
            if find(spare, self.at):
                os.unlink(spare, dir_fd=self.at)
            raise

    def fill(self, source):
        """Copies all below the path `source` into this folder, which is new."""
        for entry in sorted(os.scandir(source), key=lambda it: it.name):
            found = entry.stat()
            if entry.is_dir():
                with self.enter(entry.name) as below:
                    below.fill(entry.path)
                continue
            with open(entry.path, "rb") as file:
                write_new(entry.name, file.read(), 0o755 if found.st_mode & 0o100 else 0o644, self.at)
            times = found.st_atime_ns, found.st_mtime_ns
            os.utime(entry.name, ns=times, dir_fd=self.at, follow_symlinks=False)

    def put_folder(self, name, source):
        """Has a copy of the folder at the path `source` take the place of the folder `name`, or removes that if `source` is not there."""
        old, new = spare_name(), spare_name()
        is_there = self.find(name, stat.S_ISDIR, "folder")
        if os.path.isdir(source):
            with self.enter(new) as made:
                made.fill(source)
        if is_there:
            self.move(name, old)
        if os.path.isdir(source):
            self.move(new, name)
        if is_there:
            self.remove(old)

    def move(self, name, to):
        os.rename(name, to, src_dir_fd=self.at, dst_dir_fd=self.at)

    def remove(self, name):
        """Removes the folder `name`, with all below it."""
        with closing(os.open(name, IS_FOLDER, dir_fd=self.at)) as opened:
            remove_below(opened)
            is_same = identity_of(opened) == (find(name, self.at).st_dev, find(name, self.at).st_ino)
        if is_same:
            os.rmdir(name, dir_fd=self.at)


def open_folder(path):
    """Opens the folder at `path`, and makes it and those above it that are missing. Stops at a link of another user, in a folder that
    others may write to: it could lead anywhere."""
    missing, at = [], os.path.abspath(path)
    while not os.path.isdir(at):
        missing.append(os.path.basename(at))
        at = os.path.dirname(at)
    named = Named(at)
    named.check_is_folder()
    folder = Folder(named.open_folder(), named.folder)
    os.close(named.at)
    for name in reversed(missing):
        with folder as around:
            folder = around.enter(name)
    return folder


def put_into(path, name, data):
    """Puts a file into the folder at `path`, or ends the program in one line."""
    try:
        with open_folder(path) as folder:
            folder.put(name, data)
    except (OSError, Stop) as error:
        sys.exit("%s: %s" % (os.path.basename(sys.argv[0]), words_of(error)))
