"""The file of an index, in its folder, which stays open: files in it are found whatever the folder's name leads to by then."""
import os
import stat

from choosing.folders import IS_PLAIN


class Index:
    """The index at `path`, in which no link is left. Its folder is open as `folder`."""

    def __init__(self, path, folder):
        self.path, self.folder = path, folder
        self.above, self.name = os.path.split(path)

    def open(self, name, flags, permissions=0o600):
        """Opens the file `name` beside the index. No link is followed, and nothing waits for a FIFO."""
        return os.open(name, flags | IS_PLAIN, permissions, dir_fd=self.folder)

    def found(self, name):
        """Returns what lstat says of the file `name` beside the index, or None if there is none."""
        try:
            return os.stat(name, dir_fd=self.folder, follow_symlinks=False)
        except FileNotFoundError:
            return None

    def copy_to(self, path):
        """Copies the index, if there is one, to the new file `path`. The copy has its time: git looks again at files that were written
        just when the index was. Returns what fstat says of what was copied, or None."""
        try:
            opened = self.open(self.name, os.O_RDONLY)
        except FileNotFoundError:
            return None
        with open(opened, "rb") as file, open(path, "wb") as copy:
            found = os.fstat(opened)
            # what is no file is empty here, and git says what it makes of that
            if stat.S_ISREG(found.st_mode):
                copy.write(file.read())
        os.utime(path, ns=(found.st_atime_ns, found.st_mtime_ns))
        return found
