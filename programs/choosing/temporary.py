"""Temporary files and folders, as the module tempfile makes them: to load that takes longer than all of git's answers."""
import functools
import os

own = []  # the folders for temporary files that this program has made
VARIABLES, PLACES = ("TMPDIR", "TEMP", "TMP"), ("/tmp", "/var/tmp", "/usr/tmp")


@functools.lru_cache(maxsize=None)
def place():
    """Returns the folder for temporary files: the first one that can be written to. It is never in the current folder, which may be a
    stranger's, unless the user names that by its whole path."""
    places = [*filter(os.path.isabs, (os.environ.get(name, "") for name in VARIABLES)), *PLACES]
    usable = (it for it in places if os.path.isdir(it) and os.access(it, os.W_OK | os.X_OK))
    return next(usable, PLACES[0])


def new_path(prefix, suffix="", folder=None):
    """Returns a path in `folder`, or in the folder for temporary files, that nobody can foresee."""
    return os.path.join(folder or place(), prefix + os.urandom(8).hex() + suffix)


def new_folder(prefix, folder=None):
    """Makes a folder for this user alone. Returns its path."""
    path = new_path(prefix, folder=folder)
    os.mkdir(path, 0o700)
    own.append(path)
    return path


def own_below(top):
    """Returns the paths below the folder `top` of this program's own folders: the user may keep temporary files in what is compared."""
    begin = os.path.join(os.path.realpath(top), "")
    found = map(os.path.realpath, own)
    return [path[len(begin) :] for path in found if path.startswith(begin)]


def new_file(prefix, suffix):
    """Makes a file for this user alone. Returns it open, and its path."""
    path = new_path(prefix, suffix)
    return os.open(path, os.O_RDWR | os.O_CREAT | os.O_EXCL | os.O_NOFOLLOW | os.O_CLOEXEC, 0o600), path
