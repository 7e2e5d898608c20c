"""The plan of a change of files: what is to be done, while that is begun and not at its end. It lies in a folder where no
repository and no other user can put one (see rooms.py), and is still checked in each of its parts.

A plan is a file of two lines of JSON. The first one names the folder that is changed and the spare folder (see spare.py), which is
made behind it. The second one has what is to be done, with the permissions of folders that may be removed or made, and is written
before the first file is moved. Once all is done, the plan has another name."""
import collections
import contextlib
import errno
import os
import re
import stat

from .change import ABSENT, LINK
from .decided import ABSENT as GOES, GOAL, Row, Undecided, decide
from .folders import IS_PLAIN, closing, identity_of, is_ours, read_whole
from .locks import lock_open
from .paths import fault_in
from .permissions import LISTS, OF_FOLDER, Permissions
from .rooms import PLACES
from .words import Stop, shown

BEGUN, DONE = ".plan", ".done"
NAME = r"[0-9a-f]{16}-[0-9a-f]{32}\.(?:plan|done)"
DIGEST, TOKEN, SPARE_NAME, HEXADECIMAL = "[0-9a-f]{64}", "[0-9a-f]{32}", r"\.gabrosty-[0-9a-f]{32}", "(?:[0-9a-f]{2})*"
MODES = ABSENT, "100644", "100755", LINK
# what is said of a plan that is gone meanwhile, as it is at its end, and of what is no plan: another user's, a link or a folder
NO_PLAN = errno.ENOENT, errno.EACCES, errno.EPERM, errno.ELOOP, errno.EISDIR, errno.ENXIO

# The first line of a plan: the folder's real path and inode, and the place, the name and the secret of the spare folder. The
# number of a disk may be another one after a start of the system, so the secret, which lies in the spare folder, is looked at.
First = collections.namedtuple("First", "top inode place name secret")
# What the second line says: the inode of the spare folder, the entries, and the permissions of folders by path.
Planned = collections.namedtuple("Planned", "inode entries folders")
NOT_PLANNED = Planned(None, [], {})


class Entry(collections.namedtuple("Entry", "number path old new")):
    """A file of a plan. `old` and `new` are what digest_of says of its sides."""

    @property
    def aside(self):
        return "old-%d" % self.number

    @property
    def made(self):
        return "new-%d" % self.number

    @property
    def comes(self):
        """Whether there is to be a file."""
        return self.new[0] != ABSENT

    @property
    def was(self):
        """Whether there was a file."""
        return self.old[0] != ABSENT


# what digest_of says of no file: each start loads this module, and needs no digest
NOTHING = [ABSENT, "e3b0c44298fc1c149afbf4c8996fb92427ae41e4649b934ca495991b7852b855"]


def in_order(entries):
    """Returns entries as they are put in place: what goes makes room for what comes."""
    return sorted(entries, key=lambda entry: entry.comes)


def key_of(top):
    """Returns by what the plans of the folder `top` are found."""
    import hashlib

    return hashlib.sha256(os.fsencode(os.path.realpath(top))).hexdigest()[:16]


def new_token():
    """Returns a text that nobody can foresee."""
    return os.urandom(16).hex()


def opened(folder, name):
    """Opens the file of a plan. Raises OSError if it is no file of this user's."""
    file = os.open(name, os.O_RDWR | IS_PLAIN, dir_fd=folder)
    if not is_ours(file, stat.S_ISREG):
        os.close(file)
        raise PermissionError(errno.EPERM, "it is no file of yours", name)
    return file


def plans_of(folder, where, top):
    """Returns the plans of the folder `top` that lie in the open folder `folder`, whose path is `where`, opened."""
    names = sorted(name for name in os.listdir(folder) if re.fullmatch(NAME, name) and name.startswith(key_of(top)))
    found = []
    for name in names:
        try:
            found.append(Plan(folder, where, name, opened(folder, name)))
        except OSError as error:
            if error.errno not in NO_PLAN:
                raise
    return found


class Plan:
    """The plan `name` in the open folder `folder`, whose path is `where`: open as `file`, and locked while a program is at work."""

    def __init__(self, folder, where, name, file):
        self.folder, self.where, self.name, self.file = folder, where, name, file

    @classmethod
    def empty(cls, folder, where, top):
        """Makes a plan without a line for the folder `top`, and locks it."""
        while True:
            name = "%s-%s%s" % (key_of(top), new_token(), BEGUN)
            file = os.open(name, os.O_RDWR | os.O_CREAT | os.O_EXCL | IS_PLAIN, 0o600, dir_fd=folder)
            plan = cls(folder, where, name, file)
            # another call may come before the lock, and remove it as one that was left behind
            lock_open(file, waits=True)
            if plan.is_left():
                return plan
            plan.close()

    @classmethod
    def made(cls, folder, where, first):
        """Makes a plan with its first line, and locks it."""
        plan = cls.empty(folder, where, first.top)
        try:
            plan.add(list(first))
            os.fsync(folder)
        except BaseException:
            plan.remove()
            plan.close()
            raise
        return plan

    @property
    def path(self):
        return os.path.join(self.where, self.name)

    def add(self, line):
        """Writes a line, and waits until it is on the disk."""
        import json

        with open(self.file, "ab", closefd=False) as file:
            file.write(json.dumps(line).encode() + b"\n")
        os.fsync(self.file)

    def is_done(self):
        return self.name.endswith(DONE)

    def finish(self):
        """Says that nothing of it is needed any more."""
        name = self.name[: -len(BEGUN)] + DONE
        if not self.is_done():
            os.rename(self.name, name, src_dir_fd=self.folder, dst_dir_fd=self.folder)
            self.name = name

    def remove(self):
        os.unlink(self.name, dir_fd=self.folder)

    def close(self):
        os.close(self.file)

    def is_left(self):
        """Whether it was left behind. One that a program is at work with is locked, and one that is gone has another file's name,
        or none."""
        if not lock_open(self.file):
            return False
        with contextlib.suppress(FileNotFoundError), closing(opened(self.folder, self.name)) as again:
            return identity_of(again) == identity_of(self.file)
        return False

    def lines(self):
        """Returns what the lines say. One that was cut off is none."""
        import json

        try:
            return [json.loads(line) for line in read_whole(self.file).split(b"\n")[:-1]]
        except (ValueError, RecursionError):
            raise self.stop("it is not JSON") from None

    def stop(self, fault):
        """Returns why nothing is done by it."""
        return Stop("%s is no plan that can be followed, and nothing was done: %s" % (shown(self.path), fault))

    def read(self):
        """Returns what the first line says, or None, and what the second one says, or NOT_PLANNED. Stops if anything in it does not
        fit."""
        lines = self.lines()
        if not lines:
            return None, NOT_PLANNED
        if not is_first(lines[0]) or len(lines) > 2:
            raise self.stop("it has another form")
        return First(*lines[0]), self.planned(lines[1]) if lines[1:] else NOT_PLANNED

    def planned(self, line):
        if not (isinstance(line, list) and len(line) == 3 and is_number(line[0]) and all(isinstance(part, list) for part in line[1:])):
            raise self.stop("it has another form")
        inode, entries, folders = line
        for fault in (*map(fault_of_entry, entries), *map(fault_of_folder, folders)):
            if fault:
                raise self.stop(fault)
        self.check_decided(entries, folders)
        return Planned(inode, [Entry(number, *entry) for number, entry in enumerate(entries)], folders_in(folders))

    def check_decided(self, entries, folders):
        """Stops if a folder is above none of the files, or if the library, which decides of their paths as of those of a choice in which
        all is marked, refuses one of them."""
        above = {path[:at] for path, _, _ in entries for at, sign in enumerate(path) if sign == "/"}
        if not above.issuperset(path for path, *_ in folders):
            raise self.stop("a folder is above none of the files")
        try:
            decide([row_of_entry(number, *entry) for number, entry in enumerate(entries)])
        except Undecided as error:
            raise self.stop(error) from None


def row_of_entry(number, path, old, new):
    """Returns the row of the path of an entry, which is to have its new side."""
    return Row(path, old[0] != ABSENT, new[0] != ABSENT, GOES if new[0] == ABSENT else GOAL, number)


def lines_of(folders):
    """Returns the permissions of folders, by path, as a plan has them."""
    return [[path, *it[:2], it.lists and [[name, data.hex()] for name, data in it.lists]] for path, it in folders.items()]


def folders_in(lines):
    """Returns the permissions of folders, by path, that a plan has as `lines`."""
    lists_by_path = {path: lists and tuple((name, bytes.fromhex(data)) for name, data in lists) for path, _, _, lists in lines}
    return {path: Permissions(bits, group, lists_by_path[path]) for path, bits, group, _ in lines}


def is_number(value):
    return type(value) is int and value >= 0


def is_first(line):
    """Whether this is what a first line says."""
    if not isinstance(line, list) or len(line) != len(First._fields):
        return False
    top, inode, place, name, secret = line
    texts = all(isinstance(text, str) for text in (top, place, name, secret))
    is_named = texts and place in PLACES and re.fullmatch(SPARE_NAME, name) and re.fullmatch(TOKEN, secret)
    return bool(is_named) and is_number(inode)


def is_side(value):
    """Whether this is what digest_of says of a side."""
    if not isinstance(value, list) or len(value) != 2 or value[0] not in MODES:
        return False
    is_digest = isinstance(value[1], str) and re.fullmatch(DIGEST, value[1])
    return bool(is_digest) and (value[0] != ABSENT or value == NOTHING)


def fault_of_path(path):
    """Returns what does not fit in a path, or None."""
    try:
        os.fsencode(path)
    except UnicodeEncodeError:
        return "a path is no name of a file"
    fault = fault_in(path)
    return "%s: %s" % (shown(path), fault) if fault else None


def fault_of_entry(entry):
    """Returns what does not fit in an entry, or None."""
    if not isinstance(entry, list) or len(entry) != 3 or not isinstance(entry[0], str) or not all(map(is_side, entry[1:])):
        return "an entry has another form"
    return fault_of_path(entry[0])


def is_list_of_users(value):
    """Whether this is a list of single users and groups, with its name."""
    is_pair = isinstance(value, list) and len(value) == 2 and value[0] in LISTS
    return is_pair and isinstance(value[1], str) and bool(re.fullmatch(HEXADECIMAL, value[1]))


def fault_of_folder(line):
    """Returns what does not fit in the permissions of a folder, or None."""
    if not isinstance(line, list) or len(line) != 4 or not isinstance(line[0], str) or not isinstance(line[3], (list, type(None))):
        return "a folder has another form"
    path, bits, group, lists = line
    is_well = is_number(bits) and not bits & ~OF_FOLDER and (group is None or is_number(group)) and all(map(is_list_of_users, lists or []))
    return fault_of_path(path) if is_well else "a folder has other permissions"
