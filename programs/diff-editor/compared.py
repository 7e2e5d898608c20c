"""The two sides that are compared, and where what is chosen goes: folders, or files."""
import functools
import heapq
import os
import stat

from choosing.change import ABSENT, LINK, digest_of
from choosing.cut_off import names_within
from choosing.decided import GOAL, KEPT, Row, decide, row_of, row_that_goes, version_by
from choosing.files import ABSENT_SIDE, Files
from choosing.folders import MOST_BYTES, TOO_LARGE, below
from choosing.git import Git
from choosing.named import Named, is_of_processes, open_of_process, open_of_tree
from choosing.paths import is_own
from choosing.permissions import permissions_of_both
from choosing.rooms import BESIDE, WITHIN, UserRoom
from choosing.temporary import own_below
from choosing.words import Stop, shown

# what all files have together that differ, or that OUTPUT is given
MOST_IN_ALL = MOST_BYTES
TOO_MUCH = "it is one of the largest files, and all that differ have more than %s bytes"
# what git and jj keep for themselves in a working tree
OWN = ".git", ".jj"
# jj puts this file beside those of the commit, for whoever reads the folder
INSTRUCTIONS, MOST_INSTRUCTIONS = "JJ-INSTRUCTIONS", 10_000  # bytes
# git difftool --dir-diff sets it. Its folder RIGHT has links to the files of the working tree.
IS_DIFFTOOL = os.environ.get("GIT_DIFFTOOL_DIRDIFF") == "true"
OF_RIGHT = open_of_tree if IS_DIFFTOOL else None
# hg sets it for the programs that it calls. It hands in files of a repository, in which a link is not the file or folder that it leads to.
IS_HG = "HG" in os.environ
# git sets it for what shows a single file. A file of the working tree has a relative path then, and a temporary one an absolute path.
IS_FOR_ONE_FILE = "GIT_DIFF_PATH_COUNTER" in os.environ


def paths_below(files):
    """Returns why what lies below a folder is left out, or None, by path. What OWN names is not among it, nor this program's own folder
    for temporary files, and a folder is only if it is left out."""
    spare, hidden = names_within(files), own_below(files.top)

    def reason_against(path, status):
        if path in spare:
            return "another call keeps there what it writes"
        if is_own(path.rpartition("/")[2]):
            return "git or jj keeps that for itself, on some disks"
        is_file = stat.S_ISREG(status.st_mode)
        if not is_file and stat.S_IFMT(status.st_mode) not in (stat.S_IFLNK, stat.S_IFDIR):
            return "it is neither a file nor a link"
        return TOO_LARGE if is_file and status.st_size > MOST_BYTES else None

    found = below(files.at, lambda path: path not in spare and path not in hidden and not is_own(path.rpartition("/")[2]))
    found = {path: status for path, status in found.items() if path not in hidden and path.rpartition("/")[2] not in OWN}
    reasons = {path: reason_against(path, status) for path, status in found.items()}
    return {path: reason for path, reason in reasons.items() if reason or not stat.S_ISDIR(found[path].st_mode)}


def bytes_in(sides):
    """Returns how many bytes the sides of a file have."""
    return sum(len(data) for _, data in sides)


def is_folder(options):
    """Whether folders are compared, and not two files."""
    paths = [path for path in (options.left, options.right, options.output) if path is not None]
    return options.dir_diff or any(map(is_folder_at, paths))


def is_link(path):
    """Whether a path that is named counts as a link, and not as what it leads to."""
    return IS_HG and os.path.islink(path)


def is_folder_at(path):
    return os.path.isdir(path) and not is_link(path)


def place_of(path, is_to_be_read=False):
    """Returns the folder that a file which is named lies in, and the file's name there (see Named). Stops if git names a file of its working
    tree, which has no links on its path, and there is one by now."""
    if is_link(path):
        folder, name = os.path.split(os.path.abspath(path))
        return folder_at(folder), name
    found = Named(path, is_to_be_read)
    if IS_FOR_ONE_FILE and not os.path.isabs(path) and found.path != os.path.abspath(path):
        raise Stop("%s changed meanwhile" % shown(path))
    if found.name is None:
        raise Stop("%s is no file" % shown(path))
    return found, found.name


def folder_at(path):
    """Returns the folder that `path` names. Stops if it is none."""
    found = Named(path)
    if found.name is not None:
        raise Stop("%s is no folder" % shown(path))
    return found


def files_in(folder, room, follow=None, name=None):
    """Returns the files of a folder that was found."""
    return Files(folder.folder, follow, room, folder.open_folder(), name)


def target_of(options, are_folders):
    """Returns the files that are changed: those of the folder RIGHT or OUTPUT, or of the folder that such a file lies in, with its `name`.
    `are_folders` is what is_folder said, which is asked once: else another answer would have the folder around RIGHT be changed."""
    path = options.output or options.right
    if are_folders:
        return files_in(folder_at(path), UserRoom(BESIDE), None if options.output else OF_RIGHT)
    folder, name = place_of(path)
    return files_in(folder, UserRoom(WITHIN), name=name)


def compared(options, target, are_folders):
    """Returns the two sides that the options name, and changes the files `target`. Stops if they are not both folders, or both
    files."""
    if not are_folders:
        return TwoFiles(options, target)
    for path in (options.left, options.right, options.output):
        if path is not None and not is_folder_at(path):
            raise Stop("%s is no folder" % shown(path))
    return Folders(options, target)


def git_of_user():
    """Returns the git of the repository that the program runs in."""
    return Git(os.curdir, dict(os.environ))


class Folders:
    """Two folders, LEFT and RIGHT, and the files of RIGHT or of OUTPUT that are changed."""

    def __init__(self, options, target):
        self.left, self.target = files_in(folder_at(options.left), target.room), target
        self.right = files_in(folder_at(options.right), target.room, OF_RIGHT) if options.output else target
        self.pairs = {}  # the two sides of each file that differs, by path
        self.total, self.sizes = 0, []  # how many bytes they have, and each by a number below 0, with its path: a heap
        self.sources = {}  # the permissions that a new file may have, by path
        self.digests = {} if options.output else None  # by what the other files are known, by path, where OUTPUT gets them too

    @functools.cached_property
    def there(self):
        """What lies in the folder that is changed, as it was when the program began: see paths_below."""
        return paths_below(self.target)

    @functools.cached_property
    def in_right(self):
        return self.there if self.target is self.right else paths_below(self.right)

    def is_told(self, path):
        """Whether a path is the file of jj, which is no file of the commit: LEFT does not have it."""
        return path == INSTRUCTIONS and self.left.read(path)[0] == ABSENT_SIDE

    def differing(self):
        """Returns the two sides of each file that differs, by path, and why others are left out."""
        found = [*self.there.items(), *self.in_right.items(), *paths_below(self.left).items()]
        left_out = {path: reason for path, reason in found if reason}
        for path in sorted({path for path, _ in found} - left_out.keys()):
            (old, for_old), (new, for_new) = (files.read(path) for files in (self.left, self.right))
            if self.is_told(path):
                continue
            if old != new:
                self.pairs[path] = old, new
                self.sources[path] = permissions_of_both(for_old, for_new)
                left_out.update(self.without_largest(path))
            elif self.digests is not None:
                self.digests[path] = digest_of(new)
        return self.pairs, left_out

    def without_largest(self, path):
        """Counts the bytes of the file at `path`. Leaves out the largest files where all have too many, and returns why, by path."""
        size, left_out = bytes_in(self.pairs[path]), {}
        heapq.heappush(self.sizes, (-size, path))
        self.total += size
        while self.total > MOST_IN_ALL:
            size, largest = heapq.heappop(self.sizes)
            self.total += size
            del self.pairs[largest]
            left_out[largest] = TOO_MUCH % format(MOST_IN_ALL, ",")
        return left_out

    def files_folder(self):
        """Returns the folder of the files that the user may open in an editor, or None: in RIGHT of git difftool they are links."""
        return None if self.right.follow else self.right.top

    def instructions(self):
        """Returns what jj says of the files, or an empty text."""
        (mode, data), _ = self.target.read(INSTRUCTIONS)
        is_file = mode != ABSENT and self.is_told(INSTRUCTIONS)
        return data[:MOST_INSTRUCTIONS].decode(errors="replace") if is_file else ""

    def entries(self, choices):
        """Returns the path of each file that is to be changed, with what it is and what it is to be (see Files.change). Stops if a file
        would have to lie in another one: what one needs the removal of is not chosen."""
        wanted = {path: new for path, (_, new) in self.pairs.items()}
        wanted.update((change.path, (mode, data)) for change, mode, data in choices)
        decided = decide(self.rows(wanted))
        for paths in sorted(map(sorted, decided.left_out.values())):
            raise Stop("%s and %s cannot both be there, as what is marked asks for" % tuple(map(shown, paths)))
        self.check_gone()
        entries, total = [], 0
        # what was left out, also by LEFT alone, is not among them
        for path in sorted({*decided.outcomes, *(self.digests or ())}):
            added = self.entry(path, decided.outcomes.get(path), wanted.get(path))
            entries += added
            total += sum(bytes_in(sides) for _, *sides in added)
            if self.digests is not None and total > MOST_IN_ALL:
                raise Stop("%s cannot be written: OUTPUT would be given more than %s bytes" % (shown(path), format(MOST_IN_ALL, ",")))
        return entries

    def rows(self, wanted):
        """Returns the rows of all paths: LEFT is what is there now, and all of it marked is RIGHT. OUTPUT gets what both have alike. What
        was left out stays."""
        rows = [row_of(path, *sides, wanted[path], path) for path, sides in self.pairs.items()]
        alike = {path for path, (mode, _) in (self.digests or {}).items() if mode != ABSENT}
        others = (path for path in self.there if path not in self.pairs and path not in (self.digests or ()))
        rows += [Row(path, path in self.there, True, GOAL, path) for path in sorted(alike)]
        return [*rows, *(Row(path, True, False, KEPT, None) for path in others)]

    def check_gone(self):
        """Stops if a path is refused that OUTPUT has and neither LEFT nor RIGHT, and which goes. It is in neither of the two trees."""
        gone = [path for path, (mode, _) in (self.digests or {}).items() if mode == ABSENT and path in self.there]
        if gone:
            decide([row_that_goes(path) for path in gone])

    def entry(self, path, letter, wanted):
        """Returns the entry of a path, if it is to be changed: to the version that was decided (`letter`), which may be the one that its
        marks ask for. OUTPUT gets what LEFT and RIGHT have alike, and loses what neither has."""
        now = self.pairs[path][1] if self.target is self.right else self.target.read(path)[0]
        version = version_by(letter, *self.pairs[path], wanted) if path in self.pairs else self.alike(path)
        return [(path, now, version)] if now != version else []

    def alike(self, path):
        """Returns what LEFT and RIGHT have both at a path."""
        version, self.sources[path] = self.right.read(path)
        if digest_of(version) != self.digests[path]:
            raise Stop("%s changed meanwhile" % shown(path))
        return version

    def folders_for(self, entries):
        """Returns the permissions that a folder may have which is made for `entries`, by path."""
        paths = [path for path, old, _ in entries if old[0] == ABSENT]
        old, new = (files.folders_above(paths) for files in (self.left, self.right))
        return {path: permissions_of_both(old.get(path), new.get(path)) for path in {**old, **new}}

    def is_copied_back(self):
        """Whether hg copies RIGHT back, file by file."""
        return IS_HG and self.target is self.right

    def git_that_keeps(self):
        """Returns the git that keeps what files lose, or None: RIGHT leads to the working tree of git difftool, and else it is a
        copy."""
        return git_of_user() if IS_DIFFTOOL and self.target is self.right else None


def file_at(path):
    """Returns the mode and the bytes of a file, and its permissions. What is no file has to be the device for none."""
    if os.path.isfile(path) or is_link(path):
        folder, name = place_of(path, is_to_be_read=True)
        return files_in(folder, None, open_of_process if is_of_processes(folder.at) else None).read(name)
    if os.path.exists(path) and os.path.samefile(path, os.devnull):
        return ABSENT_SIDE, None
    raise Stop("%s is no file" % shown(path))


class TwoFiles:
    """Two files, LEFT and RIGHT, and the file RIGHT or OUTPUT that is changed. They differ by what they contain alone: who calls
    makes LEFT for the call, and its mode says nothing."""

    def __init__(self, options, target):
        self.right = options.right
        self.is_of_working_tree = IS_FOR_ONE_FILE and not options.output and not os.path.isabs(options.right)
        ((old_mode, old), for_old), ((new_mode, new), for_new) = file_at(options.left), file_at(options.right)
        if {ABSENT, LINK}.isdisjoint((old_mode, new_mode)):
            old_mode = new_mode
        self.pair = (old_mode, old), (new_mode, new)
        self.name = os.path.basename(options.left if new_mode == ABSENT else options.right)
        changed = options.output or options.right
        if not options.output and new_mode == ABSENT and not options.read_only:
            raise Stop("%s is no file to write to: name one by --output, or show the changes by --read-only" % shown(changed))
        self.target, self.target_name = target, target.name
        self.sources = {self.target_name: permissions_of_both(for_old, for_new)}
        self.now = target.read(self.target_name)[0]
        # its path may have led elsewhere when the folder was opened
        if not options.output and self.now[1] != new:
            raise Stop("%s changed meanwhile" % shown(changed))

    def differing(self):
        return ({} if self.pair[0] == self.pair[1] else {self.name: self.pair}), {}

    def files_folder(self):
        """Returns the folder of RIGHT, unless the change has the name of LEFT."""
        return None if self.pair[1][0] == ABSENT else os.path.dirname(os.path.abspath(self.right))

    def instructions(self):
        return ""

    def entries(self, choices):
        old, new = self.pair
        wanted = next(((mode, data) for _, mode, data in choices), new)
        is_in_none = old[0] == new[0] == ABSENT
        if is_in_none and self.now[0] == ABSENT:
            return []
        # OUTPUT gets what both have alike, and loses what neither has
        row = row_that_goes(self.target_name) if is_in_none else row_of(self.target_name, old, new, wanted, self.target_name)
        version = version_by(decide([row]).outcomes[self.target_name], old, new, wanted)
        return [(self.target_name, self.now, version)] if self.now != version else []

    def folders_for(self, entries):
        return {}

    def is_copied_back(self):
        return False

    def git_that_keeps(self):
        return git_of_user() if self.is_of_working_tree else None
