"""Where git finds out what it would store, before anything of the repository is written."""
import contextlib
import functools
import os
import re
import subprocess

from choosing.change import ABSENT, Read, Side, Unread
from choosing.git import PACKING, Git, reason_in, run_within, split_by_zeros
from choosing.temporary import new_folder, new_path
from choosing.words import Stop
from repository import index_lines, update_index

# the words by which git runs no hook: what it writes is not the repository's
NO_HOOKS = "-c", "core.hooksPath=" + os.devnull
# the words by which git stores quickly what need not last
FOR_NOW = "-c", "core.fsync=none", "-c", "core.compression=0", *NO_HOOKS
# of how many files that come and go git compares each with each, to find those that have another path
MOST_COMPARED = 200
# the words by which git gives objects by their names. It need not have a large one in memory
BY_NAMES = "-c", "core.bigFileThreshold=1m", "cat-file", "--batch", "--buffer"
# how many bytes git writes around an object: its name, its kind and its size
LONGEST_HEAD = 100


def names_to_ask(names):
    """Returns the names of objects as git takes them."""
    return ("\n".join(names) + "\n").encode() if names else b""


def contents_in(output, names):
    """Returns the bytes of objects, by name, by what git answers to their names in this order. Stops if git has no such object."""
    found, place = {}, 0
    for name in names:
        end = output.index(b"\n", place)
        size = output[output.rindex(b" ", place, end) + 1 : end]
        if not size.isdigit():
            raise Stop("git has no object %s" % name)
        place = end + 1 + int(size)
        found[name] = output[end + 1 : place]
        place += 1
    return found


class Scratch(Git):
    """A copy of a repository's index, with a store of objects of its own, in `folder`. Objects of the repository can be
    read, and the repository is not written to."""

    # an index in two parts would leave one of them beside the repository's index
    options = "-c", "core.splitIndex=false", *FOR_NOW
    taking = PACKING

    def __init__(self, repository, folder):
        self.folder = folder
        index, objects = os.path.join(folder, "index"), os.path.join(folder, "objects")
        os.makedirs(objects)
        repository.index.copy_to(index)
        others = '"%s"' % repository.path_to_objects().replace("\\", "\\\\").replace('"', '\\"')
        more = repository.environment.get("GIT_ALTERNATE_OBJECT_DIRECTORIES")
        self.repository, self.known = repository, {}  # contents that were read already, by the names of objects
        super().__init__(repository.top, {
            **repository.environment, "GIT_INDEX_FILE": index, "GIT_OBJECT_DIRECTORY": objects,
            "GIT_ALTERNATE_OBJECT_DIRECTORIES": others + os.pathsep + more if more else others,
        }, repository.opened)

    @functools.cached_property
    def one_file(self):
        """The words by which git stores all that it adds in one file: quicker than in many. Before 2.38 there were none."""
        version = [int(number) for number in re.findall(rb"\d+", self.git("version"))[:2]]
        return ("-c", "core.bigFileThreshold=1") if version >= [2, 38] else ()

    @property
    def algorithm(self):
        return self.repository.algorithm

    def setting(self, name):
        """Returns what the user has set, or None."""
        return self.repository.settings.get(name)

    def add(self, paths):
        """Adds files to the index as `git add` does. Returns, by path, what git said of those that it cannot add."""
        if not paths:
            return {}
        given = b"".join(os.fsencode(path) + b"\0" for path in paths)
        words = *self.one_file, "update-index", "-z", "--add", "--replace", "--stdin"
        status, _, said = self.run(*words, given=given)
        if status == 0:
            return {}
        if len(paths) == 1:
            return {paths[0]: reason_in(said)}
        half = len(paths) // 2
        return {**self.add(paths[:half]), **self.add(paths[half:])}

    def sides(self, paths):
        """Returns the sides in this index of those of `paths` that it has, by path."""
        wanted = set(paths)
        if not wanted:
            return {}
        lines = (line.partition("\t") for line in split_by_zeros(self.git("ls-files", "-z", "--stage")))
        return {path: Side(*head.split()[:2]) for head, _, path in lines if path in wanted}

    def renames(self, sides):
        """Returns the old paths of files that have another one by now, by the new ones, as git finds them. `sides` has the sides of
        each file that differs, by path. None is found if the user has set that."""
        gone = [(path, old) for path, (old, new) in sides.items() if new.mode == ABSENT and self.is_read(old)]
        come = [(path, new) for path, (old, new) in sides.items() if old.mode == ABSENT and self.is_read(new)]
        if not gone or not come or self.run("config", "--type=bool", "--get", "diff.renames")[1].strip() == b"false":
            return {}
        # what is no more than renamed is found by its name
        are_compared = len(gone) * len(come) <= MOST_COMPARED ** 2
        read = [side for _, side in come if isinstance(side, Read)] if are_compared else []
        self.store([side.data for side in read], [side.name for side in read])
        words = "-r", "-z", "-M" if are_compared else "-M100%", "-l%d" % MOST_COMPARED, "--diff-filter=R"
        parts = split_by_zeros(self.git("diff-tree", *words, self.tree(gone), self.tree(come)))
        return dict(zip(parts[2::3], parts[1::3]))

    def leave_unread(self, sizes):
        """Has objects not be read. `sizes` has their sizes, by name."""
        self.known.update((name, Unread(name.encode(), size)) for name, size in sizes.items())

    def is_read(self, side):
        """Whether the contents of a side are not left unread."""
        return isinstance(side, Read) or not isinstance(self.known.get(side.name), Unread)

    def tree(self, entries):
        """Stores a tree of paths with their sides. Returns its name."""
        index = {"GIT_INDEX_FILE": new_path("tree-", folder=self.folder)}
        self.git("update-index", "-z", "--index-info", given=index_lines(entries), **index)
        return self.git("write-tree", "--missing-ok", **index).decode().strip()

    def sizes(self, names, most):
        """Returns how many bytes objects have, by name. They are read too, if they have no more than `most` bytes together."""
        names = [*dict.fromkeys(names)]
        found = self.contents_within(names, most)
        if found is not None:
            self.known.update(found)
            return {name: len(data) for name, data in found.items()}
        given = names_to_ask(names)
        lines = self.git("cat-file", "--batch-check", "--buffer", given=given).decode().splitlines() if given else []
        # of an object that git does not have it says that alone
        found = (line.split() for line in lines)
        return {words[0]: int(words[-1]) for words in found if words[-1].isdigit()}

    def contents(self, names):
        """Returns the bytes of objects, by name, these among others."""
        missing = {*names} - self.known.keys()
        return {**self.known, **self.stored_contents(sorted(missing))} if missing else self.known

    def stored_contents(self, names):
        """Returns the bytes of objects that git has, by name."""
        return contents_in(self.git(*BY_NAMES, given=names_to_ask(names)), names) if names else {}

    def contents_within(self, names, most):
        """Returns the bytes of objects, by name, if git has all of them, and they have no more than `most` bytes together, else None."""
        asked, answered = (new_path(it, folder=self.folder) for it in ("asked-", "answered-"))
        with open(asked, "w+b") as given, open(answered, "w+b") as output:
            given.write(names_to_ask(names))
            given.seek(0)
            settings = {"stdin": given, "stdout": output, "stderr": subprocess.DEVNULL, "env": self.environment, **self.inside(self.top)}
            status = run_within(["git", *self.options, *BY_NAMES], most + len(names) * LONGEST_HEAD, **settings)
            output.seek(0)
            with contextlib.suppress(Stop):
                found = contents_in(output.read(), names) if status == 0 else {}
                if found and sum(map(len, found.values())) <= most:
                    return found
        return None

    def checked_out(self, entries, folder):
        """Writes paths with their sides into a new folder below `folder`, as a checkout does. Returns that folder."""
        top = new_folder("made-", folder)
        index = {"GIT_INDEX_FILE": os.path.join(top, "index")}
        update_index(self, entries, **index)
        self.git("checkout-index", "--all", "--prefix=%s/files/" % top, **index)
        return os.path.join(top, "files")
