"""What cannot be chosen without another file, for tools/dev/try-tools: a choice of files against a search among all sets of them, and
git-select where a renamed file has to be left out, and random choices in repositories and folders against the same search."""
import collections
import itertools
import json
import os
import random

from choosing.decided import ABSENT, CHOSEN, GOAL, NOW, Decided, Row, given_of
import changed
from choices import chosen, marked_at_random, path_of, with_other_marks
from places import Repository

NAMES = "a", "b", "a-", "ab", "B"
CASES, MOST_PATHS, CHOICES = 1_500, 8, 12


def lies_in(outer, inner):
    return inner.startswith(outer + "/")


def fits(paths):
    """Whether none of `paths` lies in another one."""
    return not any(lies_in(outer, inner) for outer in paths for inner in paths)


def random_tree(chance):
    tree = set()
    for _ in range(chance.randrange(MOST_PATHS)):
        path = "/".join(chance.choice(NAMES) for _ in range(chance.randrange(1, 4)))
        tree |= {path} if fits({*tree, path}) else set()
    return tree


def random_rows(chance):
    """Returns the paths of two trees, with a choice of what changes between them. Some pairs of a path that goes and one that comes
    are one file, of which one path is there in the end."""
    now, goal = random_tree(chance), random_tree(chance)
    gone, come = sorted(now - goal), sorted(goal - now)
    chance.shuffle(gone)
    chance.shuffle(come)
    pairs = list(zip(gone, come))[: chance.randrange(4)]
    rows = []
    for number, pair in enumerate(pairs):
        is_renamed = chance.random() < 0.7
        rows += [Row(pair[0], True, False, ABSENT if is_renamed else CHOSEN, number)]
        rows += [Row(pair[1], False, True, GOAL if is_renamed else ABSENT, number)]
    rest = sorted({*now, *goal}.difference(*pairs))
    rows += [row_of(path, path in now, path in goal, chance.random() < 0.6) for path in rest]
    chance.shuffle(rows)
    return rows


def row_of(path, is_there, is_goal, is_marked):
    """Returns the row of a path that no other one belongs to."""
    wanted = (GOAL if is_goal else ABSENT) if is_marked else (NOW if is_there else ABSENT)
    return Row(path, is_there, is_goal, wanted, path)


def is_wanted(row):
    return row.wanted != ABSENT


def left(rows, refused):
    """Returns the paths that are there in the end, if the files of `refused` are left out."""
    return [row.path for row in rows if (row.is_there if row.file in refused else is_wanted(row))]


def least(rows):
    """Returns what has to be left out, by a search among all sets of files that a path comes of."""
    files = sorted({row.file for row in rows if is_wanted(row) and not row.is_there}, key=str)
    sets = (set(some) for count in range(len(files) + 1) for some in itertools.combinations(files, count))
    return set.intersection(*(some for some in sets if fits(left(rows, some))))


def is_reason(rows, refused, file, come, other):
    """Whether `file` is refused as its path `come` would lie in the path `other`, which stays, or the other way round."""
    comes, stays = (next(row for row in rows if row.path == path) for path in (come, other))
    is_so = comes.file == file and is_wanted(comes) and not comes.is_there and other in left(rows, refused)
    return is_so and stays.is_there and (lies_in(come, other) or lies_in(other, come))


def is_outcome(row, refused, outcomes):
    """Whether the path of `row` gets what its own file's marks ask for, or what is there now if that file is left out."""
    now = NOW if row.is_there else ABSENT
    return outcomes[row.path] == (now if row.file in refused else row.wanted)


def files_that_need_others(place):
    """In random choices the files that are left out are those of a search among all sets, each with its reason, and each path gets
    what its marks ask for, or stays."""
    chance, counts = random.Random(7), [0, 0]
    for _ in range(CASES):
        rows = random_rows(chance)
        answer = place.call("scm-select", "--decide", given=given_of(rows))[1]
        decided, wanted = Decided(rows, os.fsencode(answer)), least(rows)
        refused = decided.left_out
        if set(refused) != wanted or not fits(left(rows, wanted)):
            return False
        if not all(is_reason(rows, refused, file, *why) for file, why in refused.items()):
            return False
        if len(decided.outcomes) != len(rows) or not all(is_outcome(row, refused, decided.outcomes) for row in rows):
            return False
        files = {row.path: row.file for row in rows}
        counts[0] += bool(refused)
        # one that is left out because another one is
        counts[1] += any(files[other] in refused for _, other in refused.values())
    return min(counts) > 5


def text_of(word):
    return b"".join(b"%s %d\n" % (word, number) for number in range(20))


def a_renamed_file_that_would_remove_another(place):
    """The renamed file is left out whole, where it takes the place of a file whose removal is not marked; so is one that needs the
    place of a renamed file that is left out. With all of it marked it is staged."""
    old = {"a": text_of(b"a"), "b": text_of(b"b"), "d": b"1\n"}
    new = {"b/c": old["a"], "d/e": old["b"]}
    repository = Repository(place, old, new)
    before = repository.index()
    # d goes, a => b/c and b => d/e: the two renamed files without the removal of d
    for words in [], ["--commit", "-m", "x"]:
        status, said = repository.select(*words, keys=["space", "j", "j", "space", "c"])
        place.forget_marks()
        is_named = all("%s is not " % name in said for name in ("a => b/c", "b => d/e"))
        is_named = is_named and all(": that would remove %s\n" % why in said for why in ("d, which is not marked", "b, which stays"))
        if status != 1 or not is_named or "\nstaged: " in said or repository.index() != before or repository.git("rev-list", "--count", "HEAD") != "1\n":
            return False
    is_all = repository.select(keys=["a", "c"])[0] == 0 and repository.index_files() == new
    # b => d/e goes back to b, but a => b/c stays
    status, said = repository.select("--unstage", keys=["j", "j", "space", "c"])
    is_out = status == 1 and "b => d/e is not unstaged: that would remove b/c, which is not marked\n" in said
    is_out = is_out and repository.index_files() == new
    return is_all and is_out and repository.files() == new and repository.is_sound()


def kind_of(chance, data):
    """Returns a file of a random kind, most often one with these lines."""
    return chance.choice([data, data, data, data, ("run", data), ("link", "to-%d" % chance.randrange(9))])


def random_change(chance, has_kinds=True):
    """Returns two tables of files, in which some files are renamed, some have changed lines, and some are links or can be run."""
    now, goal = sorted(random_tree(chance)), sorted(random_tree(chance))
    old = {path: text_of(b"%d" % number) for number, path in enumerate(now)}
    gone = [path for path in now if path not in goal]
    new = {}
    for number, path in enumerate(goal):
        data = old[path] if path in old else old[gone.pop()] if gone and chance.random() < 0.6 else text_of(b"new %d" % number)
        new[path] = data if chance.random() < 0.5 else data.replace(b" 7\n", b" seven\n")
    if has_kinds:
        old, new = ({path: kind_of(chance, data) for path, data in files.items()} for files in (old, new))
    return old, new


def rows_of(files, now, goal, ends):
    """Returns the rows of all paths of two tables, with what the marks of shown files ask for. `ends` has by name what these leave of
    the paths of each file alone."""
    rows = {path: row_of(path, path in now, path in goal, False) for path in {**now, **goal}}
    for name, file in files.items():
        for path in paths_of(name, file):
            rows[path] = rows[path]._replace(wanted=CHOSEN if path in ends[name] else ABSENT, file=name)
    return list(rows.values())


def paths_of(name, file):
    return filter(None, (name, file["old_path"]))


def expected_of(files, old, new, is_back=False):
    """Returns which files of a choice have to be left out, and the table that it leaves without them: what it leads to from `old`, or
    with `is_back` what stays of `new`."""
    now, goal, files = (new, old, with_other_marks(files)) if is_back else (old, new, files)
    ends = {name: chosen({name: file}, old, new) for name, file in files.items()}
    refused, made = least(rows_of(files, now, goal, ends)), dict(now)
    taken = [(name, path) for name, file in files.items() if name not in refused for path in paths_of(name, file)]
    for name, path in taken:
        made.pop(path, None)
    made.update((path, ends[name][path]) for name, path in taken if path in ends[name])
    return refused, made


# A way of git-select: its words, how the repository is made ready, whether what is marked is taken back, whether it is done whole or not
# at all, and what it changes.
Tried = collections.namedtuple("Tried", "words ready is_back is_whole changed")


def stage_all(repository):
    repository.git("add", "--all")


def stay(repository):
    """Leaves a repository as it is."""


def last_files(repository):
    return repository.files_of("HEAD")


def first_files(repository):
    """Returns the files of the first of two commits, or of the one that is not split."""
    is_split = repository.git("rev-list", "--count", "HEAD") == "3\n"
    return repository.files_of("HEAD^" if is_split else "HEAD")


WAYS = {
    "stage": Tried([], stay, False, False, Repository.index_files),
    "unstage": Tried(["--unstage"], stage_all, True, False, Repository.index_files),
    "restore": Tried(["--restore"], stay, True, True, Repository.files),
    "stash": Tried(["--stash"], stay, True, True, Repository.files),
    "commit": Tried(["--commit", "-m", "x"], stay, False, True, last_files),
    "amend": Tried(["--amend", "-m", "x"], stay, False, True, last_files),
    "split": Tried(["--split"], Repository.commit, False, True, first_files),
}


def is_as_expected(place, name, way, seed):
    """Tries a random choice in a new repository. Returns whether files were left out, or None if a file is not as the search says."""
    old, new = random_change(random.Random(seed))
    repository = Repository(place, old, new, "%s-%d" % (name, seed))
    way.ready(repository)
    before = way.changed(repository)
    refused_by = ": that would remove", "all of it is marked"
    marked = marked_at_random(place, ["git", "select", *way.words], seed, repository.folder, refused_by)
    place.forget_marks()
    refused, wanted = expected_of(marked, old, new, way.is_back)
    is_done = not (way.is_whole and refused) and (name != "split" or wanted not in (old, new))
    is_right = way.changed(repository) == (wanted if is_done else before) and repository.is_sound()
    is_right = is_right and (way.changed == Repository.files or repository.files() == new)
    return bool(refused) if is_right else None


def random_choices_in_repositories(place):
    """Whatever a choice is used for, its files are as the marks of each ask for, but for the least set of files that has to be left out.
    What is done whole or not at all is not done then."""
    for name, way in WAYS.items():
        counts = {True: 0, False: 0}
        for seed in range(CHOICES):
            found = is_as_expected(place, name, way, seed)
            if found is None:
                return False
            counts[found] += 1
        if not all(counts.values()):
            return False
    return True


def is_as_expected_in_folders(place, seed, before):
    """Tries a random choice in new folders. A third one has the files `before`, and gets what is chosen, unless that is None. Returns whether
    files were left out, or None if a file is not as the search says."""
    old, new = random_change(random.Random(seed))
    tables = {"left": old, "right": new, "output": before or {}}
    left, right, output = (place.folder("%s-%d" % (name, seed), files) for name, files in tables.items())
    words = [] if before is None else ["--output", output]
    marked = marked_at_random(place, ["gabrosty-diff-editor", *words, left, right], seed, refused=["cannot both be there"])
    place.forget_marks()
    refused, wanted = expected_of(marked, old, new)
    target, there = (right, new) if before is None else (output, before)
    is_right = changed.read(target) == (there if refused else wanted) and changed.read(left) == old
    return bool(refused) if is_right and changed.read(right) == (wanted if target == right and not refused else new) else None


def random_choices_in_folders(place):
    """The right folder has what the marks ask for, or a third one, whatever was in it. If a file has to be left out, nothing is written."""
    for before in None, {}, {"a": b"1\n", "z/b": ("link", "nowhere")}:
        found = [is_as_expected_in_folders(place, seed, before) for seed in range(CHOICES)]
        if {*found} != {False, True}:
            return False
    return True


def random_keys(chance):
    """Returns keys that mark some items of unfolded files."""
    return ["shift-F", *(key for _ in range(chance.randrange(2, 24)) for key in ["j"] * chance.randrange(1, 12) + ["space"]), "c"]


def random_keys_in_folders(place):
    """scm-select -d: the right folder has what the marks ask for, as the same keys set them with --json. If a file has to be left out, nothing
    is written."""
    found = set()
    for seed in range(CHOICES):
        chance = random.Random(seed)
        old, new = random_change(chance, has_kinds=False)
        left, right, told = place.folder("left-%d" % seed, old), place.folder("right-%d" % seed, new), os.path.join(place.top, "told")
        keys = random_keys(chance)
        if old == new or place.type(["scm-select", "--json", "-d", "-o", told, left, right], keys)[0]:
            return False
        with open(told, encoding="utf-8") as file:
            marked = {path_of(it): it for it in json.loads(file.read().split("\n")[1])["files"]}
        status, _ = place.type(["scm-select", "-d", left, right], keys)
        refused, wanted = expected_of(marked, old, new)
        if changed.read(right) != (new if refused else wanted) or changed.read(left) != old or bool(status) != bool(refused):
            return False
        found.add(bool(refused))
    return found == {False, True}


def a_restored_file_that_would_remove_others(place):
    """Nothing is taken back or stashed where a file that was deleted would remove others, which git does not know, or is told to ignore:
    each is named. Once they are away all is taken back."""
    old = {".gitignore": b"*.o\n", "a": b"1\n", "b/c": b"2\n", "d": b"3\n", "e": b"4\n"}
    new = {".gitignore": b"*.o\n", "a/x.o": b"5\n", "b": b"6\n", "d": b"7\n"}
    repository = Repository(place, old, new)
    words = "a is not %s: that would remove a/x.o, which is not marked\n", "b/c is not %s: that would remove b, which is not marked\n"
    for option, done in ("--stash", "stashed"), ("--restore", "restored"):
        status, said = repository.select(option, keys=["a", "c"])
        place.forget_marks()
        is_named = status == 1 and all(word % done in said for word in words) and "nothing was %s\n" % done in said
        if not is_named or repository.files() != new or repository.git("stash", "list"):
            return False
    for path in "a/x.o", "b":
        os.unlink(os.path.join(repository.folder, path))
    os.rmdir(os.path.join(repository.folder, "a"))
    return repository.select("--restore", keys=["a", "c"])[0] == 0 and repository.files() == old and repository.is_sound()


ALL = (
    files_that_need_others, a_renamed_file_that_would_remove_another, a_restored_file_that_would_remove_others,
    random_choices_in_repositories, random_choices_in_folders, random_keys_in_folders,
)
