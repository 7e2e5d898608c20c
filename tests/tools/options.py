"""git-select with each of its options, and gabrosty-diff-editor, on every case of changed.py and on cases of their own."""
import os

import changed
from places import Repository


def stage_all(place, old, new):
    """Everything is staged, as `git add` does."""
    repository = Repository(place, old, new)
    status, _ = repository.select(keys=["a", "c"])
    is_added = repository.index() == repository.index_of("add", "--all")
    return status == 0 and is_added and repository.files() == new and repository.is_sound()


def stage_nothing(place, old, new):
    """Nothing is marked, or the user gives up: nothing is staged."""
    repository = Repository(place, old, new)
    ends = [repository.select(keys=[key])[0] for key in ("c", "q")]
    return ends == [0, 1] and repository.index() == repository.index_of() and repository.files() == new


def unstage_all(place, old, new):
    """All that is staged is taken out of the index, and the working tree stays."""
    repository = Repository(place, old, new)
    repository.git("add", "--all")
    added = repository.index()
    is_left = repository.select("--unstage", keys=["q"])[0] == 1 and repository.index() == added
    status, _ = repository.select("--unstage", keys=["a", "c"])
    is_out = repository.index() == repository.index_of()
    return is_left and status == 0 and is_out and repository.files() == new and repository.is_sound()


def restore_all(place, old, new):
    """The files of the index are as it has them, and others stay. Git has what files had, by the names that are said."""
    repository = Repository(place, old, new)
    if any(path.startswith(other + "/") or other.startswith(path + "/") for path in old for other in new):
        return is_refused_restore(repository, new)
    if repository.git("status", "--porcelain", "--untracked-files=no"):
        is_left = repository.select("--restore", keys=["q"])[0] == 1 and repository.files() == new
        status, said = repository.select("--restore", keys=["a", "c"])
    else:
        is_left, (status, said) = True, place.call("git", "select", "--restore", folder=repository.folder)
    lost = [new[path] for path in old if path in new and content_of(old[path]) != content_of(new[path])]
    kept = [line.split()[1] for line in said.splitlines() if line.startswith("kept: ")]
    had = [os.fsencode(repository.git("cat-file", "blob", name)) for name in kept]
    is_kept = sorted(map(content_of, lost)) == sorted(had)
    is_back = status == 0 and repository.files() == {**new, **old} and repository.index() == repository.index_of()
    return is_left and is_kept and is_back and repository.is_sound()


def content_of(what):
    return os.fsencode(what[1]) if isinstance(what, tuple) else what


def is_refused_restore(repository, new):
    """Whether a file that would have to replace a folder, or to lie in a file, is named, and all stays."""
    status, said = repository.select("--restore", keys=["a", "c"])
    repository.place.forget_marks()
    is_named = "git-select: a" in said and ": nothing was restored" in said and "marks are kept" in said
    return status == 1 and is_named and repository.files() == new and repository.is_sound()


def commit_all(place, old, new):
    """Everything is committed, with the message that is edited."""
    repository = Repository(place, old, new)
    added = repository.index_of("add", "--all")
    repository.git("config", "core.editor", "printf 'A message\\n' >")
    status, said = repository.select("--commit", keys=["a", "e", "c"])
    is_committed = repository.index() == added == repository.index_of()
    is_told = repository.git("log", "-1", "--format=%s") == "A message\n"
    return status == 0 and is_committed and is_told and repository.files() == new and repository.is_sound()


def edit_folders(place, old, new):
    """RIGHT stays with everything marked, and becomes LEFT with nothing marked. If the user gives up it stays too."""
    ends = []
    for keys, status, wanted in ((["a", "c"], 0, new), (["c"], 0, old), (["q"], 1, new)):
        left, right = place.folder("left", old), place.folder("right", new)
        found = place.type(["gabrosty-diff-editor", left, right], keys)[0], changed.read(right), changed.read(left)
        ends.append(found == (status, wanted, old))
    return all(ends) and place.has_left_nothing() and place.has_only("left", "right")


ALL = stage_all, stage_nothing, unstage_all, restore_all, commit_all, edit_folders
