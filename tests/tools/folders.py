"""gabrosty-diff-editor on folders of their own kinds, for tools/dev/try-tools."""
import os

import changed
from options import is_refused_restore
from places import Repository

from apart import without_rights


def links_out_of_the_folder(place):
    """Nothing is written through a link in RIGHT or in the working tree."""
    outside = place.folder("outside", {"b": b"outside\n"})
    left, right = place.folder("left", {"a/b": b"1\n"}), place.folder("right", {"a": ("link", outside)})
    # the file a/b again, but the link stays
    status, said = place.type(["gabrosty-diff-editor", left, right], ["space", "c"])
    is_named = status == 1 and "a/b" in said and changed.read(right) == {"a": ("link", outside)}
    is_back = place.type(["gabrosty-diff-editor", left, right], ["c"])[0] == 0 and changed.read(right) == {"a/b": b"1\n"}
    repository = Repository(place, {"a/b": b"1\n"}, {"a": ("link", outside)})
    is_refused = is_refused_restore(repository, {"a": ("link", outside)})
    return is_named and is_back and is_refused and changed.read(outside) == {"b": b"outside\n"}


def by_git_difftool(place):
    """git difftool --dir-diff: what is not chosen is taken back in the working tree, and git keeps what was there."""
    repository = Repository(place, {"a": b"1\n2\n3\n", "b": b"1\n"}, {"a": b"one\n2\nthree\n", "b": b"2\n"})
    repository.git("config", "difftool.select.cmd", 'gabrosty-diff-editor "$LOCAL" "$REMOTE"')
    command = ["git", "difftool", "--dir-diff", "--tool=select"]
    # the first section of a, and b
    status, said = place.type(command, ["shift-F", "j", "space", *["j"] * 6, "space", "c"], repository.folder)
    kept = [line.split()[1] for line in said.splitlines() if line.startswith("kept: ")]
    is_kept = [repository.git("cat-file", "blob", name) for name in kept] == ["one\n2\nthree\n"]
    return status == 0 and is_kept and repository.files() == {"a": b"one\n2\n3\n", "b": b"2\n"}


def as_jj_calls_it(place):
    """jj puts a file of its own into RIGHT, which is neither shown nor removed, and LEFT may not be written."""
    left, right = place.folder("left", {"a": b"1\n"}), place.folder("right", {"a": b"2\n", "JJ-INSTRUCTIONS": b"x\n"})
    os.chmod(os.path.join(left, "a"), 0o444)
    os.chmod(left, 0o555)
    status, _ = place.type(["gabrosty-diff-editor", left, right], ["c"])
    os.chmod(left, 0o755)
    return status == 0 and changed.read(right) == {"a": b"1\n", "JJ-INSTRUCTIONS": b"x\n"}


def what_is_no_folder(place):
    """What is no folder, wrong arguments, and nothing to choose."""
    left = place.folder("left", {"a": b"1\n"})
    lost = place.call("gabrosty-diff-editor", left, "/nowhere")
    few, same = place.call("gabrosty-diff-editor", left), place.call("gabrosty-diff-editor", left, left)
    empty = place.call("gabrosty-diff-editor", "--output", "", left, place.folder("right", {"a": b"2\n"}))
    is_named = lost == (1, "gabrosty-diff-editor: /nowhere is no folder\n") and (few[0], empty[0]) == (2, 2)
    return is_named and same == (0, "gabrosty-diff-editor: there is nothing to choose\n") and place.has_left_nothing()


def a_file_without_a_name(place):
    """LEFT may be a file that a shell has open, and that has no name any more. Skipped where the system names no open files."""
    if not os.path.isdir("/dev/fd"):
        return "there is no /dev/fd"
    right = place.folder("files", {"left": b"1\n", "right": b"2\n"})
    shell = 'exec 3< left; rm left; exec gabrosty-diff-editor /dev/fd/3 right'
    status, _ = place.type(["sh", "-c", shell], ["c"], right)
    return (status, changed.read(right)) == (0, {"right": b"1\n"})


def a_folder_that_becomes_a_link(place):
    """A folder of RIGHT, or of the working tree, becomes a link to another one while the user chooses: nothing is written."""
    old, new = {"a/b": b"1\n"}, {"a/b": b"2\n"}
    outside = place.folder("outside", {"b": b"2\n"})
    left, right, repository = place.folder("left", old), place.folder("right", new), Repository(place, old, new)
    ends = []
    for folder, command in ((right, ["gabrosty-diff-editor", left, right]), (repository.folder, ["git", "select", "--restore"])):
        def change(folder=folder):
            changed.write(folder, {"a": ("link", outside)})

        # restored is what is marked, and written what is not
        keys = ["c"] if folder == right else ["a", "c"]
        status, said = place.type(command, keys, folder, before_last=change)
        is_named = status == 1 and "a/b changed meanwhile: nothing was " in said
        ends.append(is_named and changed.read(folder) == {"a": ("link", outside)})
    place.forget_marks()
    return all(ends) and changed.read(outside) == {"b": b"2\n"} and repository.is_sound()


def what_is_no_file(place):
    """What is neither a file nor a link is named and left out, in LEFT and in RIGHT."""
    left, right = place.folder("left", {"a": b"1\n", "b": b"1\n"}), place.folder("right", {"a": b"2\n"})
    os.mkfifo(os.path.join(right, "b"))
    status, said = place.type(["gabrosty-diff-editor", left, right], ["c"])
    is_named = status == 0 and "b is left out: it is neither a file nor a link\n" in said
    is_there = os.path.exists(os.path.join(right, "b"))
    os.unlink(os.path.join(right, "b"))
    return is_named and is_there and changed.read(right) == {"a": b"1\n"}


def a_working_tree(place):
    """What git and jj keep for themselves in RIGHT is neither shown nor removed."""
    repository = Repository(place, {"a": b"1\n"}, {"a": b"2\n", ".jj/x": b"1\n", "b/.git": b"1\n"})
    left = place.folder("left", {"a": b"1\n"})
    status, _ = place.type(["gabrosty-diff-editor", left, repository.folder], ["c"])
    is_left = all(os.path.exists(os.path.join(repository.folder, path)) for path in (".jj/x", "b/.git"))
    return status == 0 and is_left and repository.files()["a"] == b"1\n" and repository.is_sound()


def permissions(place):
    """A file that is written keeps the permissions that it had, but for those to run it."""
    ends = []
    for before, old, new, after in ((0o600, b"1\n", b"2\n", 0o600), (0o640, ("run", b"1\n"), b"1\n", 0o750)):
        left, right = place.folder("left", {"a": old}), place.folder("right", {"a": new})
        os.chmod(os.path.join(right, "a"), before)
        status, _ = place.type(["gabrosty-diff-editor", left, right], ["c"])
        ends.append((status, os.stat(os.path.join(right, "a")).st_mode & 0o777) == (0, after))
    return all(ends)


def what_cannot_be_written(place):
    """A file in a folder of RIGHT that may not be written is named, and all stays. Skipped where all may be written."""
    before = without_rights()
    if before is None:
        return None
    old, new = {"a": b"1\n", "b/c": b"1\n", "d": b"1\n"}, {"a": b"2\n", "b/c": b"2\n", "d": b"2\n"}
    left, right = place.folder("left", old), place.folder("right", new)
    os.chmod(os.path.join(right, "b"), 0o555)
    status, said = place.type([*before, "gabrosty-diff-editor", left, right], ["c"])
    os.chmod(os.path.join(right, "b"), 0o755)
    is_named = status == 1 and "b/c cannot be written: " in said and ": nothing was written" in said
    return is_named and changed.read(right) == new and sorted(os.listdir(right)) == ["a", "b", "d"]


ALL = (
    links_out_of_the_folder, a_folder_that_becomes_a_link, by_git_difftool, as_jj_calls_it, what_is_no_folder, a_file_without_a_name,
    what_is_no_file, what_cannot_be_written, a_working_tree, permissions,
)
