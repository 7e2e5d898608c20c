"""git-select in repositories of their own kinds, for tools/dev/try-tools."""
import os

import changed
from places import Repository

from apart import without_rights


def some_lines(place):
    """Chosen lines of a text: staged, and then the others taken back, taken out of the index, committed, and written."""
    old, new = changed.CASES["text edits"]
    # the first added line, and of the last change the lines 7 and `and`
    keys = ["shift-F", "j", "j", "space", *["j"] * 4, "space", "j", "j", "space", "c"]
    chosen = b"0\n" + changed.NUMBERS.replace(b"7\n", b"and\n")
    rest = changed.NUMBERS.replace(b"4\n", b"").replace(b"7\n", b"7\nseven\n")
    repository = Repository(place, old, new)
    is_staged = repository.select(keys=keys)[0] == 0 and repository.git("show", ":a.txt").encode() == chosen
    # what is not staged yet: the line 4, and `seven`
    is_back = repository.select("--restore", keys=["a", "c"])[0] == 0 and repository.files() == {"a.txt": chosen}
    changed.write(repository.folder, new)
    repository.git("add", "--all")
    is_out = repository.select("--unstage", keys=keys)[0] == 0 and repository.git("show", ":a.txt").encode() == rest
    repository.git("reset", "--quiet")
    is_taken_back = repository.select("--restore", keys=keys)[0] == 0 and repository.files() == {"a.txt": rest}
    changed.write(repository.folder, new)
    is_committed = repository.select("--commit", "-m", "Some", keys=keys)[0] == 0
    is_committed = is_committed and repository.git("show", "HEAD:a.txt").encode() == chosen and repository.files() == new
    left, right = place.folder("left", old), place.folder("right", new)
    is_written = place.type(["gabrosty-diff-editor", left, right], keys)[0] == 0 and changed.read(right) == {"a.txt": chosen}
    return is_staged and is_back and is_out and is_taken_back and is_committed and is_written and repository.is_sound()


def partly_staged(place):
    """What was staged before stays, is committed too, and is not restored."""
    repository = Repository(place, {"a": b"1\n2\n3\n"}, {"a": b"one\n2\n3\n"})
    repository.git("add", "--all")
    new = {"a": b"one\n2\nthree\n"}
    changed.write(repository.folder, new)
    is_staged = repository.select(keys=["c"])[0] == 0 and repository.git("show", ":a") == "one\n2\n3\n"
    is_back = repository.select("--restore", keys=["a", "c"])[0] == 0 and repository.files() == {"a": b"one\n2\n3\n"}
    changed.write(repository.folder, new)
    is_committed = repository.select("--commit", "-m", "Both", keys=["a", "c"])[0] == 0
    is_committed = is_committed and repository.git("show", "HEAD:a") == "one\n2\nthree\n"
    return is_staged and is_back and is_committed and repository.is_sound()


def partly_unstaged(place):
    """One of two staged lines leaves the index, and the working tree keeps both and what was not staged."""
    repository = Repository(place, {"a": b"1\n2\n3\n"}, {"a": b"one\n2\nthree\n"})
    repository.git("add", "--all")
    new = {"a": b"one\n2\nthree\nfour\n"}
    changed.write(repository.folder, new)
    status, _ = repository.select("--unstage", keys=["shift-F", "j", "space", "c"])
    is_out = status == 0 and repository.git("show", ":a") == "1\n2\nthree\n"
    return is_out and repository.files() == new and repository.is_sound()


def lines_of_new_and_gone_files(place):
    """One line of a new file, and one of a file that is gone, taken out of the index and back."""
    repository = Repository(place, {"gone": b"1\n2\n"}, {"new": b"3\n4\n"})
    repository.git("add", "--all")
    # all unfolded: the file, its mode, its lines
    keys = ["shift-F", *["j"] * 3, "space", *["j"] * 5, "space", "c"]
    status, _ = repository.select("--unstage", "gone", "new", keys=keys)
    is_out = status == 0 and repository.git("show", ":gone") == "1\n" and repository.git("show", ":new") == "4\n"
    repository.git("reset", "--quiet")
    status, _ = repository.select("--restore", keys=["shift-F", *["j"] * 3, "space", "c"])
    return is_out and status == 0 and repository.files() == {"gone": b"1\n", "new": b"3\n4\n"} and repository.is_sound()


def intent_to_add(place):
    """A file that is only to be added is staged as a new one, and not restored."""
    repository = Repository(place, {"a": b"1\n"}, {"a": b"2\n", "b": b"1\n2\n"})
    repository.git("add", "--intent-to-add", "b")
    status, said = repository.select("--restore", keys=["a", "c"])
    is_left = status == 0 and "b is left out: " in said and repository.files() == {"a": b"1\n", "b": b"1\n2\n"}
    is_no_change = place.call("git", "select", "--unstage", folder=repository.folder)[1].endswith("nothing to unstage\n")
    # the second line: under the file, its mode, the section and the first line
    keys = ["shift-F", *["j"] * 4, "space", "c"]
    is_staged = repository.select("b", keys=keys)[0] == 0 and repository.git("show", ":b") == "2\n"
    repository.git("reset", "--quiet")
    repository.git("add", "--intent-to-add", "b")
    is_committed = repository.select("--commit", "-m", "x", "b", keys=keys)[0] == 0
    is_committed = is_committed and repository.git("show", "HEAD:b", "HEAD:a") == "2\n1\n"
    return is_left and is_no_change and is_staged and is_committed and repository.is_sound()


def in_a_subdirectory(place):
    """Paths count from the folder that the user is in, and without one all of the repository is shown."""
    old, new = {"a": b"1\n", "b/a": b"1\n"}, {"a": b"2\n", "b/a": b"2\n"}
    repository = Repository(place, old, new)
    below = os.path.join(repository.folder, "b")
    is_one = repository.select("a", keys=["a", "c"], folder=below)[0] == 0
    is_one = is_one and repository.git("diff", "--cached", "--name-only") == "b/a\n"
    is_out = repository.select("--unstage", "a", keys=["a", "c"], folder=below)[0] == 0
    is_out = is_out and not repository.git("diff", "--cached")
    is_back = repository.select("--restore", "a", keys=["a", "c"], folder=below)[0] == 0
    is_back = is_back and repository.files() == {**new, "b/a": b"1\n"}
    changed.write(repository.folder, new)
    is_committed = repository.select("--commit", "-m", "x", "a", keys=["a", "c"], folder=below)[0] == 0
    is_committed = is_committed and repository.git("show", "HEAD:b/a", "HEAD:a") == "2\n1\n"
    is_all = repository.select(keys=["a", "c"], folder=below)[0] == 0 and not repository.git("diff")
    return is_one and is_out and is_back and is_committed and is_all and repository.is_sound()


def in_a_linked_worktree(place):
    """The index of the worktree is written, and the main one stays."""
    repository = Repository(place, {"a": b"1\n"}, {"a": b"1\n"})
    linked = os.path.join(place.top, "linked")
    repository.git("worktree", "add", "--quiet", linked)
    ends = []
    before = repository.index()
    for words, data in ((["--commit", "-m", "x"], b"2\n"), ([], b"3\n"), (["--unstage"], b"3\n"), (["--restore"], b"3\n")):
        with open(os.path.join(linked, "a"), "wb") as file:
            file.write(data)
        ends.append(repository.select(*words, keys=["a", "c"], folder=linked)[0])
    is_back = changed.read_file(os.path.join(linked, "a")) == b"2\n"
    is_back = is_back and repository.git("show", "linked:a") == "2\n" and repository.index() == before
    return ends == [0] * 4 and is_back and repository.is_sound()


def a_locked_index(place):
    """It is named at once, and where it is locked while the user chooses; index and working tree stay."""
    repository = Repository(place, {"a": b"1\n", "b": b"1\n"}, {"a": b"2\n", "b": b"1\n"})
    lock = os.path.join(repository.folder, ".git", "index.lock")
    ends = []
    for words in ([], ["--unstage"], ["--restore"], ["--commit", "-m", "x"]):
        if words == ["--unstage"]:
            repository.git("add", "a")
        before = repository.index(), repository.git("rev-parse", "HEAD"), repository.files()
        status, said = repository.select(*words, keys=["a", "c"], before_last=lambda: open(lock, "w").close())
        early = place.call("git", "select", *words, folder=repository.folder)
        os.unlink(lock)
        after = repository.index(), repository.git("rev-parse", "HEAD"), repository.files()
        ends.append(before == after and status == early[0] == 1 and "index.lock" in said and "index.lock" in early[1])
        repository.git("reset", "--quiet")
    place.forget_marks()
    return all(ends) and repository.is_sound()


def in_conflict(place):
    """A file in conflict is left out by its name with each option, and others are used. A commit is refused before the choice."""
    repository = Repository(place, {"a": b"1\n", "b": b"1\n"}, {"a": b"2\n", "b": b"1\n"})
    repository.git("checkout", "--quiet", "-b", "other")
    repository.commit()
    repository.git("checkout", "--quiet", "-")
    changed.write(repository.folder, {"a": b"3\n", "b": b"1\n"})
    repository.commit()
    repository.git("merge", "other")
    conflict = repository.files()["a"]
    changed.write(repository.folder, {"a": conflict, "b": b"2\n"})
    ends = []
    for words in ([], ["--unstage"], ["--restore"]):
        status, said = repository.select(*words, keys=["a", "c"])
        ends.append((status, said.count("a is left out: it is in conflict\n")) == (0, 1))
        if words != ["--unstage"]:
            continue
        for words in ["--commit", "-m", "x"], ["--amend"], ["--fixup", "HEAD"], ["--stash"]:
            said = place.call("git", "select", *words, folder=repository.folder)
            ends.append(said == (1, "git-select: a is in conflict: resolve that first\n"))
    is_left = len(repository.git("ls-files", "--unmerged").splitlines()) == 3
    return all(ends) and is_left and repository.files() == {"a": conflict, "b": b"1\n"} and repository.is_sound()


def a_submodule(place):
    """A submodule is left out by its name, and another file is used."""
    repository = Repository(place, {"a": b"1\n"}, {"a": b"1\n"})
    inner = Repository(place, {"x": b"1\n"}, {"x": b"1\n"}, os.path.join("repository", "inner"))
    repository.commit()
    changed.write(inner.folder, {"x": b"2\n"})
    inner.commit()
    before = repository.git("rev-parse", "HEAD:inner")
    ends = []
    for words in (["--restore"], [], ["--unstage"], ["--commit", "-m", "x"]):
        with open(os.path.join(repository.folder, "a"), "wb") as file:
            file.write(b"2\n")
        status, said = repository.select(*words, keys=["a", "c"])
        # what is staged has no change of it
        ends.append(status == 0 and ("inner is left out: it is a submodule\n" in said) != (words == ["--unstage"]))
    repository.git("add", "inner")
    status, said = place.call("git", "select", "--unstage", folder=repository.folder)
    ends.append(status == 0 and said.startswith("git-select: inner is left out: it is a submodule\n"))
    repository.git("reset", "--quiet")
    return all(ends) and repository.git("rev-parse", ":inner") == before and changed.read(inner.folder) == {"x": b"2\n"}


def settings_for_line_ends(place):
    """With core.autocrlf a line is taken back, and the others keep their CR. Where git would not give them back, the file is
    named and stays."""
    repository = Repository(place, {"a": b"1\n2\n3\n"}, {"a": b"one\r\n2\r\nthree\r\n"})
    keys = ["shift-F", "j", "space", "c"]
    repository.git("config", "core.autocrlf", "true")
    is_back = repository.select("--restore", keys=keys)[0] == 0 and repository.files() == {"a": b"1\r\n2\r\nthree\r\n"}
    repository.git("config", "core.autocrlf", "input")
    changed.write(repository.folder, {"a": b"one\r\n2\r\nthree\r\n"})
    status, said = repository.select("--restore", keys=keys)
    is_named = status == 1 and "a is not restored: " in said and repository.files() == {"a": b"one\r\n2\r\nthree\r\n"}
    place.forget_marks()
    is_whole = repository.select("--restore", keys=["a", "c"])[0] == 0 and repository.files() == {"a": b"1\n2\n3\n"}
    return is_back and is_named and is_whole and repository.is_sound()


def a_hook_that_refuses(place):
    """The commit is refused, what the hook said is shown, and the index stays."""
    repository = Repository(place, {"a": b"1\n"}, {"a": b"2\n"})
    before = repository.index(), repository.git("rev-parse", "HEAD")
    hook = os.path.join(repository.folder, ".git", "hooks", "pre-commit")
    os.makedirs(os.path.dirname(hook), exist_ok=True)
    with open(hook, "w") as file:
        file.write("#!/bin/sh\necho not today\nexit 1\n")
    os.chmod(hook, 0o755)
    status, said = repository.select("--commit", "-m", "x", keys=["a", "c"])
    is_refused = status == 1 and "not today" in said and "nothing was committed" in said
    place.forget_marks()
    after = repository.index(), repository.git("rev-parse", "HEAD")
    is_free = not os.path.exists(os.path.join(repository.folder, ".git", "index.lock"))
    return is_refused and before == after and is_free and repository.is_sound()


def without_a_commit(place):
    """In a repository without a commit: staged, taken out of the index, and committed."""
    repository = Repository(place, {}, {"a": b"1\n2\n"})
    repository.git("update-ref", "-d", "HEAD")
    is_staged = repository.select(keys=["a", "c"])[0] == 0 and repository.git("show", ":a") == "1\n2\n"
    is_out = repository.select("--unstage", keys=["a", "c"])[0] == 0 and not repository.index()
    is_committed = repository.select("--commit", "-m", "x", keys=["a", "c"])[0] == 0
    return is_staged and is_out and is_committed and repository.git("show", "HEAD:a") == "1\n2\n" and repository.is_sound()


def a_template(place):
    """The message begins as git's template. Its comments are left out."""
    repository = Repository(place, {"a": b"1\n"}, {"a": b"2\n"})
    template = os.path.join(place.folder("outside"), "template")
    with open(template, "w") as file:
        file.write("Subject\n# a comment\n")
    repository.git("config", "commit.template", template)
    repository.git("config", "core.editor", "sed -i s/Subject/Edited/")
    status, _ = repository.select("--commit", keys=["a", "e", "c"])
    return status == 0 and repository.git("log", "-1", "--format=%B").strip() == "Edited" and repository.is_sound()


def a_message_that_git_asks_for(place):
    """Without a message, or with the template as it is, git opens its editor. If it stays so, nothing is committed."""
    repository = Repository(place, {"a": b"1\n"}, {"a": b"2\n"})
    template = os.path.join(place.folder("outside"), "template")
    changed.write_file(template, b"Subject\n# a comment\n")
    before = repository.index(), repository.git("rev-parse", "HEAD")
    for setting in "core.editor", "commit.template":
        repository.git("config", setting, {"core.editor": "true", "commit.template": template}[setting])
        status, said = repository.select("--commit", keys=["a", "c"])
        place.forget_marks()
        if status != 1 or "git did not commit: nothing was committed" not in said:
            return False
    is_left = before == (repository.index(), repository.git("rev-parse", "HEAD"))
    repository.git("config", "core.editor", "sed -i 's/Subject/Edited in the end/'")
    status, said = repository.select("--commit", keys=["a", "c"])
    is_committed = status == 0 and repository.git("log", "-1", "--format=%B").strip() == "Edited in the end"
    return is_left and is_committed and repository.git("show", ":a") == "2\n" and repository.is_sound()


def a_file_as_old_as_the_index(place):
    """A file that was written just when the index was, with as many bytes as before, is seen as changed after a commit."""
    repository = Repository(place, {"a": b"1\n", "b": b"1\n"}, {"a": b"1\n", "b": b"1\n"})
    repository.git("config", "core.trustctime", "false")
    path, index = (os.path.join(repository.folder, it) for it in ("b", ".git/index"))
    time = os.stat(path).st_mtime_ns
    for name in ("a", "b"):
        changed.write_file(os.path.join(repository.folder, name), b"2\n")
    for it in (path, index):
        os.utime(it, ns=(time, time))
    status, _ = repository.select("--commit", "-m", "x", "a", keys=["a", "c"])
    return status == 0 and repository.git("status", "--porcelain") == " M b\n" and repository.is_sound()


def marks_that_are_taken_up(place):
    """What was marked when something was refused is marked again, with the message."""
    repository = Repository(place, {"a": b"1\n2\n"}, {"a": b"one\ntwo\n"})
    lock = os.path.join(repository.folder, ".git", "index.lock")
    # the first line, old and new
    keys = ["shift-F", "j", "j", "space", "j", "space", "c"]
    repository.select("--commit", "-m", "Kept", keys=keys, before_last=lambda: open(lock, "w").close())
    os.unlink(lock)
    kept = [os.path.join(place.temporary, name) for name in os.listdir(place.temporary)]
    status, _ = repository.select("--commit", "--marks", *kept, keys=["c"])
    place.forget_marks()
    is_committed = status == 0 and repository.git("log", "-1", "--format=%s") == "Kept\n"
    return is_committed and repository.git("show", "HEAD:a") == "one\n2\n" and repository.is_sound()


def a_file_that_changed(place):
    """A file that changes while the user chooses is named, and all stays."""
    repository = Repository(place, {"a": b"1\n", "b": b"1\n"}, {"a": b"2\n", "b": b"2\n"})
    left, right = place.folder("left", {"a": b"1\n", "b": b"1\n"}), place.folder("right", {"a": b"2\n", "b": b"2\n"})
    wanted = {"a": b"2\n", "b": b"3\n"}
    change = {"before_last": lambda: changed.write(repository.folder, wanted)}
    status, said = repository.select("--restore", keys=["a", "c"], **change)
    is_left = status == 1 and "b changed meanwhile: nothing was restored" in said and repository.files() == wanted
    status, said = place.type(["gabrosty-diff-editor", left, right], ["c"], before_last=lambda: changed.write(right, wanted))
    is_stopped = status == 1 and "b changed meanwhile: nothing was written" in said and changed.read(right) == wanted
    place.forget_marks()
    return is_left and is_stopped and repository.is_sound()


def all_or_nothing(place):
    """Of files that are restored or written together, none changes if one cannot be."""
    old, new = {"a/x": b"1\n", "b/c": b"1\n", "d": b"1\n"}, {"b": b"2\n", "d": b"2\n"}
    repository = Repository(place, old, new)
    status, said = repository.select("--restore", keys=["a", "c"])
    is_left = status == 1 and "b/c is not restored: that would remove b, which is not marked\n" in said and repository.files() == new
    is_left = is_left and sorted(os.listdir(repository.folder)) == [".git", "b", "d"]
    left, right = place.folder("left", old), place.folder("right", new)
    # the new file b, without the removal of b/c: the files are a/x, b, b/c and d
    status, said = place.type(["gabrosty-diff-editor", left, right], ["j", "space", "c"])
    is_stopped = status == 1 and "b and b/c cannot both be there" in said and changed.read(right) == new
    place.forget_marks()
    return is_left and is_stopped and repository.is_sound()


def what_cannot_be_written(place):
    """A file in a folder that may not be written is named, and those that were restored before it are as they were. Skipped where
    all may be written."""
    before = without_rights()
    if before is None:
        return None
    new = {"a": b"2\n", "b/c": b"2\n", "d": b"2\n"}
    repository = Repository(place, {"a": b"1\n", "b/c": b"1\n", "d": b"1\n"}, new)
    os.chmod(os.path.join(repository.folder, "b"), 0o555)
    status, said = place.type([*before, "git", "select", "--restore"], ["a", "c"], repository.folder)
    os.chmod(os.path.join(repository.folder, "b"), 0o755)
    place.forget_marks()
    is_named = status == 1 and "b/c cannot be written: Permission denied: nothing was restored\n" in said
    is_left = repository.files() == new and sorted(os.listdir(repository.folder)) == [".git", "a", "b", "d"]
    return is_named and is_left and repository.is_sound()


def a_message_that_is_no_text(place):
    """It is refused before anything is shown."""
    repository = Repository(place, {"a": b"1\n"}, {"a": b"2\n"})
    status, said = place.call("git", "select", "--commit", "-m", "\udcff", folder=repository.folder)
    alone = place.call("git", "select", "-m", "x", folder=repository.folder)
    return status == 2 and "the message is not UTF-8" in said and alone[0] == 2 and "for --commit" in alone[1]


def an_object_that_is_lost(place):
    """An object that git lacks is named, and nothing is written."""
    repository = Repository(place, {"a": b"1\n"}, {"a": b"2\n"})
    name = repository.git("rev-parse", "HEAD:a").strip()
    os.unlink(os.path.join(repository.folder, ".git/objects", name[:2], name[2:]))
    before = repository.index(), repository.files()
    ends = [place.call("git", "select", *words, folder=repository.folder) for words in ([], ["--restore"], ["--split"])]
    is_named = ends == [(1, "git-select: git has no object %s\n" % name)] * 3
    return is_named and (repository.index(), repository.files()) == before


ALL = (
    some_lines, partly_staged, partly_unstaged, lines_of_new_and_gone_files, intent_to_add, in_a_subdirectory,
    in_a_linked_worktree, a_locked_index, in_conflict, a_submodule, settings_for_line_ends, a_hook_that_refuses,
    without_a_commit, a_template, a_message_that_git_asks_for, a_message_that_is_no_text, a_file_as_old_as_the_index,
    marks_that_are_taken_up, a_file_that_changed, all_or_nothing, what_cannot_be_written, an_object_that_is_lost,
)
