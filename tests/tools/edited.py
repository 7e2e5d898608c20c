"""What the user's editor makes of a choice, what is shown alone, and a choice that follows another one, for tools/dev/try-tools."""
import os

import changed
from histories import CHOSEN, NEW, OLD, SOME
from places import Repository

# the editor is told by git: it notes the file that it is given
NOTES = "echo \"$1\" >> '%s'; "
BYTES = b"a\r\nb\xff\0c"


def with_editor(place, editor, old=OLD, new=NEW):
    """Returns a repository whose editor is this command of a shell. The names of the files that it is given are in the file `given`."""
    repository = Repository(place, old, new)
    given = os.path.join(place.top, "given")
    repository.git("config", "core.editor", "f() { " + NOTES % given + editor + "; }; f")
    return repository


def names_given(place):
    return [os.path.basename(it) for it in changed.read_file(os.path.join(place.top, "given")).decode().split("\n")[:-1]]


def what_the_editor_makes(place):
    """A part of a file is opened in the editor, and what that makes of it is staged, byte for byte. A file that is chosen whole, and one
    of which nothing is chosen, is not opened."""
    files = {**OLD, "b": b"1\n"}, {**NEW, "b": b"2\n"}
    made = os.path.join(place.top, "made")
    changed.write_file(made, BYTES)
    repository = with_editor(place, "cp '%s' \"$1\"" % made, *files)
    status, said = repository.select("--edit", keys=[*SOME, "c"])
    is_made = status == 0 and "staged: a.txt" in said and changed.read_file(os.path.join(repository.folder, "a.txt")) == NEW["a.txt"]
    is_made = is_made and repository.index_files() == {"a.txt": BYTES, "b": b"1\n"} and names_given(place) == ["0-a.txt"]
    repository.git("reset", "--quiet")
    is_whole = repository.select("--edit", keys=["a", "c"])[0] == 0 and repository.index_files() == files[1]
    return is_made and is_whole and len(names_given(place)) == 1 and place.has_left_nothing() and repository.is_sound()


def in_a_commit_too(place):
    """What the editor makes goes into a commit, and the working tree stays. What the editor leaves as it was is not committed."""
    repository = with_editor(place, "sed 's/and/AND/' \"$1\" > \"$1.new\"; mv \"$1.new\" \"$1\"")
    status, _ = repository.select("--commit", "--edit", "-m", "x", keys=[*SOME, "c"])
    is_made = status == 0 and repository.git("show", "HEAD:a.txt").encode() == CHOSEN.replace(b"and", b"AND")
    is_made = is_made and repository.files() == NEW and repository.git("diff", "--cached") == ""
    before = repository.git("rev-parse", "HEAD")
    repository.git("config", "core.editor", "git show HEAD:a.txt >")
    status, said = repository.select("--commit", "--edit", "-m", "x", keys=["shift-F", "j", "j", "space", "c"])
    is_told = status == 1 and "the editor left nothing of what was marked: nothing was committed" in said
    place.forget_marks()
    return is_made and is_told and repository.git("rev-parse", "HEAD") == before and repository.is_sound()


def an_editor_that_fails(place):
    """An editor that fails, and a file that it empties, cancel the choice. Without an editor nothing is shown."""
    ends = []
    for editor, words in (
        ("false", "the editor of a.txt ended with status 1: nothing was staged"),
        (": > \"$1\"", "a.txt was emptied in the editor: nothing was staged"),
        ("rm \"$1\"", "No such file or directory: nothing was staged"),
    ):
        repository = with_editor(place, editor)
        status, said = repository.select("--edit", keys=[*SOME, "c"])
        is_same = repository.index() == repository.index_of() and repository.files() == NEW
        ends.append(status == 1 and words in said and "your marks are kept" in said and is_same)
        place.forget_marks()
        ends.append(place.has_left_nothing())
    status, said = place.call("git", "select", "--restore", "--edit", folder=repository.folder)
    ends.append(status == 2 and "the editor is for a choice that goes into the index" in said)
    repository.git("config", "--unset", "core.editor")
    without = "env", "-u", "EDITOR", "-u", "VISUAL", "-u", "GIT_EDITOR", "TERM=dumb", "git", "select", "--edit"
    ends.append(place.call(*without, folder=repository.folder) == (1, "git-select: git finds no editor: see git var GIT_EDITOR\n"))
    return all(ends)


def what_is_shown_alone(place):
    """--only takes paths and pathspecs, as they are taken without an option."""
    old, new = ({name: data for name in ("a.c", "b.c", "d/e.c", "f")} for data in (b"1\n", b"2\n"))
    ends = []
    for words, wanted in (
        (["--only", "f"], {"f"}), (["--only=*.c", "--only=:!d"], {"a.c", "b.c"}), (["--only", ":(glob)*.c", "f"], {"a.c", "b.c", "f"}),
    ):
        repository = Repository(place, old, new)
        status, _ = repository.select(*words, keys=["a", "c"])
        ends.append(status == 0 and set(repository.git("diff", "--cached", "--name-only").split()) == wanted)
    lost = place.call("git", "select", "--only", "nothing", folder=repository.folder)
    return all(ends) and lost[0] == 1 and "pathspec 'nothing' did not match" in lost[1] and repository.is_sound()


def a_choice_that_follows(place):
    """Some lines are staged and others taken back, one screen after another. The second one has what is left, and opens only if the first
    choice is done."""
    old, new = ({name: data for name in ("a", "b", "d")} for data in (b"1\n", b"2\n"))
    repository = Repository(place, old, new)
    status, said = repository.select("--then=restore", keys=["space", "c", "space", "c"])
    is_done = status == 0 and "staged: a\n" in said and "restored: b\n" in said
    is_done = is_done and repository.index_files() == {**old, "a": b"2\n"} and repository.files() == {**new, "b": b"1\n"}
    given_up = repository.select("--then", "restore", keys=["q"])
    is_left = given_up[0] == 1 and repository.files() == {**new, "b": b"1\n"}
    status, _ = repository.select("--commit", "-m", "first", "--then=stage", keys=["a", "c"])
    is_empty = status == 0 and repository.git("log", "-1", "--format=%s") == "first\n"
    return is_done and is_left and is_empty and place.has_left_nothing() and repository.is_sound()


ALL = what_the_editor_makes, in_a_commit_too, an_editor_that_fails, what_is_shown_alone, a_choice_that_follows
