"""The file of the selected item, opened in the user's editor with `E`, for tools/dev/try-tools."""
import os

import changed
from histories import NEW, OLD
from places import Repository, Typed

AGAIN = "a file was changed in the editor: the changes are shown anew"
# an editor that notes its words, each with a NUL behind it
NOTES = "f() { printf '%%s\\0' \"$@\" >> '%s'; }; f"
# one that adds a line at the end of the file
ADDS = "f() { echo added >> \"$2\"; }; f"
TO_A_LINE = ["shift-F", "j", "j"]
HOSTILE = [*changed.NAMES, "+x", "$(id)", "`id`", "a;b", "*"]


def words_given(place):
    """Returns the words that the editor was given, two for each file."""
    path = os.path.join(place.top, "given")
    found = changed.read_file(path).split(b"\0")[:-1] if os.path.exists(path) else []
    return list(zip(found[::2], found[1::2]))


def noting(place):
    return NOTES % os.path.join(place.top, "given")


def at_its_line(place):
    """The editor gets the line of the selected item in the new version: of a file the first one, of a removed line the next one that is there."""
    repository = Repository(place, OLD, NEW)
    repository.git("config", "core.editor", noting(place))
    keys = ["E", *TO_A_LINE, "E", "j", "j", "E", "j", "j", "E", "j", "j", "E", "q"]
    status, said = repository.select(keys=keys)
    path = os.fsencode(os.path.join(repository.folder, "a.txt"))
    is_told = words_given(place) == [(b"+%d" % line, path) for line in (1, 1, 5, 7, 8)]
    return is_told and status == 1 and AGAIN not in said and repository.files() == NEW and repository.is_sound()


def by_each_name(place):
    """Whatever a file is called, the editor gets its whole path as one word."""
    files = [dict.fromkeys(HOSTILE, data) for data in (b"1\n", b"2\n")]
    repository = Repository(place, *files)
    repository.git("config", "core.editor", noting(place))
    repository.select(keys=[key for _ in HOSTILE for key in ("E", "pagedown")] + ["q"])
    wanted = {(b"+1", os.fsencode(os.path.join(repository.folder, name))) for name in HOSTILE}
    return set(words_given(place)) == wanted and len(words_given(place)) == len(HOSTILE) and repository.is_sound()


def what_the_user_changes(place):
    """If the user changes a file, it is shown anew, and the marks of the others stay. Nothing is written over it."""
    files = {**OLD, "b": b"1\n"}, {**NEW, "b": b"2\n"}
    ends = []
    for number, (word, left) in enumerate((("", b"2\n"), ("--restore", b"1\n"))):
        repository = Repository(place, *files, "repository-%d" % number)
        repository.git("config", "core.editor", ADDS)
        status, said = repository.select(*filter(None, [word]), keys=["pagedown", "space", "pageup", "space", "E", "c"])
        added = NEW["a.txt"] + b"added\n"
        is_told = AGAIN in said and "a.txt has changed: its marks are not taken up" in said
        is_kept = status == 0 and is_told and repository.files() == {"a.txt": added, "b": left}
        ends.append(is_kept and repository.index_files() == {**OLD, "b": b"1\n" if word else b"2\n"} and repository.is_sound())
    return all(ends)


def what_is_marked_then(place):
    """The lines that the user has added can be marked, and the message of a commit stays as it was edited."""
    repository = Repository(place, OLD, NEW)
    message = os.path.join(place.top, "message")
    changed.write_file(message, b"Edited\n")
    repository.git("config", "core.editor", "f() { case $2 in '') cp '%s' \"$1\" ;; *) echo added >> \"$2\" ;; esac; }; f" % message)
    status, said = repository.select("--commit", keys=["e", "E", "a", "c"])
    is_made = status == 0 and AGAIN in said and repository.git("show", "HEAD:a.txt").encode() == NEW["a.txt"] + b"added\n"
    return is_made and repository.git("log", "-1", "--format=%s") == "Edited\n" and repository.is_sound()


def says(place, repository, words, before=None, **more):
    """Types `E` into git select, and Enter where it says why nothing is opened. Returns that."""
    typed = Typed(["git", "select", *words], 60, 24, {**place.environment, **more}, repository.folder)
    if before:
        before()
    typed.write(b"E")
    typed.wait_for(b"Press Enter: ")
    typed.press("enter")
    typed.press("q")
    typed.end()
    return typed.said()


def what_is_not_opened(place):
    """A link, a deleted file, what took the place of a file meanwhile, and an editor that fails: the user reads why."""
    path, secret = os.path.join(place.top, "repository", "a"), os.path.join(place.top, "secret")
    changed.write_file(secret, b"secret\n")
    repository = Repository(place, {"a": b"1\n"}, {"a": ("link", secret)})
    repository.git("config", "core.editor", noting(place))
    is_refused = "not opened: it is no file of the working tree" in says(place, repository, [])
    os.unlink(path)
    is_refused = is_refused and "not opened: it is no file of the working tree" in says(place, repository, [])
    changed.write_file(path, b"2\n")

    def swap():
        os.unlink(path)
        os.symlink(secret, path)

    is_refused = is_refused and "not opened: there is no such file by now" in says(place, repository, [], swap)
    os.unlink(path)
    changed.write_file(path, b"2\n")
    is_refused = is_refused and not words_given(place)
    repository.git("config", "core.editor", "false")
    is_told = "not opened: the editor failed" in says(place, repository, [])
    return is_refused and is_told and changed.read_file(secret) == b"secret\n" and repository.is_sound()


def last_row(typed):
    return typed.screen().split(b"\n")[23].strip(b'" ')


def where_there_is_nothing_to_open(place):
    """What is in the index, and two files, have no file to open: the last row says so until the next key."""
    repository = Repository(place, OLD, NEW)
    repository.git("add", "--all")
    left, right = (os.path.join(place.top, name) for name in ("left", "right"))
    changed.write_file(left, b"1\n")
    changed.write_file(right, b"2\n")
    ends = []
    for command, folder in ((["scm-select", left, right], place.top), (["scm-select", "-d", place.folder("l", {"a": b"1\n"}), place.folder("r", {"a": b"2\n"})], place.top)):
        typed = Typed(command, 60, 24, {**place.environment, "SELECT_LAYER": "on", "VISUAL": noting(place)}, folder)
        before = last_row(typed)
        typed.press("E")
        said = last_row(typed)
        typed.press("z")
        ends.append(said == b"nothing to open" and last_row(typed) == before)
        typed.press("q")
        typed.end()
    is_refused = "not opened: it is no file of the working tree" in says(place, repository, ["--unstage"])
    return all(ends) and is_refused and not words_given(place)


def in_the_diff_editor(place):
    """The editor gets the file of RIGHT. What the user changes there is shown anew, and the marks of the other files stay."""
    left, right = place.folder("left", {"a": b"1\n", "b": b"1\n"}), place.folder("right", {"a": b"2\n", "b": b"2\n"})
    words = ["gabrosty-diff-editor", left, right]
    status, _ = place.type(words, ["shift-F", "j", "j", "E", "q"], VISUAL=noting(place))
    is_given = status == 1 and words_given(place) == [(b"+1", os.fsencode(os.path.join(right, "a")))]
    status, said = place.type(words, ["pagedown", "space", "pageup", "E", "a", "c"], VISUAL="f() { echo added >> '%s/a'; }; f" % right)
    is_chosen = status == 0 and AGAIN in said and changed.read(right) == {"a": b"2\nadded\n", "b": b"1\n"}
    status, said = place.type([*words[:1], "--read-only", left, right], ["E", "q"], VISUAL=ADDS)
    is_shown = status == 0 and AGAIN in said and changed.read(right)["a"] == b"2\nadded\nadded\n"
    file = os.path.join(right, "a")
    status, said = place.type([*words[:1], os.path.join(left, "a"), file], ["E", "a", "c"], VISUAL=ADDS)
    is_file = status == 0 and AGAIN in said and changed.read_file(file) == b"2\nadded\nadded\nadded\n"
    return is_given and is_chosen and is_shown and is_file and place.has_left_nothing()


ALL = (
    at_its_line, by_each_name, what_the_user_changes, what_is_marked_then, what_is_not_opened, where_there_is_nothing_to_open, in_the_diff_editor,
)
