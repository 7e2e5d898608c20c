"""What git-select puts into the index."""
import os
import shlex

from made import PROGRAM, commit, git, is_as_added, staged, typed_into, write

NOTE = b"\\ No newline at end of file"
PARTS = """diff --git a/a.txt b/a.txt
--- a/a.txt
+++ b/a.txt
@@ -1,2 +1,3 @@
 one
+two
 three
diff --git a/before.txt b/before.txt
--- a/before.txt
+++ b/before.txt
@@ -1 +1 @@
-old
+staged before
diff --git a/new.txt b/new.txt
new file mode 100644
--- /dev/null
+++ b/new.txt
@@ -0,0 +1 @@
+x
diff --git a/run.sh b/run.sh
old mode 100644
new mode 100755
"""
SETTINGS = {
    "diff.noprefix": "true", "diff.mnemonicPrefix": "true", "diff.context": "5", "diff.interHunkContext": "9",
    "diff.renames": "copies", "diff.relative": "true", "diff.external": "false", "color.ui": "always", "core.pager": "false",
    "diff.orderFile": "nowhere",
}
ALL = ["M", "bytes", "D", "gone.txt", "M", "link", "A", "sub folder/a\tb"]


def parts():
    """One of two added lines, a line of a new file, a mode without its line; what was staged before stays."""
    write("a.txt", b"one\nthree\n")
    write("before.txt", b"old\n")
    write("run.sh", b"echo\n")
    commit()
    write("before.txt", b"staged before\n")
    git("add", "before.txt")
    write("a.txt", b"one\ntwo\nthree\nfour\n")
    write("new.txt", b"x\ny\n")
    write("run.sh", b"echo more\n", 0o755)
    # all unfolded, down to the line `two`; to the line `x`; to the mode of run.sh
    words = ["shift-F", *["j"] * 2, "space", *["j"] * 6, "space", *["j"] * 3, "space", "c"]
    return typed_into(words)[0] == 0 and staged() == PARTS


def one_of_two():
    """One of two changed lines, where a line of that file is staged already; what is gone and bytes are left."""
    write("a.txt", b"one\ntwo\nthree\nfour\nfive\n")
    write("bytes", b"\0old")
    write("gone.txt", b"gone\n")
    commit()
    write("a.txt", b"staged\ntwo\nthree\nfour\nfive\n")
    git("add", "a.txt")
    write("a.txt", b"staged\nTWO\nthree\nfour\nFIVE")
    write("bytes", b"\0new")
    os.remove("gone.txt")
    status, _ = typed_into(["shift-F", "j", "space", "c"])
    is_one = git("show", ":a.txt") == "staged\nTWO\nthree\nfour\nfive\n"
    return status == 0 and is_one and git("diff", "--cached", "--name-only") == "a.txt\n"


def everything():
    """Bytes, a file that is gone, a link that points elsewhere, and a name with a space and a tab, all at once."""
    write("bytes", b"\0old")
    write("gone.txt", b"gone\n")
    os.symlink("bytes", "link")
    commit()
    write("bytes", b"\0new")
    os.remove("gone.txt")
    os.remove("link")
    os.symlink("gone.txt", "link")
    write("sub folder/a\tb", b"without a line end")
    status, _ = typed_into(["a", "c"])
    return status == 0 and staged("-z", "--name-status").split("\0")[:-1] == ALL and is_as_added()


def without_line_end():
    """A last line that loses its line end, alone."""
    write("a.txt", b"one\ntwo\nthree\n")
    commit()
    write("a.txt", b"ONE\ntwo\nthree")
    status, _ = typed_into(["shift-F", *["j"] * 4, "space", "c"])
    return status == 0 and git("show", ":a.txt") == "one\ntwo\nthree"


def a_last_line_like_the_note():
    """A last line without a line end, which ends as git's note on it does: a new one, and one that stays."""
    write("old.txt", b"one\nlast" + NOTE)
    commit()
    write("new.txt", NOTE)
    write("old.txt", b"ONE\nlast" + NOTE)
    status, _ = typed_into(["a", "c"])
    is_whole = git("show", ":old.txt") == "ONE\nlast" + NOTE.decode() and git("show", ":new.txt") == NOTE.decode()
    return status == 0 and is_whole and is_as_added()


def a_line_like_the_note():
    """A line of the text that is git's note, and a last line without a line end."""
    write("a.txt", b"one\n" + NOTE + b"\nlast")
    commit()
    write("a.txt", b"ONE\n" + NOTE + b"\nlast\n")
    # the first line alone, which is replaced
    status, _ = typed_into(["shift-F", "j", "space", "c"])
    return status == 0 and git("show", ":a.txt") == "ONE\n" + NOTE.decode() + "\nlast"


def line_ends_in_the_index(setting):
    """Two changed lines in a file that has CR and LF in the index; one of them is chosen, and then all."""
    write("a.txt", b"one\r\ntwo\r\nthree\r\nfour\r\n")
    commit()
    setting()
    write("a.txt", b"ONE\r\ntwo\r\nthree\r\nFOUR\r\n")
    # the second section with both its lines
    status, _ = typed_into(["shift-F", *["j"] * 4, "space", "c"], ["a.txt"])
    is_one = git("cat-file", "blob", ":a.txt") == "one\r\ntwo\r\nthree\r\nFOUR\r\n"
    return status == 0 and is_one and typed_into(["a", "c"])[0] == 0 and is_as_added()


def line_ends_by_core_autocrlf():
    return line_ends_in_the_index(lambda: git("config", "core.autocrlf", "true"))


def line_ends_by_core_autocrlf_input():
    return line_ends_in_the_index(lambda: git("config", "core.autocrlf", "input"))


def line_ends_by_attributes():
    return line_ends_in_the_index(lambda: write(".gitattributes", b"* text=auto\n"))


def filters():
    """What a filter makes of a file is shown and staged, and a new file's line ends become those of the index."""
    write(".gitattributes", b"*.up filter=up\n*.txt text\n")
    git("config", "filter.up.clean", "tr a-z A-Z")
    write("a.up", b"one\n")
    commit()
    write("a.up", b"one\ntwo\n")
    write("new.txt", b"one\r\ntwo\r\n")
    status, _ = typed_into(["a", "c"])
    return status == 0 and git("show", ":a.up") == "ONE\nTWO\n" and is_as_added()


def a_folder_that_became_a_file():
    """The file alone would remove what was in the folder, so it is named and left; with all of that it is staged."""
    write("a/b", b"1\n")
    write("a/c", b"2\n")
    write("d", b"3\n")
    commit()
    for path in ("a/b", "a/c"):
        os.remove(path)
    os.rmdir("a")
    write("a", b"4\n")
    write("d", b"5\n")
    # `a`, `a/b` and `d`, but not `a/c`
    status, said = typed_into(["space", "j", "space", "j", "j", "space", "c"])
    is_left = status == 1 and "git-select: a is not staged: that would remove a/c, which is not marked\n" in said
    is_left = is_left and staged("--name-status") == "D\ta/b\nM\td\n"
    return is_left and typed_into(["a", "c"])[0] == 0 and is_as_added()


def a_file_that_became_a_folder():
    """One of two files of the folder: only with the removal of what it was."""
    write("a", b"1\n")
    commit()
    os.remove("a")
    write("a/b", b"2\n")
    write("a/c", b"3\n")
    status, said = typed_into(["j", "space", "c"])
    is_left = status == 1 and "git-select: a/b is not staged: that would remove a, which is not marked\n" in said
    is_left = is_left and not staged()
    status, _ = typed_into(["space", "j", "space", "c"])
    return is_left and status == 0 and staged("--name-status") == "D\ta\nA\ta/b\n"


def the_lines_of_a_file_that_is_gone():
    """All lines but not the removal: the file is staged as an empty one, and that is said."""
    write("a.txt", b"one\n")
    commit()
    os.remove("a.txt")
    status, said = typed_into(["shift-F", *["j"] * 3, "space", "c"])
    return status == 0 and "staged: a.txt, as an empty file\n" in said and git("show", ":a.txt") == ""


def a_file_as_old_as_the_index():
    """Written at the time of the index, with as many bytes as before: git has to look into the file."""
    write("a.txt", b"one\n")
    commit()
    git("config", "core.trustctime", "false")
    times = os.stat("a.txt").st_atime_ns, os.stat("a.txt").st_mtime_ns
    write("a.txt", b"two\n")
    for path in ("a.txt", os.path.join(".git", "index")):
        os.utime(path, ns=times)
    return typed_into(["a", "c"])[0] == 0 and git("show", ":a.txt") == "two\n"


def an_index_in_two_parts():
    """The copy of such an index leaves no part of its own beside it before the user accepts."""
    write("a.txt", b"one\n")
    commit()
    git("update-index", "--split-index")
    git("config", "core.splitIndex", "true")
    # with many new files git would write the shared part anew
    for path in ("a.txt", "b.txt", "c.txt", "d.txt"):
        write(path, b"two\n")
    before = sorted(os.listdir(".git"))
    is_left = typed_into(["q"])[0] == 1 and sorted(os.listdir(".git")) == before
    return is_left and typed_into(["a", "c"])[0] == 0 and is_as_added()


def settings_of_git():
    """What the user has set for differences does not change how they are read."""
    write("a.txt", b"1\n2\n3\n4\n5\n")
    commit()
    write(".gitattributes", b"* -diff\n")
    for name, value in SETTINGS.items():
        git("config", name, value)
    write("a.txt", b"one\n2\n3\n4\nfive\n")
    status, _ = typed_into(["shift-F", "j", "space", "c"], ["a.txt"])
    return status == 0 and git("show", ":a.txt") == "one\n2\n3\n4\n5\n"


def an_alias_from_a_folder():
    """Git runs an alias in the top folder, and paths count from the folder that the user is in."""
    write("a.txt", b"one\n")
    write("sub/a.txt", b"two\n")
    git("config", "alias.choose", "!" + shlex.quote(PROGRAM))
    status, _ = typed_into(["a", "c"], ["a.txt"], command=("git", "choose"), folder="sub")
    return status == 0 and git("ls-files") == "sub/a.txt\n"


def variables_of_git():
    """How much context git writes, how it reads paths and what compares files are set for the user's own calls."""
    write("a.txt", b"1\n2\n3\n4\n5\n")
    commit()
    write("a.txt", b"one\n2\n3\n4\nfive\n")
    settings = {"GIT_DIFF_OPTS": "--unified=9", "GIT_LITERAL_PATHSPECS": "1", "GIT_EXTERNAL_DIFF": "false"}
    status, _ = typed_into(["shift-F", "j", "space", "c"], **settings)
    return status == 0 and git("show", ":a.txt") == "one\n2\n3\n4\n5\n"


TRIES = (
    parts, one_of_two, everything, without_line_end, a_last_line_like_the_note, a_line_like_the_note,
    line_ends_by_core_autocrlf, line_ends_by_core_autocrlf_input, line_ends_by_attributes, filters,
    a_folder_that_became_a_file, a_file_that_became_a_folder, the_lines_of_a_file_that_is_gone, a_file_as_old_as_the_index,
    an_index_in_two_parts, an_alias_from_a_folder, variables_of_git, settings_of_git,
)
