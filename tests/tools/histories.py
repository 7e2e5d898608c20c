"""git-select in commits and stashes, for tools/dev/try-tools: --amend, --fixup, --stash and --split."""
import hashlib
import itertools
import os

import changed
from places import Repository, Typed

OLD, NEW = changed.CASES["text edits"]
# the first added line, and of the last change the lines 7 and `and`
SOME = ["shift-F", "j", "j", "space", *["j"] * 4, "space", "j", "j", "space"]
CHOSEN = b"0\n" + changed.NUMBERS.replace(b"7\n", b"and\n")
REST = changed.NUMBERS.replace(b"4\n", b"").replace(b"7\n", b"7\nseven\n")


def log(repository, form, *words):
    return repository.git("log", "--format=" + form, *words)


def to_the_last_commit(place):
    """Chosen lines, with what is staged, go into the last commit. It keeps its parent, its author and, if that is not edited, its
    message."""
    repository = Repository(place, {**OLD, "b": b"1\n"}, {**OLD, "b": b"1\n"})
    repository.git("commit", "--quiet", "--allow-empty", "--author=other <o>", "--message=Second\n\n# with a line")
    changed.write(repository.folder, {**NEW, "b": b"2\n"})
    repository.git("add", "b")
    first = log(repository, "%H", "-1", "HEAD^")
    status, _ = repository.select("--amend", keys=[*SOME, "c"])
    is_added = status == 0 and repository.git("show", "HEAD:a.txt", "HEAD:b").encode() == CHOSEN + b"2\n"
    is_same = log(repository, "%an %s %b") == "other Second # with a line\n\nn base \n"
    is_same = is_same and log(repository, "%H", "-1", "HEAD^") == first
    is_left = repository.files() == {**NEW, "b": b"2\n"} and repository.git("diff", "--cached") == ""
    repository.git("config", "core.editor", "printf 'Edited\\n' >")
    is_edited = repository.select("--amend", keys=["a", "e", "c"])[0] == 0
    is_edited = is_edited and log(repository, "%an %s %b") == "other Edited \nn base \n"
    is_edited = is_edited and repository.git("status", "--porcelain") == ""
    nothing = place.call("git", "select", "--amend", folder=repository.folder)
    is_told = nothing == (0, "git-select: there is nothing to add: git commit --amend changes the message\n")
    return is_added and is_same and is_left and is_edited and is_told and repository.is_sound()


def as_a_fixup(place):
    """Chosen lines become a fixup of a commit, with which git then joins them."""
    repository = Repository(place, OLD, OLD)
    for subject in "fixed", "between":
        repository.git("commit", "--quiet", "--allow-empty", "--message", subject)
    changed.write(repository.folder, NEW)
    lost = place.call("git", "select", "--fixup", "nowhere", folder=repository.folder)
    status, _ = repository.select("--fixup", "HEAD^", keys=[*SOME, "c"])
    is_made = status == 0 and log(repository, "%s") == "fixup! fixed\nbetween\nfixed\nbase\n"
    is_made = is_made and repository.git("show", "HEAD:a.txt").encode() == CHOSEN and repository.files() == NEW
    repository.git("commit", "--quiet", "--all", "--message=rest")
    repository.git("rebase", "--quiet", "--interactive", "--autosquash", "HEAD~4", GIT_SEQUENCE_EDITOR="true")
    is_joined = log(repository, "%s") == "rest\nbetween\nfixed\nbase\n"
    is_joined = is_joined and repository.git("show", "HEAD~2:a.txt").encode() == CHOSEN
    return lost == (1, "git-select: nowhere names no commit\n") and is_made and is_joined and repository.is_sound()


def in_a_stash(place):
    """Chosen lines are taken back, and `git stash pop` has them again. What is staged, and what is new, stays."""
    repository = Repository(place, {**OLD, "b": b"1\n", "gone": b"1\n"}, {**NEW, "b": b"2\n", "new": b"1\n"})
    repository.git("add", "b")
    index = repository.index()
    status, _ = repository.select("--stash", "-m", "Later", "a.txt", keys=[*SOME, "c"])
    is_stashed = status == 0 and repository.files() == {"a.txt": REST, "b": b"2\n", "new": b"1\n"}
    is_stashed = is_stashed and repository.index() == index
    is_stashed = is_stashed and repository.git("stash", "list").endswith(": Later\n")
    is_stashed = is_stashed and repository.git("show", "stash@{0}:a.txt", "stash@{0}:b").encode() == CHOSEN + b"1\n"
    repository.git("checkout", "--quiet", "a.txt")
    repository.git("stash", "pop", "--quiet")
    is_back = repository.files() == {"a.txt": CHOSEN, "b": b"2\n", "new": b"1\n"} and repository.index() == index
    is_all = repository.select("--stash", keys=["a", "c"])[0] == 0 and repository.files()["gone"] == b"1\n"
    repository.git("stash", "pop", "--quiet")
    is_all = is_all and "gone" not in repository.files() and repository.git("stash", "list") == ""
    return is_stashed and is_back and is_all and repository.is_sound()


def a_stash_that_cannot_be_taken(place):
    """A file that git does not know is where a folder was: no stash is made, and all is as it was."""
    repository = Repository(place, {"a": b"1\n", "b/c": b"1\n"}, {"a": b"2\n", "b": b"2\n"})
    status, said = repository.select("--stash", keys=["a", "c"])
    place.forget_marks()
    is_named = status == 1 and "b/c is not stashed: that would remove b, which is not marked\n" in said and said.count("nothing was stashed") == 1
    is_left = repository.git("stash", "list") == "" and repository.files() == {"a": b"2\n", "b": b"2\n"}
    return is_named and is_left and repository.is_sound()


def thirty(**lines):
    """Returns a text of the numbers from 1 to 30, of which those that are named are followed by a word."""
    return b"".join(b"%d%s\n" % (number, lines.get("line%d" % number, b"")) for number in range(1, 31))


def a_stash_beside_staged_lines(place):
    """A line is staged, and another one of the same file is stashed: `git stash pop` brings that one alone, also once the staged one
    is committed, or gone. So it is in a file that is new in the index, and in one that git has renamed there."""
    both, staged, marked = thirty(line5=b" staged", line25=b" marked"), thirty(line5=b" staged"), thirty(line25=b" marked")
    ends = []
    steps = {
        (): both, ("commit", "--quiet", "--message=staged"): both, ("reset", "--quiet", "--hard"): marked,
        ("commit", "--quiet", "--allow-empty", "--only", "--message=other"): both,
    }
    for step, words in ((step, words) for step in steps for words in (["pop"], ["pop", "--index"])):
        repository = Repository(place, {"a": thirty(), "b": b"1\n"}, {"a": staged, "b": b"2\n"})
        repository.git("add", "--all")
        changed.write(repository.folder, {"a": both, "b": b"2\n"})
        said = repository.select("--stash", keys=["a", "c"])
        is_stashed = said[0] == 0 and "git stash pop has it back\n" in said[1] and repository.files()["a"] == staged
        lines = [line for line in repository.git("stash", "show", "-p").splitlines() if line[:1] in "+-"]
        is_stashed = is_stashed and lines[2:] == ["-25", "+25 marked"] and "-5" not in lines
        if step:
            repository.git(*step)
        index = repository.index()
        repository.git("stash", *words)
        is_back = repository.files()["a"] == steps[step] and repository.index() == index
        ends.append(is_stashed and is_back and repository.is_sound())
    return all(ends) and staged_paths_in_a_stash(place)


def staged_paths_in_a_stash(place):
    """Whether lines of a file that is new in the index, and of one that is renamed there, are stashed and had back."""
    repository = Repository(place, {"old": thirty()}, {"new": thirty(), "more": thirty()})
    repository.git("add", "--all")
    index, wanted = repository.index(), {"new": thirty(line25=b" marked"), "more": thirty(line5=b" marked")}
    changed.write(repository.folder, wanted)
    status, said = repository.select("--stash", keys=["a", "c"])
    is_stashed = status == 0 and repository.files() == {"new": thirty(), "more": thirty()} and "git stash pop has it back\n" in said
    repository.git("stash", "apply", "--quiet")
    is_back = repository.files() == wanted and repository.index() == index
    repository.git("reset", "--quiet", "--hard")
    repository.git("stash", "branch", "later")
    is_back = is_back and repository.files() == wanted and repository.index() == index
    is_begun = log(repository, "%s", "HEAD^").endswith("base\n") and log(repository, "%s", "-1").startswith("index on ")
    return is_stashed and is_back and is_begun and not repository.git("stash", "list") and repository.is_sound()


def the_way_back_that_is_said(place):
    """What is said of how a stash is had back is so: by the command that is named, where another part of the file stays changed, or
    by what the file was, where its other lines are in the way."""
    new = thirty(line5=b" first", line25=b" second")
    ends = []
    for below in "", "c":
        repository = Repository(place, {"a": thirty(), "c/d": b"1\n"}, {"a": new, "c/d": b"1\n"})
        folder = os.path.join(repository.folder, below)
        # the first section
        status, said = repository.select("--stash", keys=["shift-F", "j", "space", "c"], folder=folder)
        is_stashed = status == 0 and repository.files()["a"] == thirty(line25=b" second") and "pop has it" not in said
        command, = (line for line in said.splitlines() if line.endswith(" has it back"))
        done = place.call("sh", "-c", command.removesuffix(" has it back"), folder=folder)
        ends.append(is_stashed and done == (0, "") and repository.files()["a"] == new and repository.is_sound())
    # of two lines that are one section the first one, with its old line
    new = thirty(line5=b" first", line6=b" second")
    repository = Repository(place, {"a": thirty()}, {"a": new})
    status, said = repository.select("--stash", keys=["shift-F", "j", "j", "space", "j", "space", "c"])
    is_kept = status == 0 and repository.files()["a"] == thirty(line6=b" second") and "has it back" not in said
    name, = (line.split()[1] for line in said.splitlines() if line.startswith("kept: "))
    is_kept = is_kept and "to have a file as it was before: git cat-file blob %s > FILE" % name in said
    return all(ends) and is_kept and repository.git("cat-file", "blob", name).encode() == new and repository.is_sound()


def name_of(commit):
    """Returns the name that git gives to a commit with these bytes."""
    return hashlib.sha1(b"commit %d\0" % len(commit) + commit).hexdigest()


def a_stash_whose_name_begins_with_digits(place):
    """git takes a word of digits for a place in the list of stashes: so the command that is named has more of the name."""
    new = thirty(line5=b" first", line25=b" second")
    repository = Repository(place, {"a": thirty()}, {"a": new})

    def stash(second):
        date = "%d +0000" % second
        keys = ["shift-F", "j", "space", "c"]
        return repository.select("--stash", keys=keys, GIT_AUTHOR_DATE=date, GIT_COMMITTER_DATE=date)

    begin = 1_700_000_000
    stash(begin)
    stashed, index = (repository.git("cat-file", "commit", name).encode() for name in ("refs/stash", "refs/stash^2"))

    def name_at(second):
        dates = b"%d" % begin, b"%d" % second
        other = name_of(index.replace(*dates)).encode()
        return name_of(stashed.replace(*dates).replace(name_of(index).encode(), other))

    second = next(it for it in itertools.count(begin) if name_at(it)[:10].isdigit())
    changed.write(repository.folder, {"a": new})
    status, said = stash(second)
    is_stashed = status == 0 and repository.git("rev-parse", "refs/stash") == name_at(second) + "\n"
    command, = (line.removesuffix(" has it back") for line in said.splitlines() if line.endswith(" has it back"))
    is_back = place.call("sh", "-c", command, folder=repository.folder) == (0, "") and repository.files()["a"] == new
    return is_stashed and name_at(second)[:10] + " " not in command and is_back and repository.is_sound()


def in_two_commits(place):
    """The last commit becomes two: what is chosen comes first, and the second has the files of the last one. Index and working tree
    stay, and so does the author."""
    repository = Repository(place, OLD, NEW)
    repository.git("commit", "--quiet", "--all", "--author=other <o>", "--date=2001-02-03T04:05:06+0700", "--message=Both\n\nof it")
    changed.write(repository.folder, {"a.txt": b"more\n", "new": b"1\n"})
    repository.git("add", "new")
    last, index = repository.git("rev-parse", "HEAD", "HEAD^", "HEAD^{tree}").split(), repository.index()
    repository.git("config", "core.editor", "printf 'First\\n' >")
    ends = [repository.select("--split", keys=keys) for keys in (["c"], ["a", "c"], [*SOME, "e", "c"])]
    place.forget_marks()
    is_refused = [end[0] for end in ends] == [0, 1, 0] and "nothing is left for the second commit: nothing was split" in ends[1][1]
    is_first = repository.git("show", "HEAD^:a.txt").encode() == CHOSEN
    is_last = repository.git("rev-parse", "HEAD^^", "HEAD^{tree}").split() == last[1:]
    is_told = log(repository, "%an %ad %s %b", "--date=iso-strict", "-2") == (
        "other 2001-02-03T04:05:06+07:00 Both of it\n\nother 2001-02-03T04:05:06+07:00 First \n")
    is_left = repository.index() == index and repository.files() == {"a.txt": b"more\n", "new": b"1\n"}
    is_named = "git reset --soft %s takes that back\n" % last[0][:10] in ends[2][1]
    return is_refused and is_first and is_last and is_told and is_left and is_named and repository.is_sound()


def the_first_commit_in_two(place):
    """A commit without a parent becomes two. A merge is refused, and so is a split where no commit is."""
    repository = Repository(place, {"a": b"1\n", "b": b"1\n"}, {"a": b"1\n", "b": b"1\n"})
    status, _ = repository.select("--split", keys=["space", "c"])
    is_split = status == 0 and repository.git("ls-tree", "-r", "--name-only", "HEAD^").split() == ["a"]
    # a path that only the parent has
    repository.git("rm", "--quiet", "a")
    repository.git("commit", "--quiet", "--amend", "--message=without a")
    status, _ = repository.select("--split", "a", keys=["space", "c"])
    is_split = is_split and status == 0 and repository.git("ls-tree", "-r", "--name-only", "HEAD^").split() == []
    is_split = is_split and repository.git("ls-tree", "-r", "--name-only", "HEAD").split() == ["b"]
    repository.git("reset", "--quiet", "--hard", "HEAD~2")
    changed.write(repository.folder, {"a": b"1\n", "b": b"1\n"})
    repository.commit()
    is_split = is_split and repository.git("rev-list", "--count", "HEAD") == "2\n" and not repository.git("status", "--porcelain")
    repository.git("checkout", "--quiet", "-b", "other", "HEAD^")
    repository.git("commit", "--quiet", "--allow-empty", "--message=other")
    repository.git("merge", "--quiet", "--no-edit", "-")
    merge = place.call("git", "select", "--split", folder=repository.folder)
    empty = Repository(place, {}, {}, "empty")
    empty.git("update-ref", "-d", "HEAD")
    none = [place.call("git", "select", word, folder=empty.folder) for word in ("--split", "--amend", "--stash")]
    is_refused = merge == (1, "git-select: the last commit is a merge, which cannot be split\n")
    return is_split and is_refused and none == [(1, "git-select: there is no commit yet\n")] * 3 and repository.is_sound()


def a_renamed_file(place):
    """It is one file: its path alone, a line alone, its path with a line, and all of it, staged and taken out of the index."""
    text = b"".join(b"line %d\n" % number for number in range(20))
    new = {"b": text.replace(b"line 3\n", b"three\n").replace(b"line 17\n", b"seventeen\n")}
    repository = Repository(place, {"a": text}, new)
    # the file, and under it its path, two sections
    is_path = repository.select(keys=["shift-F", "j", "space", "c"])[0] == 0 and repository.index_files() == {"b": text}
    repository.git("reset", "--quiet")
    line, both = (["shift-F", "j", *mark, "j", "space", "c"] for mark in ([], ["space"]))
    three, seventeen = text.replace(b"line 3\n", b"three\n"), text.replace(b"line 17\n", b"seventeen\n")
    # a line alone goes into the file with the old path
    is_line = repository.select(keys=line)[0] == 0 and repository.index_files() == {"a": three}
    repository.git("reset", "--quiet")
    is_some = is_line and repository.select(keys=both)[0] == 0 and repository.index_files() == {"b": three}
    repository.git("reset", "--quiet")
    is_all = repository.select(keys=["space", "c"])[0] == 0 and repository.index_files() == new
    is_line = repository.select("--unstage", keys=line)[0] == 0 and repository.index_files() == {"b": seventeen}
    repository.git("add", "--all")
    # a line leaves the index with the path, and the others stay in the old one
    is_out = is_line and repository.select("--unstage", keys=both)[0] == 0 and repository.index_files() == {"a": seventeen}
    repository.git("add", "--all")
    repository.git("config", "diff.renames", "false")
    # two files, of which the first one is gone
    is_two = repository.select("--unstage", keys=["space", "c"])[0] == 0 and repository.index_files() == {"a": text, **new}
    return is_path and is_some and is_all and is_out and is_two and repository.files() == new and repository.is_sound()


def with_a_layer(repository, *words):
    """Returns git select at a terminal, with the layer."""
    place = repository.place
    return Typed(["git", "select", *words], 80, 24, {**place.environment, "SELECT_LAYER": "on"}, repository.folder)


def what_a_renamed_file_is_called(place):
    """The row of its path names the old one, and its new mode if that is another. What only gets another mode says so. Without the layer the
    rows have their own texts."""
    text, other = (b"".join(b"%s %d\n" % (word, number) for number in range(20)) for word in (b"line", b"row"))
    old = {"from": text, "tool": other, "script": b"1\n"}
    new = {"into": text.replace(b"line 3\n", b"three\n"), "tools": other, "script": b"1\n"}
    repository = Repository(place, old, new)
    for name in "tools", "script":
        os.chmod(os.path.join(repository.folder, name), 0o755)
    typed = with_a_layer(repository)
    shown = typed.screen()
    labels = [b"  [ ] renamed from from  ", b"  [ ] renamed from tool, mode 100755  ", b"  [ ] File mode set to 100755  "]
    is_labelled = [shown.count(label) for label in labels] == [1, 1, 1] and b"set to 100644" not in shown
    typed.press("q")
    is_left = typed.end() == 1
    plain = Typed(["git", "select"], 80, 24, place.environment, repository.folder)
    plain.press("shift-F")
    is_plain = plain.screen().count(b"  [ ] File mode set to 100755  ") == 2 and b"renamed from from  " not in plain.screen()
    plain.press("q")
    return is_labelled and is_left and is_plain and plain.end() == 1 and repository.is_sound()


def a_question_about_nothing(place):
    """`q` asks about no message that nobody changed. It asks once something is marked, and not when that is taken back; and it asks about a
    message that was edited."""
    repository = Repository(place, OLD, OLD)
    repository.git("commit", "--quiet", "--allow-empty", "--message=second")
    changed.write(repository.folder, NEW)
    repository.git("config", "core.editor", "printf 'Edited\\n' >")
    before = log(repository, "%H %B"), repository.index()
    cases = (["q"], False), (["space", "q"], True), (["space", "u", "q"], False), (["space", "space", "q"], False), (["e", "q"], True)
    for words, asks in cases:
        typed = with_a_layer(repository, "--amend")
        for word in words:
            typed.press(word)
        is_asked = b"Are you sure you want to quit?" in typed.screen() and not typed.has_ended
        typed.press("ctrl-c")
        if is_asked != asks or typed.end() != 1 or (log(repository, "%H %B"), repository.index()) != before:
            print(words, is_asked, typed.screen().decode())
            return False
    # without the layer all is as the crate has it
    typed = Typed(["git", "select", "--amend"], 80, 24, place.environment, repository.folder)
    typed.press("q")
    is_asked = b"Are you sure you want to quit?" in typed.screen()
    typed.press("ctrl-c")
    return is_asked and typed.end() == 1 and repository.is_sound()


ALL = (
    to_the_last_commit, as_a_fixup, in_a_stash, a_stash_that_cannot_be_taken, a_stash_beside_staged_lines,
    the_way_back_that_is_said, a_stash_whose_name_begins_with_digits, in_two_commits, the_first_commit_in_two, a_renamed_file, what_a_renamed_file_is_called,
    a_question_about_nothing,
)
