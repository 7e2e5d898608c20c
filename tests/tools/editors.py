"""gabrosty-diff-editor as jj, git difftool and hg extdiff call it, and with each of its options, for tools/dev/try-tools."""
import os
import re
import shutil
import signal
import stat
import subprocess
import sys
import time

import changed
from choosing.records import records_in
from faults import ACCEPTS, END_AT, MEND_PLACES
from places import Repository, Typed

NAME = "gabrosty-diff-editor"
OLD, NEW = b"1\n2\n3\n", b"one\n2\nthree\n"
# the first section of a file alone is marked
FIRST = ["shift-F", "j", "space", "c"]
# as jj writes it
WORDS = """You are splitting a commit into two: qpvuntsm 230dd059 caf\u00e9

The diff initially shows the changes in the commit you're splitting.
"""
PANES = "Please make your edits in this pane.\n\nYou are using the experimental 3-pane diff editor config.\n\n"
CONFLICT = b"1\n<<<<<<< Conflict 1 of 1\n%%%%%%% Changes from base to side #1\n-a\n+b\n>>>>>>> Conflict 1 of 1 ends\n2\n"


def file_in(folder, name, data, mode=0o644):
    path = os.path.join(folder, name)
    changed.write_file(path, data)
    os.chmod(path, mode)
    return path


def read_data(path):
    with open(path, "rb") as file:
        return file.read()


def two_files(place):
    """The chosen sections of RIGHT stay in it, with its permissions, also if it is named by a link. LEFT and what lies beside
    RIGHT stay too."""
    ends = []
    for keys, data in ((FIRST, b"one\n2\n3\n"), (["c"], OLD), (["a", "c"], NEW)):
        for mode, is_link in ((0o640, False), (0o750, True)):
            left = file_in(place.folder("left"), "a", OLD)
            folder = place.folder("right", {"b": b"1\n"})
            right = target = file_in(folder, "a", NEW, mode)
            if is_link:
                right = os.path.join(place.folder("links"), "link")
                os.symlink(target, right)
            status, _ = place.type([NAME, left, right], keys)
            found = read_data(target), stat.S_IMODE(os.stat(target).st_mode), read_data(left), sorted(os.listdir(folder))
            ends.append((status, *found) == (0, data, mode, OLD, ["a", "b"]) and os.path.islink(right) == is_link)
            shutil.rmtree(place.folder("links"))
    return all(ends) and place.has_left_nothing()


def a_file_that_comes_or_goes(place):
    """Of a new file LEFT is /dev/null: unmarked, RIGHT is removed. Of one that is gone RIGHT is: another name is needed."""
    folder = place.folder("right")
    right = file_in(folder, "a", NEW)
    is_kept = place.type([NAME, os.devnull, right], ["a", "c"])[0] == 0 and read_data(right) == NEW
    is_gone = place.type([NAME, os.devnull, right], ["c"])[0] == 0 and not os.listdir(folder)
    left, output = file_in(place.folder("left"), "a", OLD), os.path.join(folder, "b")
    status, said = place.call(NAME, left, os.devnull)
    is_refused = status == 1 and said.startswith(NAME + ": /dev/null is no file to write to: ")
    is_back = place.type([NAME, "--output", output, left, os.devnull], ["c"])[0] == 0 and read_data(output) == OLD
    is_shown = place.type([NAME, "--read-only", left, os.devnull], ["q"])[0] == 0
    return is_kept and is_gone and is_refused and is_back and is_shown and read_data(left) == OLD


def what_are_not_two_of_a_kind(place):
    """A file and a folder, what is neither, and files with -d: each is named."""
    folder, pipe = place.folder("folder", {"a": OLD}), os.path.join(place.top, "pipe")
    file = file_in(place.top, "file", OLD)
    os.mkfifo(pipe)
    said = [place.call(NAME, *words) for words in ((folder, file), (file, pipe), ("-d", file, file), (file, "/nowhere"))]
    lines = ["%s is no folder" % file, "%s is no file" % pipe, "%s is no folder" % file, "/nowhere is no file"]
    return said == [(1, "%s: %s\n" % (NAME, line)) for line in lines]


def a_file_that_changed_meanwhile(place):
    """RIGHT changes while the user chooses: it is named, and nothing is written."""
    left, right = file_in(place.folder("left"), "a", OLD), file_in(place.folder("right"), "a", NEW)
    status, said = place.type([NAME, left, right], ["c"], before_last=lambda: changed.write_file(right, b"other\n"))
    return status == 1 and "a changed meanwhile: nothing was written" in said and read_data(right) == b"other\n"


def git_difftool_on_one_file(place):
    """git difftool hands in the file of the working tree: what is not chosen is taken back there, and git keeps what was there.
    Between two commits both files are copies, and nothing is kept."""
    repository = Repository(place, {"a": OLD, "in/b": ("run", OLD)}, {"a": OLD, "in/b": ("run", NEW)})
    repository.git("config", "difftool.select.cmd", NAME + ' "$LOCAL" "$REMOTE"')
    command = ["git", "difftool", "--no-prompt", "--tool=select"]
    status, said = place.type(command, FIRST, repository.folder)
    kept = [line.split()[1:] for line in said.splitlines() if line.startswith("kept: ")]
    is_kept = [(repository.git("cat-file", "blob", name).encode(), path) for name, path in kept] == [(NEW, "b")]
    is_done = status == 0 and repository.files() == {"a": OLD, "in/b": ("run", b"one\n2\n3\n")}
    repository.commit()
    status, said = place.type([*command, "HEAD^", "HEAD"], ["c"], repository.folder)
    return is_kept and is_done and status == 0 and "kept: " not in said and repository.is_sound()


def hg_extdiff(place):
    """hg hands in two files where one alone has changed, and else two folders. Skipped where there is no hg."""
    if not shutil.which("hg"):
        return "there is no hg"
    folder = place.folder("hg", {"a": OLD, "b": OLD})
    settings = {"HGRCPATH": file_in(place.top, "hgrc", b"[ui]\nusername = n\n[extensions]\nextdiff =\n[extdiff]\ncmd.select = %s\n" % NAME.encode())}

    def hg(*words):
        return subprocess.run(["hg", *words], cwd=folder, env={**os.environ, **place.environment, **settings}, check=True)

    for words in (["init"], ["add", "--quiet"], ["commit", "--message", "base"]):
        hg(*words)
    ends = []
    for new, keys, wanted in (
        ({"a": NEW, "b": OLD}, FIRST, {"a": b"one\n2\n3\n", "b": OLD}),
        ({"a": NEW, "b": NEW}, ["space", "c"], {"a": NEW, "b": OLD}),
    ):
        for path, data in new.items():
            changed.write_file(os.path.join(folder, path), data)
        status, _ = place.type(["hg", "select"], keys, folder, **settings)
        found = {path: read_data(os.path.join(folder, path)) for path in wanted}
        ends.append((status in (0, 1), found) == (True, wanted))
    return all(ends)


def a_third_folder(place):
    """OUTPUT has what is chosen, whatever was in it, and LEFT and RIGHT stay. What jj writes there stays."""
    old = {"a": OLD, "b": b"1\n", "d/e": b"1\n", "same": b"1\n"}
    new = {"a": NEW, "c": b"1\n", "d": b"2\n", "same": b"1\n", "JJ-INSTRUCTIONS": b"x\n"}
    jj = {"JJ-INSTRUCTIONS": b"y\n"}
    ends = []
    # what is chosen: nothing; everything; and of the file a the first section
    wholly = {name: data for name, data in new.items() if name not in jj}
    partly = {**old, "a": b"one\n2\n3\n"}
    for keys, wanted in ((["c"], old), (["a", "c"], wholly), (FIRST, partly)):
        for before in ({**new, **jj}, {**jj, "z/z": ("run", b"9\n"), "b": ("link", "/nowhere")}):
            left, right, output = place.folder("left", old), place.folder("right", new), place.folder("output", before)
            status, _ = place.type([NAME, left, right, "-o", output], keys)
            ends.append((status, *map(changed.read, (left, right, output))) == (0, old, new, {**wanted, **jj}))
    left, right, output = place.folder("left", old), place.folder("right", old), place.folder("output", {"z": b"9\n"})
    ends.append(place.call(NAME, "--output", output, left, right) == (0, "") and changed.read(output) == old)
    return all(ends) and place.has_left_nothing()


def a_third_file(place):
    """OUTPUT has what is chosen, and RIGHT stays."""
    left, right = file_in(place.folder("left"), "a", OLD), file_in(place.folder("right"), "a", NEW)
    ends = []
    for keys, wanted in ((["c"], OLD), (["a", "c"], NEW), (FIRST, b"one\n2\n3\n")):
        for before in (None, b"9\n"):
            output = os.path.join(place.folder("output"), "b")
            if before:
                changed.write_file(output, before)
            status, _ = place.type([NAME, "--output=" + output, left, right], keys)
            ends.append((status, *map(read_data, (left, right, output))) == (0, OLD, NEW, wanted))
            os.unlink(output)
    return all(ends)


def nothing_is_written(place):
    """With --read-only nothing can be marked, and each end has status 0. With --dry-run it is said what would be written."""
    old, new = {"a": OLD, "b": b"1\n"}, {"a": NEW, "c": ("link", "a"), "d": ("run", b"22\n")}
    left, right = place.folder("left", old), place.folder("right", new)
    shown = [place.type([NAME, "--read-only", left, right], keys)[0] for keys in (["a", "space", "c"], ["q"])]
    is_same = changed.read(right) == new
    status, said = place.type([NAME, "--dry-run", left, right], ["c"])
    lines = ["write: a (mode 100644, 6 bytes)", "write: b (mode 100644, 2 bytes)", "remove: c", "remove: d"]
    is_told = status == 0 and said.endswith("".join("would %s\n" % line for line in lines))
    status, said = place.type([NAME, "--dry-run", "--mark-all", right, left], ["j", "space", "c"])
    is_told_rest = status == 0 and said.endswith("would remove: b\n")
    status, said = place.type([NAME, "--dry-run", left, right], ["a", "c"])
    is_none = status == 0 and said.endswith("would write nothing\n")
    both = place.call(NAME, "--dry-run", "--read-only", left, right)[0]
    is_left = changed.read(right) == new and changed.read(left) == old
    return shown == [0, 0] and is_same and is_told and is_told_rest and is_none and both == 2 and is_left


def everything_is_marked_first(place):
    """With --mark-all RIGHT stays as it is at once, and what the user unmarks is taken back: as jj diffedit wants it."""
    old, new = {"a": OLD, "b": b"1\n", "c": b"\0"}, {"a": NEW, "b": ("run", b"2\n"), "c": b"\1"}
    left, right = place.folder("left", old), place.folder("right", new)
    is_same = place.type([NAME, "--mark-all", left, right], ["c"])[0] == 0 and changed.read(right) == new
    status, _ = place.type([NAME, "--mark-all", left, right], ["j", "space", "c"])
    return is_same and status == 0 and changed.read(right) == {**new, "b": b"1\n"}


def shown_to(place, command):
    """Returns the status and what a command says, with a front end that keeps what it gets, the title that it got, and the paths and
    notes of its changes."""
    front = file_in(place.top, "front", b'#!/bin/sh\nprintf %s "$SELECT_TITLE" > "$TITLE"\ncp "$2" "$CHANGES"\nexit 1\n', 0o755)
    kept = {name: os.path.join(place.top, name.lower()) for name in ("TITLE", "CHANGES")}
    before = dict(place.environment)
    place.environment.update(kept, SELECT=front)
    end = place.call(*command)
    place.environment = before
    shown = [(word, data.decode()) for word, data in records_in(read_data(kept["CHANGES"])) if word in ("path", "note")]
    return end, read_data(kept["TITLE"]).decode(), shown


def without_git(place):
    """It needs no git."""
    left, right = place.folder("left", {"a": OLD}), place.folder("right", {"a": NEW})
    programs = place.folder("programs")
    os.symlink(sys.executable, os.path.join(programs, "python3"))
    status, _ = place.type([os.path.join(place.prefix, "bin", NAME), left, right], FIRST, PATH=programs)
    return status == 0 and changed.read(right) == {"a": b"one\n2\n3\n"}


def the_words_of_jj(place):
    """What jj says of its command is the title, in ASCII, without what is said of panes; its file stays and is not shown."""
    left, files = place.folder("left", {"a": OLD}), {"a": NEW, "JJ-INSTRUCTIONS": WORDS.encode()}
    right, output = place.folder("right", files), place.folder("output", {**files, "JJ-INSTRUCTIONS": (PANES + WORDS).encode()})
    title = NAME + ": You are splitting a commit into two: qpvuntsm 230dd059 caf\\xe9 The diff initially shows the changes in"
    ends = []
    for command in ([NAME, left, right], [NAME, "--output", output, left, right]):
        end, found, shown = shown_to(place, command)
        ends.append(end == (1, NAME + ": nothing was written\n") and found.startswith(title) and shown == [("path", "a")])
    changed.write_file(os.path.join(right, "JJ-INSTRUCTIONS"), b"x" * 1000 + b"\n\x1b]2;y\x07\n")
    is_cut = shown_to(place, [NAME, left, right])[1] == NAME + ": " + "x" * 237 + "..."
    os.unlink(os.path.join(right, "JJ-INSTRUCTIONS"))
    is_own = shown_to(place, [NAME, left, right])[1] == NAME + ": mark what RIGHT is to have"
    return all(ends) and is_cut and is_own and place.has_left_nothing()


def lines_of_a_conflict(place):
    """A file with lines of a conflict is named, with their numbers, before it is shown, and on the screen."""
    old = {"a": OLD, "b": CONFLICT, "c": OLD, "d": b"\0"}
    new = {"a": CONFLICT, "b": OLD, "c": b"<<<<<<\n>>>>>>> x\n<<<<<<< x\n=======\n", "d": b"\0" + CONFLICT}
    left, right = place.folder("left", old), place.folder("right", new)
    (status, said), _, shown = shown_to(place, [NAME, left, right])
    words = "%s: %s has conflict markers in %s, lines %s: choose all of them, or none\n"
    lines = [("a", "RIGHT", "2 to 6"), ("b", "LEFT", "2 to 6"), ("d", "RIGHT", "2 to 6")]
    is_named = status == 1 and said == "".join(words % (NAME, *line) for line in lines) + NAME + ": nothing was written\n"
    is_chosen = place.type([NAME, left, right], ["space", "c"])[0] == 0
    is_written = changed.read(right) == {"a": CONFLICT, "b": CONFLICT, "c": OLD, "d": b"\0"}
    notes = [[("path", name), ("note", "conflict markers")][: 1 + (name != "c")] for name in "abcd"]
    return is_named and shown == sum(notes, []) and is_chosen and is_written


def killed_at(place, point, command):
    """Runs a command that accepts everything until it is about to run line `point` of those that put files in place, where it is
    killed. Returns how many of these lines it came to."""
    count = os.path.join(place.top, "count")
    program = os.path.join(place.prefix, "bin", NAME)
    how = {"stdout": subprocess.DEVNULL, "stderr": subprocess.DEVNULL, "stdin": subprocess.DEVNULL, "start_new_session": True}
    words = [END_AT, MEND_PLACES, str(int(signal.SIGKILL)), str(point), count, program, *command[1:]]
    subprocess.run(words, env={**os.environ, **place.environment}, **how)
    return int(read_data(count))


def writing_that_is_killed(place):
    """KILL at lines that put files in place: the next run says what it finds, and finishes or undoes it."""
    old = {"a": b"1\n", "b/c": b"1\n", "d": ("link", "a"), "gone/x": b"1\n"}
    new = {"a": b"2\n", "b/c": b"1\n", "d": b"2\n", "new/x": ("run", b"2\n")}
    left, right, output = place.folder("left", old), place.folder("right", new), place.folder("output")
    command = [NAME, "--output", output, left, right]
    place.environment.update(ACCEPTS)
    ends, told = [], set()
    count = killed_at(place, 0, command)
    is_whole = changed.read(output) == new
    for point in range(1, count + 1, 3):
        changed.write(output, old)
        killed_at(place, point, command)
        way, wanted = (("--undo", old), ("--finish", new))[point % 2]
        status, said = place.call(*command)
        told.add(said.partition(" ")[2][:20])
        if "writing was cut off, with " in said:
            ends.append("of 4 files written" in said and place.call(*command, way)[0] == 0 and changed.read(output) == wanted)
        elif "is not needed" in said:
            ends.append(place.call(*command, "--undo") == (0, "") and changed.read(output) in (old, new))
        else:
            ends.append((status, changed.read(output)) == (0, new))
        ends.append(not any(".gabrosty-" in name for name in [*os.listdir(output), *os.listdir(place.top)]))
    nothing = place.call(*command, "--finish")
    shutil.rmtree(place.temporary)
    os.mkdir(place.temporary)
    is_none = nothing == (1, NAME + ": there is no writing that was cut off\n")
    return is_whole and all(ends) and is_none and count > 40 and any("writing was cut off" in words for words in told)


def taken_up(place, said):
    """Types `c` into the command that is said to take up the marks that were kept. Returns its status, or None if none is named."""
    found = re.search(r"your marks are kept; to take them up: (.*?)\r?\n", said)
    status = place.type(["sh", "-c", found[1]], ["c"])[0] if found else None
    place.forget_marks()
    return status


def marks_that_are_kept(place):
    """Where something is refused, or the front end is killed, a command is named that takes up the marks, whatever --mark-all says. A name
    that a shell would take for more is quoted."""
    script, pid, ends = file_in(place.top, "front", b'#!/bin/sh\necho $$ > "$PID_FILE"\nexec scm-select "$@"\n', 0o755), place.top + "/pid", []
    left, right = place.folder("left $(id)", {"a": OLD, "b": OLD}), place.folder("right", {"a": NEW, "b": NEW})
    typed = Typed([NAME, "--mark-all", left, right], 60, 24, {**place.environment, "SELECT": script, "PID_FILE": pid}, place.top)
    # the first file alone is left unmarked
    typed.press("space")
    # the marks are kept where the user rests
    time.sleep(1)
    os.kill(int(read_data(pid)), signal.SIGKILL)
    ends.append(typed.end() == 1 and taken_up(place, typed.said()) == 0 and changed.read(right) == {"a": OLD, "b": NEW})
    changed.write(right, {"a": NEW, "b": NEW})
    change = lambda: changed.write_file(right + "/b", OLD)  # noqa: E731
    status, said = place.type([NAME, left, right], ["space", "j", "j", "c"], before_last=change)
    changed.write_file(right + "/b", NEW)
    ends.append(status == 1 and "b changed meanwhile: nothing was written" in said and taken_up(place, said) == 0)
    ends.append(changed.read(right) == {"a": NEW, "b": OLD})
    return all(ends) and place.has_left_nothing()


ALL = (
    two_files, a_file_that_comes_or_goes, what_are_not_two_of_a_kind, a_file_that_changed_meanwhile, git_difftool_on_one_file,
    hg_extdiff, a_third_folder, a_third_file, nothing_is_written, everything_is_marked_first, without_git, the_words_of_jj,
    lines_of_a_conflict, writing_that_is_killed, marks_that_are_kept,
)
