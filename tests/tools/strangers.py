"""The programs where a clone, a folder or another user is hostile, and where a cleanup fails, for tools/dev/try-tools."""
import contextlib
import json
import os
import re
import resource
import shlex
import shutil
import signal
import stat
import subprocess
import sys
import time

import changed
from choosing.change import digest_of
from choosing.folders import IS_FOLDER, closing, remove_opened
from choosing.paths import IGNORABLE, is_own
from choosing.plans import key_of
from choosing.words import shown
from disks import disk
from faults import ACCEPTS, END_AT, HERE, lock_of, points, select
from outputs import PATCHED
from places import Repository
from settings import write_hook
from typed import Typed

EDITOR = "gabrosty-diff-editor"
FAIL_AT = os.path.join(HERE, "fail-at")
NOBODY = 65534
EMPTY = "e3b0c44298fc1c149afbf4c8996fb92427ae41e4649b934ca495991b7852b855"
SPARE = r"\.gabrosty-.*"
OLD, NEW = {"a": b"1\n", "b": b"1\n"}, {"a": b"2\n", "b": b"2\n"}
# what leads out of the folder, to git's or jj's own, or nowhere
REFUSED = (
    "../outside", "/outside", "a/../../outside", "./a", "a//b", "a/", "", "a\0b", ".git/hooks/pre-commit", "b/.git/hooks/x", ".GIT/hooks/x",
    ".Git", "git~1/hooks/x", "GIT~1", ".git./x", ".git /x", ".git . ./x", ".git::$INDEX_ALLOCATION/hooks/x", ".git:x", "a\\.git\\x",
    ".git\\hooks", ".g\u200cit/x", ".\ufeffgit/x", ".gi\u202et", ".jj/repo", ".JJ", "jj~1/x", ".j\u206aj",
    ".g\u00adit/x", ".gi\u200bt", ".git\ufe0f/x", "git~12", ".\U000e0041jj",
)


def editor(place, *words, **more):
    """Runs the diff editor, where all is marked and accepted without a terminal. Returns its status, and all that it wrote."""
    environment = {**os.environ, **place.environment, **ACCEPTS, **more}
    how = {"stdout": subprocess.PIPE, "stderr": subprocess.STDOUT, "stdin": subprocess.DEVNULL, "timeout": 120}
    done = subprocess.run([EDITOR, *words], cwd=place.top, env=environment, start_new_session=True, **how)
    return done.returncode, os.fsdecode(done.stdout)


def plan_of_a_clone(path):
    """Returns a folder that says of a file that it is to be put at `path`."""
    sides = ["000000", EMPTY], ["100755", EMPTY]
    return {"plan": json.dumps([[path, *sides]]).encode(), "new-0": ("run", b"#!/bin/sh\ntouch ran\n"), "note": b"mine\n"}


def a_clone_with_a_plan(place):
    """A repository tracks folders like those that keep what comes and goes. They are files like others: nothing is obeyed, and
    nothing in them is removed."""
    planted = {}
    for number, path in enumerate((".git/hooks/pre-commit", "../outside", "c")):
        for folder in ".choosing-%d" % (number + 7), ".gabrosty-%032x" % number, "gabrosty/%d" % number:
            planted.update(("%s/%s" % (folder, name), what) for name, what in plan_of_a_clone(path).items())
    repository = Repository(place, {**planted, "a": b"1\n"}, {**planted, "a": b"2\n"})
    mends = [select(repository, way) for way in ("--finish", "--undo")]
    is_none = mends == [(1, "git-select: there is no restore that was cut off\n")] * 2
    ends = [select(repository, *words)[0] for words in (["--restore"], [], ["--commit", "-m", "x", "--", "a"])]
    is_left = repository.files() == {**planted, "a": b"1\n"} and not os.path.exists(os.path.join(place.top, "outside"))
    hooks = os.listdir(os.path.join(repository.folder, ".git", "hooks"))
    return is_none and ends == [0, 0, 0] and is_left and "pre-commit" not in hooks and repository.is_sound()


def a_folder_with_a_plan(place):
    """Such folders in RIGHT are files like others of the diff editor, which are shown, and written as the user chooses."""
    planted = {".choosing-7/" + name: what for name, what in plan_of_a_clone("../victim").items()}
    left, right = place.folder("left", {"a": b"1\n"}), place.folder("right", {"a": b"2\n", **planted})
    mends = [editor(place, left, right, way) for way in ("--finish", "--undo")]
    is_none = mends == [(1, EDITOR + ": there is no writing that was cut off\n")] * 2 and changed.read(right) == {"a": b"2\n", **planted}
    is_shown = editor(place, left, right, "--dry-run")[1] == "would write nothing\n"
    status, _ = place.type([EDITOR, left, right], ["c"])
    return is_none and is_shown and (status, changed.read(right)) == (0, {"a": b"1\n"}) and not os.path.exists(place.top + "/victim")


def cut_off(repository, words=("--restore",), wanted="with 1 of "):
    """Kills git select between two files, and returns the paths of its plan and of the folder that keeps what comes and goes."""
    places = "files.py:make_missing,spare.py:take,spare.py:move_to"
    for point in range(1, 99):
        before = repository.files()
        points(repository, places, list(words), signal.SIGKILL, point)
        if wanted in select(repository)[1]:
            break
        shutil.rmtree(os.path.join(repository.folder, ".git", "gabrosty"), ignore_errors=True)
        with contextlib.suppress(FileNotFoundError):
            os.unlink(lock_of(repository))
        changed.write(repository.folder, before)
    at = os.path.join(repository.folder, ".git", "gabrosty")
    names = sorted(os.listdir(at), key=lambda name: name.startswith("."))
    return [os.path.join(at, name) for name in names]


def remove_folder(path):
    """Removes a folder with all below it, however deep that is."""
    with closing(os.open(path, IS_FOLDER)) as opened:
        remove_opened(path, opened)


def clear(place):
    """Removes what a killed program leaves in the folder for temporary files."""
    shutil.rmtree(place.temporary)
    os.mkdir(place.temporary)


def read_lines(path):
    with open(path) as file:
        return [json.loads(line) for line in file]


def written(path, lines):
    text = lines if isinstance(lines, str) else "".join(json.dumps(line) + "\n" for line in lines)
    changed.write_file(path, text.encode())


def plans_that_do_not_fit(first, second):
    """Yields the plans that do not fit, made of the lines of one that does."""
    inode, entries, folders = second
    for path in REFUSED:
        yield [first, [inode, [*entries, [path, *entries[0][1:]]], folders]]
        yield [first, [inode, entries, [[path, 0o700, 0, []]]]]
    path, old, new = entries[0]
    # one file in another one, before or behind it, and a folder that no file is in: Python alone does not see the first two
    yield [first, [inode, [*entries, [path + "/x", ["000000", EMPTY], new]], folders]]
    yield [first, [inode, [*entries, [path + "/x", old, ["000000", EMPTY]]], folders]]
    yield [first, [inode, entries, [[path, 0o700, 0, []], *folders]]]
    sides = [], ["100644"], ["104755", old[1]], ["100644", old[1][1:]], ["000000", old[1]], [old[1], "100644"], [1, 2], "x", None
    for side in (*sides, ["040000", EMPTY]):
        yield [first, [inode, [[path, side, new], *entries[1:]], folders]]
        yield [first, [inode, [[path, old, side], *entries[1:]], folders]]
    lists = [[]], [["a", [], []]], [*entries, entries[0]], {}
    others = [inode], [inode, entries], ["1", entries, folders], [True, entries, folders], *([inode, other, folders] for other in lists)
    for line in ([], {}, None, *others, "x"):
        yield [first, line]
    for line in (["a"], ["a", 0o4700, 0, []], ["a", "7", 0, []], ["a", 0o700, "0", []], ["a", 0o700, -1, []], [1, 0o700, 0, []], None):
        yield [first, [inode, entries, [line]]]
    name = "system.posix_acl_access"
    for users in ({}, [["user.x", "00"]], [[name, "0"]], [[name]], [[name, 1]]):
        yield [first, [inode, entries, [["a", 0o700, 0, users]]]]
    yield from ([[*first[:place], 7, *first[place + 1 :]], second] for place in (0, 2, 3, 4))
    yield from ([[*first[:3], name, first[4]], second] for name in ("..", "a", "../x", ".git"))
    yield from ([line, second] for line in ([], {}, None, [1] * 9))
    yield from ("[" * 100_000 + "\n", "{\n", "\0\n", '[["a",[],[]]]\n', "\n")
    yield [first, second, second]


def plans_that_are_malformed(place):
    """A plan with a path that leads out, with git's own, or with anything that does not fit is named in one sentence, and nothing
    is touched."""
    repository = Repository(place, OLD, NEW)
    plan, spare = cut_off(repository)
    lines, before, kept = read_lines(plan), repository.files(), changed.read(spare)
    ends = []
    for number, other in enumerate(plans_that_do_not_fit(*lines)):
        written(plan, other)
        words = (["--undo"], ["--finish"], [])[number % 3]
        status, said = select(repository, *words)
        is_named = status == 1 and said.count("\n") == 1 and said.startswith("git-select: %s is no plan that can be" % plan)
        ends.append(is_named and (repository.files(), changed.read(spare)) == (before, kept))
        if not ends[-1]:
            print("%.100r: %s" % (other, said))
    written(plan, lines)
    is_undone = select(repository, "--undo") == (0, "as it was: a\nas it was: b\n") and repository.files() == NEW
    clear(place)
    return all(ends) and len(ends) > 110 and is_undone and repository.is_sound()


def what_is_kept_and_changed(place):
    """What is kept, or is at a path, is compared with the plan before anything is moved: also a folder that is a link by then."""
    old, new = {"a": b"1\n", "b/c": b"1\n"}, {"a": b"2\n", "b/c": b"2\n"}
    repository = Repository(place, old, new)
    outside = place.folder("outside", {"c": b"2\n"})
    _, spare = cut_off(repository)
    before, ends = repository.files(), []
    for name in ("old-0", "new-1"):
        kept = changed.read_file(os.path.join(spare, name))
        for other in (kept + b"x", ("link", "/etc/passwd")):
            changed.write(os.path.join(spare), {**changed.read(spare), name: other})
            ends += [select(repository, way) for way in ("--undo", "--finish")]
        changed.write(spare, {**changed.read(spare), name: kept})
    is_named = all(status == 1 and "git-select: what is kept for " in said and said.count("\n") == 1 for status, said in ends)
    is_left = repository.files() == before
    changed.write(repository.folder, {"a": before["a"], "b": ("link", outside)})
    links = [select(repository, way) for way in ("--undo", "--finish")]
    is_named = is_named and links == [(1, "git-select: b/c changed since\n")] * 2 and changed.read(outside) == {"c": b"2\n"}
    changed.write(repository.folder, before)
    is_done = select(repository, "--finish")[0] == 0 and repository.files() == old
    clear(place)
    return is_named and is_left and is_done and repository.is_sound()


def a_plan_that_fits_to_nothing(place):
    """Where the folder of a plan is gone, or is another one, the plan stops nothing, and the folder is not touched."""
    repository = Repository(place, OLD, NEW)
    plan, spare = cut_off(repository)
    os.unlink(lock_of(repository))
    lines, ends = read_lines(plan), []
    for first, second in (([*lines[0][:4], "0" * 32], lines[1]), (lines[0], [lines[1][0] + 1, *lines[1][1:]])):
        written(plan, [first, second])
        ends.append(select(repository, "--undo") == (1, "git-select: there is no restore that was cut off\n"))
    kept = changed.read(spare)
    changed.write(repository.folder, NEW)
    is_staged = select(repository)[0] == 0 and repository.index_files() == NEW
    clear(place)
    return all(ends) and is_staged and changed.read(spare) == kept and repository.is_sound()


def what_another_user_left(place):
    """Another user's folders stop nothing, and where plans are kept they are refused before the screen opens. Skipped without the
    rights to make them."""
    if os.geteuid():
        return "that needs another user"
    left, right = place.folder("left", {"a": b"1\n"}), place.folder("right", {"a": b"2\n", ".choosing-5/x": b"1\n"})
    os.chown(os.path.join(right, ".choosing-5"), NOBODY, NOBODY)
    is_done = place.type([EDITOR, left, right], ["c"])[0] == 0 and changed.read(right) == {"a": b"1\n"}
    repository = Repository(place, OLD, {"a": b"2\n", "b": b"1\n"})
    kept = os.path.join(place.state, "gabrosty"), os.path.join(repository.folder, ".git", "gabrosty")
    for folder in kept:
        os.makedirs(folder, exist_ok=True)
        os.chown(folder, NOBODY, NOBODY)
    changed.write(right, {"a": b"2\n"})
    words = "%s: no plan can be kept in %s: it is no folder that you alone may write to"
    is_refused = editor(place, left, right) == (1, words % (EDITOR, kept[0]) + "; XDG_STATE_HOME names another folder\n")
    is_refused = is_refused and editor(place, left, right, "--dry-run")[0] == 0 and changed.read(right) == {"a": b"2\n"}
    ends = [select(repository, *way) for way in (["--restore"], ["--stash"])]
    is_refused = is_refused and ends == [(1, words % ("git-select", kept[1]) + "\n")] * 2
    return is_done and is_refused and select(repository)[0] == 0 and repository.is_sound()


def where_no_plan_can_be_kept(place):
    """The diff editor names the folder and the variable before the screen opens. A link in its place is not followed."""
    left, right = place.folder("left", {"a": b"1\n"}), place.folder("right", {"a": b"2\n"})
    state, outside = place.folder("other state"), place.folder("outside")
    os.symlink(outside, os.path.join(state, "gabrosty"))
    ends = [editor(place, left, right, XDG_STATE_HOME=where) for where in (os.devnull, state)]
    named = ["%s: no plan can be kept in %s/gabrosty: " % (EDITOR, where) for where in (os.devnull, state)]
    end = "; XDG_STATE_HOME names another folder\n"
    is_named = all(said.startswith(words) and said.endswith(end) for (_, said), words in zip(ends, named))
    return is_named and changed.read(right) == {"a": b"2\n"} and not os.listdir(outside)


def bits_that_set_a_user(place):
    """A file that is written is never run with another user's rights."""
    ends = []
    for bits in (0o4755, 0o2755, 0o6711, 0o1777):
        left, right = place.folder("left", {"a": ("run", b"1\n")}), place.folder("right", {"a": ("run", b"2\n")})
        os.chmod(os.path.join(right, "a"), bits)
        ends.append(place.type([EDITOR, left, right], ["c"])[0] == 0)
        repository = Repository(place, {"a": ("run", b"1\n")}, {"a": ("run", b"2\n")})
        os.chmod(os.path.join(repository.folder, "a"), bits)
        ends.append(select(repository, "--restore")[0] == 0)
        for folder in (right, repository.folder):
            found = os.stat(os.path.join(folder, "a"))
            ends.append(stat.S_IMODE(found.st_mode) == bits & 0o777 and changed.read(folder) == {"a": ("run", b"1\n")})
        shutil.rmtree(repository.folder)
    return all(ends)


def permissions_of_new_files(place):
    """A new file has no more permissions than what it is made of. Its owner may read and write it."""
    ends = []
    for bits, wanted in ((0o600, 0o600), (0o640, 0o640), (0o444, 0o644), (0o700, 0o700)):
        left, right = place.folder("left", {"a": b"1\n", "b": b"1\n"}), place.folder("right", {"a": b"2\n"})
        output = place.folder("output")
        for folder, name in ((left, "b"), (right, "a")):
            os.chmod(os.path.join(folder, name), bits)
        changed.write(output, {})
        ends.append(place.type([EDITOR, "-o", output, left, right], ["space", "c"])[0] == 0)
        ends.append(place.type([EDITOR, left, right], ["space", "c"])[0] == 0)
        found = [os.stat(path).st_mode & 0o7777 for path in (output + "/a", output + "/b", right + "/b")]
        ends.append(found == [wanted] * 3)
        single = os.path.join(output, "single")
        ends.append(editor(place, "-o", single, left + "/b", right + "/a")[0] == 0 and os.stat(single).st_mode & 0o777 == wanted)
    return all(ends)


# reads a file where os.stat says that it is what another one is
READS = """
import os, sys
sys.path.insert(0, os.path.join(sys.argv[1], "lib/gabrosty"))
from choosing import files, words
real = os.stat
if sys.argv[4:]:
    os.stat = lambda name, **more: real(sys.argv[4])
try:
    print(files.Files(sys.argv[2]).read(sys.argv[3]))
except words.Stop as stop:
    print(stop)
"""


def read_by(place, *words):
    command = [sys.executable, "-c", READS, place.prefix, *words]
    try:
        return subprocess.run(command, stdout=subprocess.PIPE, timeout=20, text=True).stdout
    except subprocess.TimeoutExpired:
        return "it hangs"


def what_becomes_a_fifo(place):
    """A FIFO that takes the place of a file between the look and the reading is no file, and nothing waits for it. A file that
    has more bytes than it had, and one that is too large, are named."""
    folder = place.folder("folder", {"a": b"1\n"})
    os.mkfifo(os.path.join(folder, "pipe"))
    is_absent = read_by(place, folder, "pipe", os.path.join(folder, "a")) == "(('000000', b''), None)\n"
    # its size is 0 at each time
    grows = read_by(place, "/proc/self", "status") if os.path.exists("/proc/self/status") else None
    is_named = grows in (None, "status cannot be read: it changes while it is read\n")
    changed.write_file(os.path.join(folder, "large"), b"")
    os.truncate(os.path.join(folder, "large"), 1_000_000_001)
    is_large = read_by(place, folder, "large") == "large cannot be read: it has more than 1,000,000,000 bytes\n"
    left = place.folder("left", {"a": b"2\n"})
    os.unlink(os.path.join(folder, "pipe"))
    status, said = editor(place, left, folder, "--dry-run")
    is_out = status == 0 and "large is left out: it has more than 1,000,000,000 bytes\n" in said
    return is_absent and is_named and is_large and is_out


def deep_file(top, depth, data):
    """Makes a file that lies `depth` folders deep. Returns its path below `top`."""
    path = top
    for _ in range(depth):
        path += "/d"
        if not os.path.isdir(path):
            os.mkdir(path)
    changed.write_file(path + "/a", data)
    return os.path.relpath(path + "/a", top)


def a_deep_folder(place):
    """1,500 folders in one another, where 1,024 files may be open."""
    before = resource.getrlimit(resource.RLIMIT_NOFILE)
    left, right, repository = place.folder("left"), place.folder("right"), Repository(place, {"a": b"1\n"}, {"a": b"1\n"})
    path = deep_file(left, 1500, b"1\n")
    deep_file(right, 1500, b"2\n")
    deep_file(repository.folder, 1500, b"1\n")
    repository.commit()
    deep_file(repository.folder, 1500, b"2\n")
    limit = ["sh", "-c", 'ulimit -n %d; exec "$@"' % min(1024, before[1]), "sh"]
    status, said = place.type([*limit, EDITOR, left, right], ["c"])
    is_written = (status, said) == (0, "") and changed.read_file(os.path.join(right, path)) == b"1\n"
    status, said = place.type([*limit, "git", "select", "--restore"], ["a", "c"], repository.folder)
    is_restored = status == 0 and "Traceback" not in said and changed.read_file(os.path.join(repository.folder, path)) == b"1\n"
    is_left = place.has_left_nothing()
    for folder in (left, right, repository.folder):
        remove_folder(folder)
    return is_written and is_restored and is_left


def names_of_git_on_other_disks(place):
    """What a disk that folds names takes for git's own folder is left out by name, also with --output."""
    hook, names = ("run", b"#!/bin/sh\ntouch ran\n"), (".GIT", "git~1", ".git ", ".g\u200cit", ".jJ")
    planted = {name + "/hooks/pre-commit": hook for name in names}
    left, right = place.folder("left", {"a": b"1\n"}), place.folder("right", {"a": b"2\n", **planted, "d/.Git": b"x\n"})
    repository = Repository(place, {"a": b"1\n"}, {"a": b"1\n"}, "output")
    ends = []
    for words in (["--output", repository.folder], []):
        status, said = editor(place, *words, left, right)
        words = "%s: %s is left out: git or jj keeps that for itself, on some disks"
        lines = [words % (EDITOR, name) for name in (".GIT", "git~1", "d/.Git", ".jJ")]
        ends.append(status == 0 and all(line + "\n" in said for line in lines) and said.count("is left out") == 6)
    return all(ends) and repository.files() == {"a": b"2\n"} and changed.read(right) == {"a": b"2\n", **planted, "d/.Git": b"x\n"}


def characters_that_disks_leave_out(place):
    """Both programs that write folders leave out a name that is `.git` beside a character that some disk leaves out: each end of a range
    of those, and no character beside it."""
    ends = re.findall(r"(.)(?:-(.))?", IGNORABLE[1:-1])
    codes = {ord(c) + step for pair in ends for c in pair if c for step in (-1, 0, 1)}
    names = [".g%sit" % chr(code) for code in sorted(codes) if code not in (ord("/"), ord("t"))]
    left, right = place.folder("left", {"a": b"1\n"}), place.folder("right", {"a": b"1\n", **{name + "/x": b"1\n" for name in names}})
    wanted = [name for name in names if is_own(name)]
    said = editor(place, "--dry-run", left, right)[1], place.type(["scm-select", "-d", left, right], ["q"])[1]
    is_left_out = all(text.count(" is left out: ") == len(wanted) for text in said)
    is_named = all("%s is left out: " % shown(name) in said[0] for name in wanted)
    return is_left_out and is_named and 40 < len(wanted) < len(names) - 20


def failing(place, folder, failure, program, *words):
    """Runs a program in which a function of the system fails (see fail-at). Returns its status, and all that it wrote."""
    environment = {**os.environ, **place.environment, **ACCEPTS}
    how = {"stdout": subprocess.PIPE, "stderr": subprocess.STDOUT, "stdin": subprocess.DEVNULL, "timeout": 120}
    command = [FAIL_AT, *failure, os.path.join(place.prefix, "bin", program), *words]
    done = subprocess.run(command, cwd=folder, env=environment, start_new_session=True, **how)
    return done.returncode, os.fsdecode(done.stdout)


def a_spare_folder_that_stays(place):
    """Where all is written, and what was kept meanwhile cannot be removed, that is said, and the rest stays: a stash too."""
    ends = []
    for failure, words in (
        (("rmdir", SPARE, "ENOTEMPTY"), "stays: Directory not empty\n"), (("unlink", "old-0", "EIO"), "stays: Input/output error\n"),
        (("unlink", ".*[.]done", "EIO"), "stays: Input/output error\n"), (("rename", ".*[.]plan", "EIO"), "stays: Input/output error\n"),
    ):
        for way in "--stash", "--restore":
            repository = Repository(place, {"a": b"1\n"}, {"a": b"2\n"})
            status, said = failing(place, repository.folder, failure, "git-select", way)
            ends.append(status == 0 and words in said and "nothing was" not in said and repository.files() == {"a": b"1\n"})
            ends.append(len(repository.git("stash", "list").splitlines()) == (way == "--stash") and not os.path.exists(lock_of(repository)))
            remove_folder(repository.folder)
        left, right = place.folder("left", {"a": b"1\n"}), place.folder("right", {"a": b"2\n"})
        status, said = failing(place, place.top, failure, EDITOR, "--output", right, right, left)
        ends.append(status == 0 and words in said and "nothing was" not in said and changed.read(right) == {"a": b"1\n"})
        shutil.rmtree(os.path.join(place.state, "gabrosty"))
        if not all(ends):
            print(failure, said)
    return all(ends) and place.has_left_nothing()


def an_error_without_a_name(place):
    """Where the system says of an open folder that it cannot be listed, that is one line, and the marks are kept."""
    repository = Repository(place, {"a": b"1\n"}, {"a": b"2\n"})
    fails, reason = ("listdir", "", "EIO"), "Input/output error"
    _, said = failing(place, repository.folder, fails, "git-select")
    is_kept = "git-select: %s: nothing was staged\ngit-select: your marks are kept; " % reason in said and said.count("\n") == 3
    left, right = place.folder("left", OLD), place.folder("right", NEW)
    ends = [failing(place, place.top, fails, EDITOR, "--output", right, left, right, *words) for words in ([], ["--undo"])]
    clear(place)
    is_one_line = all(status == 1 and said.endswith("%s: %s\n" % (EDITOR, reason)) and said.count("\n") == 2 for status, said in ends)
    return is_kept and is_one_line and changed.read(right) == NEW


def a_folder_that_others_write_into(place):
    """What someone puts into the folder that keeps what comes and goes is not removed, and stops nothing later."""
    repository = Repository(place, OLD, NEW)
    _, spare = cut_off(repository)
    changed.write_file(os.path.join(spare, "note"), b"mine\n")
    status, said = select(repository, "--undo")
    is_said = status == 0 and said.endswith("%s stays: Directory not empty\n" % spare) and repository.files() == NEW
    is_left = changed.read(spare) == {"note": b"mine\n"} and select(repository)[0] == 0
    clear(place)
    return is_said and is_left and repository.is_sound()


def two_files_that_are_cut_off(place):
    """Killed between the two renames, RIGHT is gone: the next call says what was cut off, and finishes or undoes it."""
    left, right = os.path.join(place.folder("left", {"r": b"1\n"}), "r"), os.path.join(place.folder("right", {"r": b"2\n"}), "r")
    count, program = os.path.join(place.top, "count"), os.path.join(place.prefix, "bin", EDITOR)
    how = {"stdout": subprocess.DEVNULL, "stderr": subprocess.DEVNULL, "stdin": subprocess.DEVNULL, "start_new_session": True}
    ends = []
    for way, wanted in (("--undo", b"2\n"), ("--finish", b"1\n")):
        for point in range(1, 40):
            changed.write_file(right, b"2\n")
            words = [END_AT, "spare.py:take,spare.py:move_to", str(int(signal.SIGKILL)), str(point), count, program, "-o", right, right, left]
            subprocess.run(words, env={**os.environ, **place.environment, **ACCEPTS}, **how)
            if not os.path.exists(right):
                break
            place.call(EDITOR, "-o", right, right, left, "--undo")
        said = place.call(EDITOR, right, right)[1], place.call(EDITOR, left, right)[1]
        ends += ["writing was cut off, with 0 of 1 file written (" in words for words in said]
        ends.append(place.call(EDITOR, left, right, way)[0] == 0 and changed.read(os.path.dirname(right)) == {"r": wanted})
    clear(place)
    return all(ends)


def a_lock_that_is_killed(place):
    """Killed while the new index is written, the lock is named by the next run, and --undo removes it."""
    repository, ends = Repository(place, {"a": b"1\n"}, {"a": b"2\n"}), []
    before, after = repository.index(), repository.index_of("add", "--all")
    for point in range(1, 30):
        repository.git("reset", "--quiet")
        points(repository, "lock.py:keep,lock.py:__exit__", [], signal.SIGKILL, point)
        names = [name for name in os.listdir(os.path.join(repository.folder, ".git")) if name.startswith("index")]
        if names == ["index"]:
            break
        ends.append("index.lock was left by a git select that was cut off: git select --undo removes it" in select(repository)[1])
        ends.append(select(repository, "--undo") == (0, "") and repository.index() in (before, after))
        names = [name for name in os.listdir(os.path.join(repository.folder, ".git")) if name.startswith("index")]
        ends.append(names == ["index"])
    clear(place)
    return all(ends) and len(ends) > 20 and repository.index() == after and repository.is_sound()


def folders_that_undo_leaves(place):
    """Folders that were made for a file, also if it did not come, are gone when that is undone."""
    repository, ends = Repository(place, {"a": b"1\n", "d/e/f": b"1\n"}, {"a": b"1\n"}), []
    for point in range(1, 30):
        points(repository, "files.py:make_missing,spare.py:move_to", ["--restore"], signal.SIGKILL, point)
        if "d/e/f" in repository.files() and not os.path.exists(lock_of(repository)):
            break
        ends.append(select(repository, "--undo")[0] == 0 and os.listdir(repository.folder) in ([".git", "a"], ["a", ".git"]))
    clear(place)
    return all(ends) and len(ends) > 8 and repository.is_sound()


def a_new_file_for_hg(place):
    """hg ends where a new file is gone, so that is said before the screen opens."""
    left, right = place.folder("left", {"a": b"1\n"}), place.folder("right", {"a": b"2\n", "b": b"1\n", "c": b"1\n"})
    words = "%s: b and 1 file more are new: mark all that is new, since hg ends where a new file is gone, and copies only some files back\n"
    calls = (["--dry-run"], {"HG": "/usr/bin/hg"}), ([], {}), ([], {"HG": "/usr/bin/hg"})
    said = [editor(place, left, right, *words, **more)[1] for words, more in calls]
    return [words % EDITOR in text for text in said] == [False, False, True]


def links_that_hg_hands_in(place):
    """hg hands in two links where one alone has changed in a repository: they are links, and what they lead to is neither shown nor
    changed, be it a file or a folder."""
    outside, ends = place.folder("outside", {"a": b"1\n", "b": b"2\n", "c/x": b"1\n", "d/x": b"2\n"}), []
    before = changed.read(outside)
    for old, new in (("a", "b"), ("c", "d"), ("a", "none"), ("c", None)):
        left = place.folder("left", {"s": ("link", os.path.join(outside, old))})
        right = place.folder("right", {"s": b"3\n" if new is None else ("link", os.path.join(outside, new))})
        status, said = place.type([EDITOR, left + "/s", right + "/s"], ["c"], HG="/usr/bin/hg")
        ends.append((status, said) == (0, "") and changed.read(right) == changed.read(left) and changed.read(outside) == before)
    end = editor(place, "-d", left + "/s", right + "/s", HG="/usr/bin/hg")
    return all(ends) and end == (1, "%s: %s/s is no folder\n" % (EDITOR, left))


def a_folder_on_a_disk_of_its_own(place):
    """What is kept lies in RIGHT there, and is left out by name, while another folder of such a name is not. Skipped where no disk
    can be made."""
    with disk(place) as right:
        if right is None:
            return None
        left, other = place.folder("left", {"a": b"1\n", "b": b"1\n"}), ".gabrosty-" + "0" * 32
        changed.write(right, {"a": b"2\n", "b": b"2\n", other + "/x": b"1\n"})
        count, program = os.path.join(place.top, "count"), os.path.join(place.prefix, "bin", EDITOR)
        how = {"stdout": subprocess.DEVNULL, "stderr": subprocess.DEVNULL, "stdin": subprocess.DEVNULL, "start_new_session": True}
        words = [END_AT, "spare.py:move_to", str(int(signal.SIGKILL)), "4", count, program, "--output", right, left, left]
        subprocess.run(words, env={**os.environ, **place.environment, **ACCEPTS}, **how)
        names = [name for name in os.listdir(right) if name.startswith(".gabrosty-") and name != other]
        status, said = editor(place, left, right, "--dry-run")
        is_named = len(names) == 1 and "%s is left out: another call keeps there what it writes\n" % names[0] in said
        is_shown = other not in said and status == 0
        is_undone = editor(place, left, right, "--undo")[0] == 0
        is_undone = is_undone and changed.read(right) == {"a": b"2\n", "b": b"2\n", other + "/x": b"1\n"}
        clear(place)
        return is_named and is_shown and is_undone


# as another user renames each folder that is made in a folder, if its name begins so, and puts a link to `target` in its place
RACES = """
import os, sys, time
folder, target, ready, user, begin = sys.argv[1:]
os.setgroups([])
os.setgid(int(user))
os.setuid(int(user))
open(ready, "w").close()
end = time.monotonic() + 60
while time.monotonic() < end:
    for name in os.listdir(folder):
        if name.startswith(begin) and not os.path.islink(os.path.join(folder, name)):
            try:
                os.rename(os.path.join(folder, name), os.path.join(folder, "moved" + name))
                os.symlink(target, os.path.join(folder, name))
            except OSError:
                pass
"""


def states_in(folder):
    """Returns of each file of a folder its name, and what changes with it and with its permissions."""
    found = [(name, os.stat(os.path.join(folder, name))) for name in sorted(os.listdir(folder))]
    return [(name, it.st_ino, it.st_mode, it.st_uid, it.st_size, it.st_ctime_ns) for name, it in found]


def a_race_by_another_user(place):
    """Another user, who owns the folder around RIGHT and RIGHT, puts links in the place of the folder that keeps what comes: nothing is
    made in the folder that they lead to, nor are its permissions changed. Skipped without the rights of two users."""
    if os.geteuid():
        return "that needs another user"
    victim = place.folder("victim", {"new-0": b"mine\n", "old-0": b"mine\n", "secret": b"mine\n"})
    for path in (victim, *(os.path.join(victim, name) for name in os.listdir(victim))):
        os.chmod(path, 0o700)
    before, races = states_in(victim), []
    os.chmod(place.top, 0o755)
    shared, left = place.folder("shared"), place.folder("left", {"a": b"1\n"})
    right = place.folder("shared/right")
    for number, folder in enumerate((shared, right)):
        os.chown(folder, NOBODY, NOBODY)
        ready = os.path.join(shared, "ready-%d" % number)
        races.append(subprocess.Popen([sys.executable, "-c", RACES, folder, victim, ready, str(NOBODY), ".gabrosty-"]))
        while not os.path.exists(ready):
            time.sleep(0.01)
    try:
        for _ in range(8):
            changed.write_file(os.path.join(right, "a"), b"2\n")
            editor(place, "--output", right, right, left)
    finally:
        for race in races:
            race.kill()
            race.wait()
    return states_in(victim) == before



def names_like_ours_beside_the_index(place):
    """What has a name like that of a file which git-select makes beside the index stays, if git-select did not make it."""
    repository = Repository(place, {"a": b"1\n"}, {"a": b"2\n"})
    index = os.path.join(repository.folder, "my-index")
    shutil.copy(os.path.join(repository.folder, ".git", "index"), index)
    notes, pipe = (os.path.join(repository.folder, "git-select-" + end) for end in ("notes.txt", "0" * 16))
    changed.write_file(notes, b"notes\n")
    os.mkfifo(pipe)
    status, said = repository.select("a", keys=["a", "c"], GIT_INDEX_FILE=index)
    return (status, said) == (0, "staged: a\n") and changed.read_file(notes) == b"notes\n" and os.path.exists(pipe)


def marks_that_are_no_text(place):
    """Kept marks with half of a character are refused in one line."""
    repository = Repository(place, {"a": b"1\n"}, {"a": b"2\n"})
    marks = os.path.join(place.top, "m")
    changed.write_file(marks, b'{"messages": ["\\ud800"], "files": []}')
    end = place.call("git", "select", "--commit", "--marks", marks, folder=repository.folder)
    return end == (1, "git-select: %s has no marks that were kept\n" % marks)


def marks_in_what_is_no_file(place):
    """Where --marks names a FIFO, a device or a folder, that is said at once."""
    repository = Repository(place, {"a": b"1\n"}, {"a": b"2\n"})
    pipe, ends = os.path.join(place.top, "pipe"), []
    os.mkfifo(pipe)
    for path in pipe, "/dev/zero", place.top:
        ends.append(select(repository, "--marks", path) == (1, "git-select: %s: it is no file\n" % path))
    return all(ends) and repository.index() == repository.index_of() and repository.is_sound()


def named_files_through_links(place):
    """The files that --marks and commit.template name are not read through a link of another user, where all may put theirs. Skipped
    without the right to give files away."""
    if os.geteuid():
        return "that needs another user"
    repository, shared = Repository(place, {"a": b"1\n"}, {"a": b"2\n"}), place.folder("shared")
    os.chmod(shared, 0o1777)
    private = os.path.join(place.folder("private", {"x": b"private\n"}), "x")
    for name, owner in (("link", NOBODY), ("own", 0)):
        os.symlink(private, os.path.join(shared, name))
        os.chown(os.path.join(shared, name), owner, owner, follow_symlinks=False)
    refused = 1, "git-select: %s/link: it is another user's, in a folder that others may write to\n" % shared
    ends = [select(repository, "--marks", shared + "/link") == refused]
    ends.append(select(repository, "--marks", shared + "/own") == (1, "git-select: %s/own has no marks that were kept\n" % shared))
    repository.git("config", "commit.template", shared + "/link")
    ends.append(select(repository, "--commit", GIT_EDITOR="false") == refused)
    return all(ends) and repository.index() == repository.index_of() and repository.is_sound()


def tree_of(repository, *lines):
    """Stores a tree by hand, as git itself makes none. Returns its name."""
    return repository.git("mktree", given="".join(line + "\n" for line in lines).encode()).strip()


def paths_that_git_refuses(place):
    """Paths like git's own, of a commit that was made by hand or of the working tree, are left out by name. A path that git refuses
    in the end is named too, and nothing is written."""
    repository, ends = Repository(place, {"a": b"1\n"}, {"a": b"2\n", ".GIT/x": b"x\n", "git~1": b"x\n"}), []
    before, first = repository.index(), repository.git("rev-parse", "HEAD").strip()
    hooks = tree_of(repository, "100755 blob %s\tpre-commit" % repository.git("rev-parse", "HEAD:a").strip())
    top = tree_of(repository, *("040000 tree %s\t%s" % (hooks, name) for name in (".GIT", ".git", "git~1")))
    repository.git("update-ref", "HEAD", repository.git("commit-tree", "-m", "x", "-p", "HEAD", top).strip())
    out = "git-select: %s is left out: git or jj keeps it for itself\n"
    named = "".join(out % (name + "/pre-commit") for name in (".GIT", ".git", "git~1"))
    status, said = select(repository, "--split")
    place.forget_marks()
    ends.append(status == 0 and said.startswith(named + "first: a\nsplit: "))
    ends.append(select(repository, "--unstage") == (0, named + "unstaged: a\n") and repository.index() == "")
    repository.git("update-ref", "HEAD", first)
    repository.git("read-tree", "HEAD")
    ends.append(select(repository) == (0, out % ".GIT/x" + out % "git~1" + "staged: a\n"))
    repository.git("read-tree", "HEAD")
    os.symlink("a", os.path.join(repository.folder, ".gitmodules"))
    status, said = select(repository)
    place.forget_marks()
    ends.append(status == 1 and "git-select: git takes no such path: .gitmodules: nothing was staged\n" in said)
    return all(ends) and repository.index() == before and place.has_left_nothing()


def what_git_says_beside_its_editor(place):
    """Where git opens its editor, that has the terminal, and what git and its hooks say is printed without control characters. An
    editor that fails is named as the user has set it."""
    repository, ends = Repository(place, {"a": b"1\n"}, {"a": b"2\n"}), []
    for hook in "pre-commit", "post-commit":
        write_hook(repository, hook, "printf '\\033]0;x\\007\\n'\nprintf '\\033[31m\\n' >&2\n")
    repository.git("config", "core.editor", "false")
    status, said = repository.select("--commit", keys=["a", "c"])
    place.forget_marks()
    ends.append(status == 1 and "There was a problem with the editor 'false'." in said)
    repository.git("config", "core.editor", "test -t 0 && test -t 1 && test -t 2 && echo in the terminal && printf 'Sub\\033ject\\n' >")
    status, words = repository.select("--commit", keys=["a", "c"])
    ends.append(status == 0 and "in the terminal\n" in words and repository.git("log", "-1", "--format=%s") == "Sub\x1bject\n")
    lines = "git: \\x1b]0;x\\x07\n", "git: \\x1b[31m\n", "Sub\\x1bject\n"
    ends.append(all(line in words for line in lines) and {"\x1b", "\x07"}.isdisjoint(said + words))
    return all(ends) and repository.is_sound()


# the diff editor, of which a file and all files together may have few bytes
FEW = "import compared; compared.MOST_IN_ALL = %d"


def edit_patched(place, patch, *words, folder=None, **more):
    """Runs the diff editor in a folder, with more variables, of which the statement `patch` changes a part. Returns its status, and all that it wrote."""
    program, parent = os.path.join(place.prefix, "bin", EDITOR), os.path.join(place.prefix, "lib/gabrosty")
    environment = {**os.environ, **place.environment, **ACCEPTS, "PARENT": parent, **more}
    how = {"stdin": subprocess.DEVNULL, "stdout": subprocess.PIPE, "stderr": subprocess.STDOUT, "env": environment}
    done = subprocess.run([sys.executable, "-I", "-c", PATCHED, program, patch, *words], cwd=folder or place.top, start_new_session=True, **how)
    return done.returncode, os.fsdecode(done.stdout)


def files_that_have_too_much_together(place):
    """The largest files are left out by name, until the others have no more bytes in all than are taken. If OUTPUT is given more than
    that, it is said, and nothing is written."""
    left = place.folder("left", {"a": b"1\n", "b": b"1" * 60, "c": b"1" * 50, "same": b"1" * 500})
    right = place.folder("right", {"a": b"2\n", "b": b"2" * 60, "d": b"2" * 70, "same": b"1" * 500})
    output = place.folder("output")
    out = "%s: %s is left out: it is one of the largest files, and all that differ have more than 120 bytes\n"
    status, said = edit_patched(place, FEW % 120, "--output", right, right, left)
    is_named = (status, said) == (0, "".join(out % (EDITOR, name) for name in ("b", "d")))
    is_written = changed.read(right) == {"a": b"1\n", "b": b"2" * 60, "c": b"1" * 50, "d": b"2" * 70, "same": b"1" * 500}
    changed.write(right, {"a": b"2\n", "b": b"2" * 60, "same": b"1" * 500})
    status, said = edit_patched(place, FEW % 300, "--output", output, left, right)
    words = "%s: same cannot be written: OUTPUT would be given more than 300 bytes: nothing was written\n"
    return is_named and is_written and status == 1 and said.startswith(words % EDITOR) and changed.read(output) == {}


def a_lock_that_was_copied(place):
    """A lock that was copied with the repository is named, and stays: git select cannot know whether another command has it."""
    repository = Repository(place, {"a": b"1\n"}, {"a": b"2\n"})
    points(repository, "lock.py:keep", [], signal.SIGKILL, 1)
    clear(place)
    copy = Repository.at(place, os.path.join(place.top, "copy"))
    shutil.copytree(repository.folder, copy.folder, symlinks=True)
    words = "git-select: %s was left by a git select in another copy of this repository: remove it if no git is at work\n"
    ends = [select(copy, *way) for way in ([], ["--undo"], ["--finish"])]
    is_named = ends == [(1, words % lock_of(copy))] * 3 and os.path.exists(lock_of(copy))
    os.unlink(lock_of(copy))
    is_left = select(copy) == (0, "staged: a\n") and select(repository)[0] == 1
    return is_named and is_left and select(repository, "--undo") == (0, "") and select(repository) == (0, "staged: a\n")


def links_where_plans_are_kept(place):
    """A link, a folder or a loop of links with the name of a plan is no plan, and stops nothing. Where the folder of the plans is one,
    that is said by each call that needs a plan, and the others go on."""
    left, right = place.folder("left", {"a": b"1\n"}), place.folder("right", {"a": b"2\n"})
    repository, ends = Repository(place, {"a": b"1\n"}, {"a": b"2\n"}), []
    kept = {right: os.path.join(place.state, "gabrosty"), repository.folder: os.path.join(repository.folder, ".git", "gabrosty")}
    for top, folder in kept.items():
        os.mkdir(folder, 0o700)
        names = [os.path.join(folder, "%s-%032x.plan" % (key_of(top), number)) for number in range(3)]
        os.symlink(names[0], names[0])
        os.symlink("/etc/passwd", names[1])
        os.mkdir(names[2])
    ends.append(place.type([EDITOR, left, right], ["c"]) == (0, "") and changed.read(right) == {"a": b"1\n"})
    ends.append(select(repository, "--restore")[0] == 0 and repository.files() == {"a": b"1\n"})
    changed.write(right, {"a": b"2\n"})
    changed.write(repository.folder, {"a": b"2\n"})
    for folder in kept.values():
        shutil.rmtree(folder)
        os.symlink("gabrosty", folder)
    words = ": it is a link, and no link is followed here"
    ends.append(editor(place, left, right)[1].startswith("%s: no plan can be kept in %s%s; " % (EDITOR, kept[right], words)))
    ends.append(editor(place, left, right, "--dry-run")[0] == 0)
    said = "git-select: no plan can be kept in %s%s\n" % (kept[repository.folder], words)
    ends.append(select(repository, "--restore") == (1, said) and select(repository) == (0, "staged: a\n"))
    return all(ends)


def a_file_that_changes_unseen(place):
    """A file that LEFT and RIGHT have alike is not shown. If it is another one by the time that OUTPUT gets it, that is said, and nothing
    is written. What only LEFT has left out is left out of OUTPUT too."""
    left, right = place.folder("left", {"a": b"1\n", "b": b"1\n"}), place.folder("right", {"a": b"2\n", "b": b"1\n", "pipe": b"x\n"})
    os.mkfifo(os.path.join(left, "pipe"))
    output, words = place.folder("output"), "%s: b changed meanwhile: nothing was written\n" % EDITOR
    status, said = editor(place, "--output", output, left, right, MEANWHILE="echo 3 > '%s/b'" % right)
    is_said = status == 1 and words in said and changed.read(output) == {}
    changed.write_file(os.path.join(right, "b"), b"1\n")
    status, said = editor(place, "--output", output, left, right)
    is_out = (status, said) == (0, "%s: pipe is left out: it is neither a file nor a link\n" % EDITOR)
    return is_said and is_out and changed.read(output) == {"a": b"2\n", "b": b"1\n"}


def no_home(place):
    """Where no folder is the user's own, no plan is looked for in the current one, which may be a stranger's."""
    left, right = place.folder("left", {"a": b"1\n"}), place.folder("right", {"a": b"2\n"})
    state = place.folder(".local/state/gabrosty")
    os.chmod(state, 0o700)
    ends = [editor(place, "--output", right, right, left, *words, HOME=".", XDG_STATE_HOME="state") for words in ([], ["--undo"])]
    said = "%s: no plan can be kept in ./.local/state/gabrosty: HOME names no folder; XDG_STATE_HOME names another folder\n" % EDITOR
    return ends == [(1, said), (1, EDITOR + ": there is no writing that was cut off\n")] and changed.read(right) == {"a": b"2\n"}


def folders_of_half_a_path(place):
    """Where variables name folders by less than a whole path, no keys are taken from the current folder, which may be a stranger's, and no
    temporary file is made there."""
    left, right, half = place.folder("left", {"a": b"1\n"}), place.folder("right", {"a": b"2\n"}), {"HOME": ".", "TMPDIR": "own"}
    keys = {"keys": b"w c\n"}
    own, listed = place.folder("own", {"gabrosty/" + name: data for name, data in keys.items()}), os.path.join(place.top, "listed")
    place.folder(".config/gabrosty", keys)
    # the keys are such that the first one would accept, and the last one gives up
    for settings in "", "own":
        more = {**half, "SELECT_LAYER": "on", "XDG_CONFIG_HOME": settings}
        if place.type(["scm-select", "-o", left + "/a", left + "/a", right + "/a"], ["space", "w", "q", "enter"], **more)[0] != 1:
            return False
    status, _ = editor(place, "--output", right, right, left, MEANWHILE="ls '%s' > '%s'" % (own, listed), **half)
    with open(listed) as file:
        return (status, file.read()) == (0, "gabrosty\n") and changed.read(left) == {"a": b"1\n"} == changed.read(right)


# a host of the library, in which the user edits a message
HOST = """import sys
sys.path.append(sys.argv[1])
import scm
with scm.Session() as session:
    session.add_commit("before")
    session.add_texts("a", b"1\\n", b"2\\n")
    print(session.choose(), session.message())
"""


def a_message_in_another_host(place):
    """Where TMPDIR names a folder by less than its whole path, no host of the library makes a file in the current one, which may be a
    stranger's: the message is edited in a file of /tmp."""
    own, listed = place.folder("own"), os.path.join(place.top, "listed")
    editor = "sh -c 'printf %%s \"$0\" > %s; echo after > \"$0\"'" % listed
    command = [sys.executable, "-B", "-c", HOST, os.path.join(place.prefix, "lib/gabrosty")]
    for folder, where in (("own", "/tmp"), (own, own)):
        status, said = place.type(command, ["e", "c"], VISUAL=editor, TMPDIR=folder)
        made = changed.read_file(listed).decode()
        around = os.path.dirname(made)
        if (status, said.strip()) != (0, "accepted after") or os.path.dirname(around) != where or os.path.lexists(around):
            return False
    return os.listdir(own) == []


# an editor: it keeps a copy of what it had beside the file, as many do, while another user who saw the file's name puts a link there
COPIES = """import os, sys
path, victim, status = sys.argv[3], sys.argv[1], int(sys.argv[2])
stranger = os.fork()
if stranger == 0:
    os.setgid(65534), os.setuid(65534)
    try:
        os.symlink(victim, path + "~")
    except OSError:
        pass
    os._exit(0)
os.waitpid(stranger, 0)
with open(path + "~", "w") as copy, open(path, "r+") as file:
    copy.write(file.read())
    file.write("after\\n")
sys.exit(status)
"""


def what_an_editor_writes_beside_a_message(place):
    """Where all may put files, a message is edited in a folder that is the user's alone: no link leads away what an editor writes beside it.
    That is removed with the message, but stays if the editor fails. Skipped without the rights of two users."""
    if os.geteuid():
        return "that needs another user"
    os.chmod(place.top, 0o755)
    shared, victim = place.folder("shared"), os.path.join(place.folder("private", {"x": b"mine\n"}), "x")
    os.chmod(shared, 0o1777)
    script = os.path.join(place.folder("editor", {"copies": COPIES.encode()}), "copies")
    command = [sys.executable, "-B", "-c", HOST, os.path.join(place.prefix, "lib/gabrosty")]
    ends = []
    for status, accepted in (0, "accepted beforeafter"), (1, "accepted before"):
        visual = " ".join(map(shlex.quote, [sys.executable, script, victim, str(status)]))
        typed = Typed(command, 60, 24, {**place.environment, "VISUAL": visual, "TMPDIR": shared}, place.top)
        typed.write(b"e")
        if status:
            typed.wait_for(b"Press Enter")
            typed.write(b"\n")
        typed.wait_for_frames(2)
        typed.press("c")
        ends.append(typed.end() == 0 and typed.said().rstrip().endswith(accepted) and changed.read_file(victim) == b"mine\n")
        ends.append(len(os.listdir(shared)) == status)
    found = changed.read(shared)
    kept = [path for path in found if path.endswith("/message~")]
    return all(ends) and list(found.values()) == [b"before"] and kept == list(found) and os.stat(os.path.join(shared, os.listdir(shared)[0])).st_mode & 0o777 == 0o700


def another_folder_for_temporary_files(place):
    """Another folder of the user's, which someone put in the place of the program's own for temporary files while the user chooses, stays with
    all that is in it, and is named."""
    repository, ends = Repository(place, {"a": b"1\n"}, {"a": b"2\n"}), []
    left, right, shared = place.folder("left", {"a": b"1\n"}), place.folder("right", {"a": b"2\n"}), place.folder("shared")
    for call in (lambda **more: editor(place, "--output", right, right, left, **more)), (lambda **more: select(repository, **more)):
        mine = place.folder("shared/mine", {"b/c": b"mine\n"})
        exchange = 'cd "%s" && for made in *-select-* *-editor-*; do if [ -d "$made" ]; then mv "$made" moved && mv mine "$made" && break; fi; done' % shared
        said = call(TMPDIR=shared, MEANWHILE=exchange)[1]
        names = [name for name in os.listdir(shared) if name not in ("moved", "mine")]
        kept = [name for name in names if changed.read(os.path.join(shared, name)).get("b/c") == b"mine\n"]
        ends.append(not os.path.exists(mine) and len(kept) == 1 and "%s/%s stays: another folder is in its place\n" % (shared, kept[0]) in said)
        shutil.rmtree(shared)
        os.mkdir(shared)
    return all(ends)


def a_state_folder_of_a_clone(place):
    """Where XDG_STATE_HOME is a folder that a repository tracks, no plan in it is followed, though it fits in each part."""
    left, right = place.folder("left", {"a": b"1\n"}), place.folder("right", {"a": b"2\n"})
    repository = Repository(place, {"gabrosty/x": b"x\n"}, {"gabrosty/x": b"x\n"}, "clone")
    token, folder = "0" * 32, os.path.join(repository.folder, "gabrosty")
    spare = place.folder(".gabrosty-" + token, {"secret": token.encode(), "new-0": b"3\n"})
    sides = [digest_of(side) for side in (("100644", b"2\n"), ("100644", b"3\n"))]
    first = [right, os.stat(right).st_ino, "beside", os.path.basename(spare), token]
    written(os.path.join(folder, "%s-%s.plan" % (key_of(right), token)), [first, [os.stat(spare).st_ino, [["a", *sides]], []]])
    os.chmod(spare, 0o700)
    ends = [editor(place, left, right, *words, XDG_STATE_HOME=repository.folder) for words in (["--finish"], [])]
    named = "%s: no plan can be kept in %s: it is not yours alone, with mode 0700; XDG_STATE_HOME names another folder\n" % (EDITOR, folder)
    is_refused = ends == [(1, EDITOR + ": there is no writing that was cut off\n"), (1, named)] and changed.read(right) == {"a": b"2\n"}
    os.chmod(folder, 0o700)
    # so that all of it fitted
    is_followed = editor(place, left, right, "--finish", XDG_STATE_HOME=repository.folder)[0] == 0 and changed.read(right) == {"a": b"3\n"}
    return is_refused and is_followed


def a_home_of_another_user(place):
    """Root, with another user's HOME, makes nothing in it. Skipped without the rights of two users."""
    if os.geteuid():
        return "that needs another user"
    left, right, home = place.folder("left", {"a": b"1\n"}), place.folder("right", {"a": b"2\n"}), place.folder("home")
    os.chown(home, NOBODY, NOBODY)
    end = editor(place, "--output", right, right, left, HOME=home, XDG_STATE_HOME="")
    words = "%s: no plan can be kept in %s/.local/state/gabrosty: it lies in a folder of another user; XDG_STATE_HOME names another folder"
    refused = 1, words % (EDITOR, home) + "\n"
    is_left = end == refused and os.listdir(home) == []
    # neither in a folder of root's that a link of theirs leads to
    own = place.folder("own")
    os.symlink(own, home + "/.local")
    os.chown(home + "/.local", NOBODY, NOBODY, follow_symlinks=False)
    end = editor(place, "--output", right, right, left, HOME=home, XDG_STATE_HOME="")
    return is_left and end == refused and os.listdir(own) == [] and changed.read(right) == {"a": b"2\n"}


def a_plan_where_another_leads(place):
    """Root, with another user's HOME, or with a link of theirs on the way to the state folder, follows no plan that is found there, though it
    fits in each part. Skipped without the rights of two users."""
    if os.geteuid():
        return "that needs another user"
    left, right, home = place.folder("left", {"a": b"1\n"}), place.folder("right", {"a": b"2\n"}), place.folder("home")
    state, token = place.folder("own/state/gabrosty"), "0" * 32
    spare = place.folder("own/state/gabrosty/.gabrosty-" + token, {"secret": token.encode(), "new-0": b"3\n"})
    sides = [digest_of(side) for side in (("000000", b""), ("100644", b"3\n"))]
    first = [right, os.stat(right).st_ino, "kept", os.path.basename(spare), token]
    written(os.path.join(state, "%s-%s.plan" % (key_of(right), token)), [first, [os.stat(spare).st_ino, [["b", *sides]], []]])
    for folder in state, spare:
        os.chmod(folder, 0o700)
    link = os.path.join(home, ".local")
    os.symlink(os.path.join(place.top, "own"), link)
    ends = []
    for owner_of_home, owner_of_link in (NOBODY, NOBODY), (0, NOBODY), (NOBODY, 0), (0, 0):
        os.chown(home, owner_of_home, -1)
        os.chown(link, owner_of_link, -1, follow_symlinks=False)
        ends.append(editor(place, left, right, "--finish", HOME=home, XDG_STATE_HOME=""))
    refused = 1, EDITOR + ": there is no writing that was cut off\n"
    # the last one, so that all of it fitted
    return ends == [*[refused] * 3, (0, "written: b\n")] and changed.read(right) == {"a": b"2\n", "b": b"3\n"}


def a_race_for_a_new_folder(place):
    """Another user, who owns RIGHT, puts a link in the place of a folder just when it is made, which is to have the permissions that it
    had: those of the folder that the link leads to stay. Skipped without the rights of two users."""
    if os.geteuid():
        return "that needs another user"
    victim = place.folder("victim", {"private": b"mine\n"})
    os.chmod(victim, 0o700)
    os.chmod(place.top, 0o755)
    left, shared = place.folder("left", {"d/b": b"1\n"}), place.folder("shared")
    right = place.folder("shared/right")
    for folder in shared, right:
        os.chown(folder, NOBODY, NOBODY)
    ready = os.path.join(shared, "ready")
    race = subprocess.Popen([sys.executable, "-c", RACES, right, victim, ready, str(NOBODY), "d"])
    before = os.stat(victim).st_mode, os.listdir(victim), states_in(victim)
    try:
        while not os.path.exists(ready):
            time.sleep(0.01)
        for number in range(8):
            # the other user waits while the try itself empties the folder
            race.send_signal(signal.SIGSTOP)
            os.waitpid(race.pid, os.WUNTRACED)
            changed.write(right, {})
            race.send_signal(signal.SIGCONT)
            changed.write(left, {"d/e%d/b" % number: b"1\n"})
            editor(place, "--output", right, right, left)
    finally:
        race.kill()
        race.wait()
    return before == (os.stat(victim).st_mode, os.listdir(victim), states_in(victim))


def links_of_another_user(place):
    """A link or a file of another user, in a folder with a sticky bit that all may write to, is not followed and not written to: neither
    the last one of OUTPUT or RIGHT, nor one before it. Nor is such a link followed to read LEFT; a file of another user is read. One of the
    user's own is followed, and one of the folder's owner. Skipped without the right to give files away."""
    if os.geteuid():
        return "that needs another user"
    private, shared = place.folder("private", {"x": b"private\n"}), place.folder("shared", {"file": b"theirs\n"})
    os.chmod(shared, 0o1777)
    for name, target in (("link", private + "/x"), ("lost", private + "/y"), ("around", private)):
        os.symlink(target, os.path.join(shared, name))
        os.chown(os.path.join(shared, name), NOBODY, NOBODY, follow_symlinks=False)
    os.chown(shared + "/file", NOBODY, NOBODY)
    left, right = place.folder("left", {"x": b"1\n"}), place.folder("right", {"x": b"2\n"})
    files, words = (left + "/x", right + "/x"), "%s: %s: it is another user's, in a folder that others may write to\n"
    ends = []
    for name in "link", "lost", "around/z", "file":
        path = os.path.join(shared, name)
        ends.append(editor(place, "--output", path, *files) == (1, words % (EDITOR, path)))
        ends.append(editor(place, left + "/x", path) == (1, words % (EDITOR, path)))
    for path in shared + "/link", shared + "/around/x":
        ends.append(editor(place, path, files[1]) == (1, words % (EDITOR, path)))
    ends.append(editor(place, "--dry-run", shared + "/file", files[1])[0] == 0)
    around = shared + "/around"
    for given in (["--output", around, left, right], [left, around], [around, right]):
        ends.append(editor(place, *given) == (1, words % (EDITOR, around)))
    is_left = (changed.read(private), changed.read(right)) == ({"x": b"private\n"}, {"x": b"2\n"})
    os.symlink(private + "/x", shared + "/own")
    ends.append(editor(place, "--output", shared + "/own", *files)[0] == 0 and changed.read(private) == {"x": b"2\n"})
    os.chown(shared, NOBODY, NOBODY)
    ends.append(editor(place, "--output", shared + "/link", *files[::-1])[0] == 0 and changed.read(private) == {"x": b"1\n"})
    return all(ends) and is_left


# another user puts a file or a link where OUTPUT is to be, just before that is looked at
PUT_BY_ANOTHER = """from choosing import files
kept, (_, output, left, _) = files.Files.read, words
def read(self, path):
    if path == "output" and not os.path.lexists(output):
        os.symlink("/nowhere", output) if left.endswith("link") else os.close(os.open(output, os.O_CREAT))
        os.chown(output, 65534, 65534, follow_symlinks=False)
    return kept(self, path)
files.Files.read = read
"""


def links_where_a_group_may_write(place):
    """In a folder that a group may write to, without a sticky bit, a link of another user is not followed: not to OUTPUT, LEFT or RIGHT, nor to
    the files that --marks and commit.template name. A file of theirs is replaced, and a link of the folder's owner is followed. Skipped without
    the right to give files away."""
    if os.geteuid():
        return "that needs another user"
    private, shared = place.folder("private", {"x": b"private\n"}), place.folder("shared", {"file": b"theirs\n"})
    for name, target in (("link", private + "/x"), ("around", private)):
        os.symlink(target, os.path.join(shared, name))
    for name in "link", "around", "file":
        os.chown(os.path.join(shared, name), NOBODY, NOBODY, follow_symlinks=False)
    os.chmod(shared, 0o775)
    left, right = place.folder("left", {"x": b"1\n"}), place.folder("right", {"x": b"2\n"})
    files, link, around = (left + "/x", right + "/x"), shared + "/link", shared + "/around"
    refused, ends = "%s: %s: it is another user's, in a folder that others may write to\n", []
    for path in link, around + "/x":
        for given in (["--output", path, *files], [files[0], path], [path, files[1]]):
            ends.append(editor(place, *given) == (1, refused % (EDITOR, path)))
    for given in (["--output", around, left, right], [left, around], [around, right]):
        ends.append(editor(place, *given) == (1, refused % (EDITOR, around)))
    repository = Repository(place, {"a": b"1\n"}, {"a": b"2\n"})
    ends.append(select(repository, "--marks", link) == (1, refused % ("git-select", link)))
    repository.git("config", "commit.template", link)
    ends.append(select(repository, "--commit", GIT_EDITOR="false") == (1, refused % ("git-select", link)))
    is_left = (changed.read(private), changed.read(right)) == ({"x": b"private\n"}, {"x": b"2\n"})
    ends.append(editor(place, "--output", shared + "/file", *files)[0] == 0 and changed.read(shared)["file"] == b"2\n")
    os.chown(shared, NOBODY, NOBODY)
    ends.append(editor(place, "--output", link, *files)[0] == 0 and changed.read(private) == {"x": b"2\n"})
    return all(ends) and is_left


def links_in_a_folder_of_another_user(place):
    """In a folder that another user put into one that a group or all may write to, as in the place of the user's, a link is not followed: not to
    OUTPUT, LEFT or RIGHT, nor to the file that --marks names. A file there is replaced. Skipped without the right to give files away."""
    if os.geteuid():
        return "that needs another user"
    private, around, ends = place.folder("private", {"x": b"private\n"}), place.folder("around"), []
    theirs = {"link": ("link", private + "/x"), "around": ("link", private), "file": b"theirs\n", "below/link": ("link", private + "/x")}
    mine = place.folder("around/mine", theirs)
    for path in mine, mine + "/below", *(os.path.join(mine, name) for name in theirs):
        os.chown(path, NOBODY, NOBODY, follow_symlinks=False)
    left, right = place.folder("left", {"x": b"1\n"}), place.folder("right", {"x": b"2\n"})
    files, refused = (left + "/x", right + "/x"), "%s: %s: it is another user's, in a folder that others may write to\n"
    repository = Repository(place, {"a": b"1\n"}, {"a": b"2\n"})
    for mode in 0o775, 0o1777:
        os.chmod(around, mode)
        for path in (os.path.join(mine, name) for name in ("link", "around/x", "below/link", "below/../link")):
            for given in (["--output", path, *files], [files[0], path], [path, files[1]]):
                ends.append(editor(place, *given) == (1, refused % (EDITOR, path)))
            ends.append(select(repository, "--marks", path) == (1, refused % ("git-select", path)))
        # the user may have gone there by a name that was the user's
        for name in "link", "around/x", "below/../link":
            said = place.call(EDITOR, "--dry-run", name, files[1], folder=mine)
            ends.append(said == (1, refused % (EDITOR, name)))
        path = mine + "/around"
        for given in (["--output", path, left, right], [left, path], [path, right]):
            ends.append(editor(place, *given) == (1, refused % (EDITOR, path)))
    is_left = (changed.read(private), changed.read(right)) == ({"x": b"private\n"}, {"x": b"2\n"})
    ends.append(editor(place, "--output", mine + "/file", *files)[0] == 0 and changed.read(mine)["file"] == b"2\n")
    os.chmod(around, 0o755)
    ends.append(editor(place, "--output", mine + "/link", *files)[0] == 0 and changed.read(private) == {"x": b"2\n"})
    return all(ends) and is_left


# another user's link takes the place of the user's own, just before that is read
EXCHANGED = """kept = os.readlink
def readlink(path, **more):
    if more and os.path.lexists("theirs"):
        os.rename("theirs", "group/out")
    return kept(path, **more)
os.readlink = readlink
"""


def a_link_in_time(place):
    """The same of the diff editor, for OUTPUT and for a file that is read. Skipped without the right to give files away."""
    if os.geteuid():
        return "that needs another user"
    ends = []
    for words in ["--output", "group/out/x", "files/old", "files/new"], ["--dry-run", "group/out/x", "files/new"]:
        private, mine = (place.folder(name, {"x": b"1\n"}) for name in ("private", "mine"))
        group, _ = place.folder("group"), place.folder("files", {"old": b"1\n", "new": b"2\n"})
        os.chmod(group, 0o775)
        changed.write(group, {"out": ("link", mine)})
        os.symlink(private, place.top + "/theirs")
        os.chown(place.top + "/theirs", NOBODY, NOBODY, follow_symlinks=False)
        os.chmod(private, 0o700)
        status, said = edit_patched(place, EXCHANGED, *words)
        ends.append(changed.read(private) == {"x": b"1\n"} and not os.path.lexists(place.top + "/theirs") and (status, said[:3]) in ((0, ""), (0, "wou")))
    return all(ends) and changed.read(mine) == {"x": b"1\n"}


def a_file_of_another_user_in_time(place):
    """A file or a link that another user puts where OUTPUT is to be, in a folder that all may write to, is named, and stays. Skipped without
    the right to give files away."""
    if os.geteuid():
        return "that needs another user"
    shared, files = place.folder("shared"), place.folder("files", {"file": b"1\n", "link": b"1\n", "new": b"2\n"})
    os.chmod(shared, 0o1777)
    output = os.path.join(shared, "output")
    ends = []
    for name, is_kind in (("file", stat.S_ISREG), ("link", stat.S_ISLNK)):
        end = edit_patched(place, PUT_BY_ANOTHER, "--output", output, os.path.join(files, name), os.path.join(files, "new"))
        found = os.lstat(output)
        is_named = end == (1, "%s: %s: it is another user's, in a folder that others may write to\n" % (EDITOR, output))
        ends.append(is_named and is_kind(found.st_mode) and found.st_uid == NOBODY)
        os.unlink(output)
    return all(ends) and os.listdir(shared) == []


# another empty folder of the user's, which all may read, takes the place of the spare folder
READABLE = """sys.path.append(os.environ["PARENT"])
from choosing import spare
kept = os.mkdir
def mkdir(path, *more, **named):
    kept(path, *more, **named)
    if os.path.basename(path).startswith(".gabrosty-"):
        os.rmdir(path, **named)
        kept(path, 0o755, **named)
os.mkdir = mkdir
made = spare.Spare.begin
def begin(self, entries):
    print("it has mode %o" % (os.fstat(self.at).st_mode & 0o777), flush=True)
    made(self, entries)
spare.Spare.begin = begin
"""


def a_spare_folder_that_others_may_read(place):
    """Where another folder of the user's has the name of the spare folder, nobody else may read what comes and goes."""
    left, right = place.folder("left", {"a": b"1\n"}), place.folder("right", {"a": b"2\n"})
    status, said = edit_patched(place, READABLE, "--output", left, left, right)
    return status == 0 and said == "it has mode 700\n" and changed.read(left) == {"a": b"2\n"} and place.has_left_nothing()


def a_lock_that_is_a_pipe(place):
    """A pipe in the place of the lock of the index, to which nothing is written yet, is a lock of another program."""
    repository = Repository(place, {"a": b"1\n"}, {"a": b"2\n"})
    os.mkfifo(lock_of(repository))
    held = os.open(lock_of(repository), os.O_RDWR)
    end = select(repository)
    os.close(held)
    os.unlink(lock_of(repository))
    words = "git-select: %s is there: another git command is at work, or one was cut off\n"
    return end == (1, words % lock_of(repository)) and repository.is_sound()


def texts_of_many_megabytes(place):
    """A file of jj's words that is 30 MB long, and one with 500,000 ends of conflicts, are read in 200 MB of address space."""
    words, ends = b"w " * 15_000_000, b"<<<<<<<\n" + b">>>>>>>\n" * 500_000
    left, right = place.folder("left", {"a": b""}), place.folder("right", {"a": ends, "JJ-INSTRUCTIONS": words})
    limited = ["env", "SELECT=" + ACCEPTS["SELECT"], "sh", "-c", 'ulimit -v 200000; exec "$@"', "sh", EDITOR]
    status, said = place.call(*limited, "--dry-run", left, right)
    is_named = "a has conflict markers in RIGHT, lines 1 to 500001: choose all of them, or none\n" in said
    return status == 0 and is_named and said.endswith("would write nothing\n")



def a_repository_that_a_clone_tracks(place):
    """A folder of a clone has the files of a repository, with settings that name programs. In it, and below it, no way runs one: git takes no
    such folder for a repository, unless GIT_DIR names it. Skipped before git 2.38, which asks nobody about that."""
    ran = os.path.join(place.top, "ran")
    run = ("run", b"#!/bin/sh\ntouch %s\nexit 1\n" % ran.encode())
    settings = "[core]\n\trepositoryformatversion = 0\n\tbare = false\n\tworktree = ..\n\tfsmonitor = %s/run\n\thooksPath = %s\n" % (place.top, place.top)
    bare = {"bare/HEAD": b"ref: refs/heads/x\n", "bare/config": settings.encode(), "bare/objects/x": b"", "bare/refs/x": b""}
    changed.write(place.folder("programs"), {"run": run, "pre-commit": run})
    for name in "run", "pre-commit":
        os.rename(os.path.join(place.top, "programs", name), os.path.join(place.top, name))
    repository = Repository(place, {**bare, "a": b"1\n"}, {**bare, "a": b"2\n"})
    if repository.git("-c", "safe.bareRepository=explicit", "rev-parse", check=False) or not runs_in(repository, ran):
        return "git looks at no such setting, or does not run it"
    ways = [], ["--unstage"], ["--restore"], ["--stash"], ["--commit", "-m", "x"], ["--amend"], ["--split"], ["--undo"], ["--finish"]
    ends = []
    for folder in "bare", "bare/objects":
        for words in ways:
            status, said = place.call("git-select", *words, folder=os.path.join(repository.folder, folder))
            ends.append((status, os.path.exists(ran)) == (1, False) and "cannot use bare repository" in said)
    is_named = place.call("env", "GIT_DIR=.", "GIT_WORK_TREE=..", "git-select", folder=repository.folder + "/bare")
    return all(ends) and "cannot use bare repository" not in is_named[1]


def runs_in(repository, ran):
    """Whether git itself runs a program of the folder `bare`, and removes what shows that."""
    repository.place.call("git", "status", folder=repository.folder + "/bare")
    is_run = os.path.exists(ran)
    if is_run:
        os.unlink(ran)
    return is_run


ALL = (
    a_clone_with_a_plan, a_folder_with_a_plan, plans_that_are_malformed, what_is_kept_and_changed, a_plan_that_fits_to_nothing,
    what_another_user_left, where_no_plan_can_be_kept, bits_that_set_a_user, permissions_of_new_files, what_becomes_a_fifo,
    a_deep_folder, names_of_git_on_other_disks, a_spare_folder_that_stays, an_error_without_a_name, a_folder_that_others_write_into, two_files_that_are_cut_off,
    a_lock_that_is_killed, folders_that_undo_leaves, a_new_file_for_hg, links_that_hg_hands_in, a_folder_on_a_disk_of_its_own,
    a_race_by_another_user, names_like_ours_beside_the_index, marks_that_are_no_text, marks_in_what_is_no_file, named_files_through_links,
    paths_that_git_refuses, what_git_says_beside_its_editor, files_that_have_too_much_together, a_lock_that_was_copied,
    links_where_plans_are_kept, a_file_that_changes_unseen, no_home, folders_of_half_a_path,
    a_message_in_another_host, what_an_editor_writes_beside_a_message,
    another_folder_for_temporary_files, a_home_of_another_user, a_plan_where_another_leads, a_state_folder_of_a_clone, a_race_for_a_new_folder,
    links_of_another_user, links_where_a_group_may_write, links_in_a_folder_of_another_user, a_link_in_time, a_file_of_another_user_in_time, a_spare_folder_that_others_may_read, a_lock_that_is_a_pipe,
    texts_of_many_megabytes, characters_that_disks_leave_out, a_repository_that_a_clone_tracks,
)
