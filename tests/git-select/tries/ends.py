"""How git-select ends: what it leaves out, what it refuses, and what it keeps."""
import contextlib
import os
import shlex
import shutil
import signal
import subprocess
import time

from made import (
    ENVIRONMENT, PROGRAM, VERSION, Typed, called, commit, git, is_as_added, kept_marks, objects, staged, typed_into, write,
)

from apart import without_rights


def takes_up(marks, words):
    """Whether git-select stages what is marked in the kept file `marks`, and says each of `words`."""
    status, said = typed_into(["c"], ["--marks", marks])
    os.remove(marks)
    return status == 0 and all(word in said for word in words)


def changed_meanwhile():
    """A file that changes while the user chooses: it is named, nothing is staged, and the other file's marks are kept."""
    for path in ("a.txt", "b.txt"):
        write(path, b"one\n")
    commit()
    for path in ("a.txt", "b.txt"):
        write(path, b"one\ntwo\n")
    status, said = typed_into(["a", "c"], (), lambda: write("b.txt", b"one\ntwo\nthree\n"))
    is_refused = status == 1 and "git-select: b.txt changed meanwhile: nothing was staged\n" in said and not staged()
    marks = kept_marks()
    is_told = len(marks) == 1 and "git-select --marks %s\n" % shlex.quote(marks[0]) in said
    is_taken_up = is_told and takes_up(marks[0], ["b.txt has changed: its marks are not taken up\n", "staged: a.txt\n"])
    return is_refused and is_taken_up and staged("--name-only") == "a.txt\n"


def an_index_that_changed():
    """The index changes while the user chooses."""
    write("a.txt", b"one\n")
    commit()
    write("a.txt", b"one\ntwo\n")
    status, said = typed_into(["a", "c"], (), lambda: git("add", "a.txt"))
    return status == 1 and "git-select: a.txt changed meanwhile: nothing was staged\n" in said and len(kept_marks()) == 1


def an_index_that_is_locked():
    """Before the user chooses it is refused at once; after that the marks are kept."""
    write("a.txt", b"one\n")
    lock = os.path.join(".git", "index.lock")
    status, said = typed_into(["a", "c"], (), lambda: write(lock, b""))
    is_refused = status == 1 and "index.lock" in said and not git("ls-files")
    early = called()
    os.remove(lock)
    is_early = early[0] == 1 and "index.lock is there" in early[1]
    return is_refused and is_early and takes_up(kept_marks()[0], ["staged: a.txt\n"]) and git("ls-files") == "a.txt\n"


def an_output_that_is_full():
    """The files are staged, and it is said that their names cannot be written."""
    write("a.txt", b"one\n")
    status, said = typed_into(["a", "c"], command=["sh", "-c", 'exec "$0" > /dev/full', PROGRAM])
    return status == 1 and "its names cannot be written" in said and "Traceback" not in said and git("ls-files") == "a.txt\n"


def an_output_in_ascii():
    """Names that the output cannot have are written out."""
    write("日本", b"one\n")
    status, said = typed_into(["a", "c"], PYTHONIOENCODING="ascii")
    return status == 0 and "staged: \\u65e5\\u672c\n" in said and is_one_file("日本")


def is_one_file(path):
    return git("ls-files", "-z") == path + "\0"


def in_conflict():
    """A file in conflict is left out by its name; another one is staged."""
    write("a.txt", b"one\n")
    write("b.txt", b"one\n")
    commit()
    git("checkout", "--quiet", "-b", "other")
    write("a.txt", b"two\n")
    commit()
    git("checkout", "--quiet", "-")
    write("a.txt", b"three\n")
    commit()
    git("merge", "other")
    write("b.txt", b"two\n")
    status, said = typed_into(["a", "c"])
    is_left_out = status == 0 and said.count("git-select: a.txt is left out: it is in conflict\n") == 1
    return is_left_out and len(git("ls-files", "--unmerged").splitlines()) == 3 and git("show", ":b.txt") == "two\n"


def what_is_no_file():
    """A file that became a FIFO is left out by its name."""
    for path in ("a.txt", "b.txt"):
        write(path, b"one\n")
    commit()
    os.remove("a.txt")
    os.mkfifo("a.txt")
    write("b.txt", b"two\n")
    status, said = typed_into(["a", "c"])
    is_left_out = "git-select: a.txt is left out: it is neither a file nor a link\n" in said
    return status == 0 and is_left_out and git("show", ":a.txt") + git("show", ":b.txt") == "one\ntwo\n"


def what_cannot_be_read():
    """A file and a folder that nobody may read are named, and others are staged. Skipped where all may be read."""
    for path in ("a", "b", "c/d", "e"):
        write(path, b"one\n")
    before = without_rights()
    if before is None:
        return None
    os.chmod("b", 0)
    os.chmod("c", 0)
    status, said = typed_into(["a", "c"], command=[*before, PROGRAM])
    os.chmod("c", 0o755)
    is_named = "git-select: b is left out: " in said and "'c/': Permission denied" in said
    return status == 0 and is_named and git("ls-files").split() == ["a", "e"]


def what_git_cannot_convert():
    """A file whose filter fails is named, and others are staged."""
    write(".gitattributes", b"*.bad filter=bad\n")
    git("config", "filter.bad.clean", "false")
    git("config", "filter.bad.required", "true")
    for path in ("a", "b.bad", "c"):
        write(path, b"one\n")
    status, said = typed_into(["a", "c"])
    is_named = "git-select: b.bad is left out: " in said
    return status == 0 and is_named and git("ls-files").split() == [".gitattributes", "a", "c"]


def given_up():
    """A quit stages nothing and stores nothing, also where no commit is there yet."""
    write("a.txt", b"one\n")
    before = objects()
    status, said = typed_into(["q"])
    return status == 1 and said.endswith("git-select: nothing changed\n") and not git("ls-files") and objects() == before


def nothing_is_marked():
    write("a.txt", b"one\n")
    before = objects()
    status, said = typed_into(["c"])
    return status == 0 and "nothing was marked, and nothing was staged\n" in said and not git("ls-files") and objects() == before


def something_is_staged_already():
    """The ending of each option says what this call did not do, and no more."""
    write("a.txt", b"one\n")
    commit()
    write("a.txt", b"two\n")
    git("add", "a.txt")
    write("a.txt", b"three\n")
    ends = []
    for option, done in (None, "staged"), ("--unstage", "unstaged"), ("--restore", "restored"), ("--commit", "committed"):
        given_up, unmarked = (typed_into([key], [option] if option else []) for key in ("q", "c"))
        ends.append(given_up[0] == 1 and given_up[1].endswith("git-select: nothing changed\n"))
        ends.append(unmarked[0] == 0 and unmarked[1].endswith("nothing was marked, and nothing was %s\n" % done))
    write("a.txt", b"two\n")
    only_staged = called("--commit")
    is_told = only_staged[0] == 0 and only_staged[1].endswith("beside what is staged: git commit commits that\n")
    return all(ends) and is_told and git("show", ":a.txt") == "two\n"


def a_title_that_says_what_is_done():
    """The screen is the same for each option, so the window's title says of how many files something is chosen, and what `c` does."""
    for path in ("a.txt", "b.txt", "c.txt"):
        write(path, b"one\n")
    commit()
    for path in ("a.txt", "b.txt", "c.txt"):
        write(path, b"two\n")
    git("add", "c.txt")
    ends = []
    for option, words in (
        ("--restore", b"2 files, c takes back what is marked"),
        ("--unstage", b"1 file, c takes what is marked out of the index"),
        ("--commit", b"2 files, c commits what is marked, with 1 file staged before"),
    ):
        typed = Typed([PROGRAM, option], 60, 24, ENVIRONMENT)
        typed.press("q")
        ends.append(b"\x1b]2;git-select: " + words + b" (? for help)\x1b\\" in typed.seen)
        typed.end()
    return all(ends)


def a_line_while_it_reads():
    """A filter is slow: a line says what the user waits for, and is gone when the screen comes."""
    write(".gitattributes", b"* filter=slow\n")
    git("config", "filter.slow.clean", "sleep 1; cat")
    write("a.txt", b"one\n")
    typed = Typed([PROGRAM], 60, 24, ENVIRONMENT)
    before = typed.seen.split(b"\x1b[?1049h")[0]
    typed.press("q")
    is_ended = typed.end() == 1
    return is_ended and b"looking for changes .." in before and b"reading 2 files ..\r\x1b[K" in before


@contextlib.contextmanager
def heard(number):
    """Programs that are begun here hear this signal, also if those of the caller do not."""
    before = signal.signal(number, signal.SIG_DFL)
    yield
    signal.signal(number, before)


def is_ended_by(number, end):
    """Whether `end`, called while the user chooses, ends git-select by this signal, and no file stays."""
    write("a.txt", b"one\n")
    with heard(number):
        typed = Typed([PROGRAM], 60, 24, ENVIRONMENT)
    typed.press("a")
    end(typed)
    status = os.waitstatus_to_exitcode(os.waitpid(typed.process, 0)[1])
    return status == -number and kept_marks() == [] and not git("ls-files")


def a_signal_to_end():
    """TERM: no file stays, and the main screen is shown again."""
    seen = []

    def end(typed):
        os.kill(typed.process, signal.SIGTERM)
        while typed.read():
            pass
        seen.append(typed.seen)

    return is_ended_by(signal.SIGTERM, end) and seen[0].rfind(b"\x1b[?1049l") > seen[0].rfind(b"\x1b[?1049h")


def a_terminal_that_is_gone():
    """HUP: no file stays."""
    return is_ended_by(signal.SIGHUP, lambda typed: os.close(typed.terminal))


def ctrl_c_while_it_reads():
    """Before anything is shown: no file stays, and no word is said."""
    write(".gitattributes", b"* filter=slow\n")
    git("config", "filter.slow.clean", "touch started; sleep 60")
    environment = {**os.environ, **ENVIRONMENT}
    with heard(signal.SIGINT):
        process = subprocess.Popen([PROGRAM], env=environment, stderr=subprocess.PIPE, start_new_session=True)
    while not os.path.exists("started"):
        time.sleep(0.01)
    os.killpg(process.pid, signal.SIGINT)
    _, said = process.communicate(timeout=60)
    return process.returncode == -signal.SIGINT and said == b"" and kept_marks() == []


def a_front_end_that_is_not_there():
    write("a.txt", b"one\n")
    lost, broken = called(SELECT="/nowhere/select"), called(SELECT="'")
    is_lost = lost == (1, "git-select: the front end cannot be run: /nowhere/select: No such file or directory\n")
    return is_lost and broken[0] == 1 and broken[1].startswith("git-select: SELECT ") and broken[1].count("\n") == 1


def what_is_asked_for():
    """Help, the version, and nothing to do have status 0; what there is not is named."""
    write(".gitignore", b"empty/\n")
    commit()
    nothing = 0, "git-select: there is nothing to stage\n"
    is_told = called("--help")[1].startswith("usage: git-select ") and called("--version") == (0, "git-select %s\n" % VERSION)
    is_nothing = called() == called(".gitignore") == called("--", ".") == called(".", ":!nowhere") == nothing
    lost = [called("nowhere"), called("--", "-x"), called("*.c"), called(".gitignore", ":/nowhere")]
    is_lost = all(status == 1 and "did not match any file" in said for status, said in lost)
    status, said = called("--nothing")
    return is_told and is_nothing and is_lost and status == 2 and "unrecognized arguments: --nothing" in said


def calls_of_git(count):
    """Returns how often git is called to stage all of `count` files, of which half are new, or 0 if they are not staged."""
    names = ["%d.txt" % number for number in range(count)]
    for name in names[::2]:
        write(name, name.encode() + b"\n")
    commit()
    for name in names:
        write(name, name.encode() + b"\nmore")
    folder = os.path.abspath(os.path.join(".git", "calls"))
    script = '#!/bin/sh\necho "$*" >> %s\nexec %s "$@"\n' % (shlex.quote(folder + "/list"), shlex.quote(shutil.which("git")))
    write(os.path.join(folder, "git"), script.encode(), 0o755)
    status, _ = typed_into(["a", "c"], PATH=folder + os.pathsep + os.environ["PATH"])
    with open(os.path.join(folder, "list")) as file:
        calls = len(file.readlines())
    os.remove(os.path.join(folder, "list"))
    return calls if status == 0 and is_as_added() else 0


def as_few_calls_for_many_files():
    """Git is called no more often for many files than for few."""
    return calls_of_git(4) == calls_of_git(300) > 0


TRIES = (
    changed_meanwhile, an_index_that_changed, an_index_that_is_locked, an_output_that_is_full, an_output_in_ascii,
    in_conflict, what_is_no_file, what_cannot_be_read, what_git_cannot_convert, given_up, nothing_is_marked,
    something_is_staged_already, a_title_that_says_what_is_done, a_line_while_it_reads, a_signal_to_end,
    a_terminal_that_is_gone, ctrl_c_while_it_reads, a_front_end_that_is_not_there, what_is_asked_for,
    as_few_calls_for_many_files,
)
