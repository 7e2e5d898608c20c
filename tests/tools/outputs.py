"""git-select where what it says cannot be written, or where it is stopped by what nobody thought of, for tools/dev/try-tools."""
import ast
import contextlib
import os
import re
import shutil
import signal
import subprocess
import sys

import changed
import trying
from faults import ACCEPTS, Copies, lock_of, points, seen, select
from places import Repository
from settings import write_hook

OLD, NEW = {"a": b"1\n", "b": b"1\n"}, {"a": b"2\n"}
# the words of each way, and by its name what its sources say is written
WAYS = {
    "Stage": [], "Unstage": ["--unstage"], "Restore": ["--restore"], "Stash": ["--stash"], "Commit": ["--commit", "-m", "x"],
    "Amend": ["--amend"], "Fixup": ["--fixup", "HEAD"], "Split": ["--split", "a"],
}
STRACE = shutil.which("strace")


@contextlib.contextmanager
def outputs(words):
    """Gives where standard output and standard error go: `full`, `gone` (nobody reads it) or `kept` for each."""
    with contextlib.ExitStack() as stack:
        found = []
        for word in words:
            reads, writes = os.pipe()
            os.close(reads)
            files = {"full": "/dev/full", "gone": writes, "kept": os.devnull}
            found.append(stack.enter_context(open(files[word], "w", closefd=True)))
            if word != "gone":
                os.close(writes)
        yield found


def run_into(repository, words, outputs):
    """Runs git select with these outputs. Returns its status."""
    environment = {**os.environ, **repository.place.environment, **ACCEPTS}
    how = {"stdin": subprocess.DEVNULL, "stdout": outputs[0], "stderr": outputs[1], "timeout": 120}
    command = [os.path.join(repository.place.prefix, "bin", "git-select"), *words]
    return subprocess.run(command, cwd=repository.folder, env=environment, start_new_session=True, **how).returncode


def is_whole(repository, wanted):
    """Whether all is as `wanted` says, and nothing is wrong with the repository."""
    is_free = not os.path.exists(lock_of(repository)) and ".choosing" not in "".join(os.listdir(repository.folder))
    return seen(repository) in wanted and is_free and not repository.git("fsck", "--strict", "--no-dangling")


def each_output(place):
    """For each way: standard error, standard output or both are full, or nobody reads them. All is done then: what cannot be said
    stops nothing. Only a restore stops first, if the names of what files had cannot be printed."""
    for name, words in WAYS.items():
        copies = Copies(place, words, OLD, NEW)
        before, after, _ = copies.ends("none")
        for end in ("kept", "full"), ("kept", "gone"), ("full", "kept"), ("gone", "kept"), ("full", "full"), ("gone", "gone"):
            repository = copies.copy("%s-%s" % end)
            with outputs(end) as files:
                status = run_into(repository, words, files)
            is_refused = name == "Restore" and end[0] != "kept"
            if not is_whole(repository, [before if is_refused else after]) or status != (end[0] != "kept"):
                print("%s, %s: status %s, %s" % (name, end, status, seen(repository)))
                return False
            shutil.rmtree(repository.folder)
        for name in "first", "whole":
            shutil.rmtree(os.path.join(place.top, name))
    place.forget_marks()
    return place.has_left_nothing()


def failing(repository, words, number):
    """Runs git select, where write number `number` of what it says fails, and returns its status, and whether there are so many."""
    said, log = repository.folder + ".said", repository.folder + ".log"
    inject = ["-e", "inject=write:error=ENOSPC:when=%d" % number]
    command = [STRACE, "-f", "-o", log, "-P", said, "-e", "trace=write", *inject]
    environment = {**os.environ, **repository.place.environment, **ACCEPTS}
    with open(said, "w") as file:
        how = {"stdin": subprocess.DEVNULL, "stdout": file, "stderr": file, "timeout": 120}
        program = os.path.join(repository.place.prefix, "bin", "git-select")
        status = subprocess.run([*command, program, *words], cwd=repository.folder, env=environment, **how).returncode
    with open(log) as file:
        return status, "INJECTED" in file.read()


def each_write_of_output(place):
    """For each way: each write of what is said fails in turn. All is done, or nothing, and never a commit without its index. Skipped
    where no program can be traced."""
    if not STRACE or subprocess.run([STRACE, "-o", os.devnull, "true"], stderr=subprocess.DEVNULL).returncode:
        return "there is no strace that works"
    for words in WAYS.values():
        copies = Copies(place, words, OLD, NEW)
        before, after, _ = copies.ends("none")

        def is_well(number):
            repository = copies.copy("write-%d" % number)
            status, is_there = failing(repository, words, number)
            is_right = is_whole(repository, [after] if status == 0 or words != ["--restore"] else [before, after])
            if not is_right:
                print("write %d of %s: status %s, %s" % (number, words, status, seen(repository)))
            shutil.rmtree(repository.folder)
            return is_right, is_there

        ends = list(trying.pool.map(is_well, range(1, 7)))
        for name in "first", "whole":
            shutil.rmtree(os.path.join(place.top, name))
        if not all(is_right for is_right, _ in ends) or not ends[0][1] or ends[-1][1]:
            return False
    place.forget_marks()
    return True


def the_order_of_writes(place):
    """The table of docs/WRITES.md has for each way what the table of the ways says that it writes, in this order. Each option has a row of
    its own there."""
    code = "import options as o, ways; them = [ways.Stage, *(o.class_of(it.way) for it in o.OPTIONS if it.way and '.' in it.way)]; " \
        "assert all(it.use is ways.USES[it.__name__] for it in them); print({it.__name__: it.use.writes for it in them})"
    folder = os.path.join(place.prefix, "lib/gabrosty")
    where = {**os.environ, "PYTHONPATH": os.pathsep.join((os.path.join(folder, "git-select"), folder)), "PYTHONDONTWRITEBYTECODE": "1"}
    said = subprocess.run([sys.executable, "-c", code], env=where, stdout=subprocess.PIPE, check=True).stdout.decode()
    page = (trying.ROOT / "docs/WRITES.md").read_text()
    rows = re.findall(r"^\| [^|]* \| `(\w+)` \| ([^|]*) \|", page, re.M)
    told = {name: row.split(", ") for name, row in rows}
    return told.keys() == WAYS.keys() and told == ast.literal_eval(said)


def more_staged_behind_a_commit(place):
    """A hook behind the commit stages more: HEAD is the commit, which nobody moved, and the index has what is staged."""
    for words in ["--commit", "-m", "x"], ["--amend"], ["--fixup", "HEAD"]:
        repository = Repository(place, OLD, NEW, "behind" + words[0])
        write_hook(repository, "post-commit", "echo 3 > c\ngit add c\n")
        status, said = select(repository, *words)
        is_said = status == 0 and "committed: a\n" in said and "moved HEAD" not in said and "a hook changed" not in said
        if not is_said or repository.git("status", "--porcelain") != "A  c\n" or not repository.is_sound():
            return False
        # git is cut off by it, too
        write_hook(repository, "post-commit", "echo 4 > d\ngit add d\nkill -TERM $PPID\nsleep 1\n")
        changed.write_file(os.path.join(repository.folder, "a"), b"5\n")
        status, said = select(repository, *words, "a")
        is_said = status == 0 and "moved HEAD" not in said
        if not is_said or repository.git("status", "--porcelain") not in ("A  d\n", "AM d\n", "A  c\nA  d\n") or not repository.is_sound():
            print(status, said, repository.git("status", "--porcelain"))
            return False
    return True


def texts_in_another_encoding(place):
    """A branch, a last subject and a message that are no UTF-8, and settings of other encodings: each way does its work, or says in a
    line why not."""
    for encoding in None, "ISO-8859-1", "UTF-16":
        for words in WAYS.values():
            repository = Repository(place, OLD, NEW, "encoding")
            repository.git("symbolic-ref", "HEAD", "refs/heads/\udce4st")
            tree = repository.git("write-tree").strip()
            first = repository.git("commit-tree", tree, given=b"first\n").strip()
            last = repository.git("commit-tree", tree, "-p", first, given=b"\xe4 subject\n\n\xff\n").strip()
            repository.git("update-ref", "HEAD", last)
            if encoding:
                repository.git("config", "i18n.logOutputEncoding", encoding)
            if words == ["--unstage"]:
                repository.git("add", "--all")
            status, said = select(repository, *words)
            is_told = status == 0 or words[:1] == ["--split"] and said.count("\n") == 1
            if not is_told or "Traceback" in said or "a fault of" in said or not repository.is_sound():
                print(words, encoding, status, said)
                return False
            shutil.rmtree(repository.folder)
    return True


PATCHED = "import os, runpy, shutil, sys; program, patch, *words = sys.argv[1:]; " \
    "sys.path[:0] = [os.path.dirname(os.path.realpath(program)), os.environ['PARENT']]; exec(patch); " \
    "sys.argv = [program, *words]; runpy.run_path(program, run_name='__main__')"


def select_patched(repository, patch, *words):
    """Runs git select, of which the statement `patch` changes a part. Returns its status, and all that it wrote."""
    place = repository.place
    program, parent = os.path.join(place.prefix, "bin", "git-select"), os.path.join(place.prefix, "lib/gabrosty")
    environment = {**os.environ, **place.environment, **ACCEPTS, "PARENT": parent}
    how = {"stdin": subprocess.DEVNULL, "stdout": subprocess.PIPE, "stderr": subprocess.STDOUT, "env": environment}
    command = [sys.executable, "-I", "-c", PATCHED, program, patch, *words]
    done = subprocess.run(command, cwd=repository.folder, start_new_session=True, **how)
    return done.returncode, done.stdout.decode()


def a_fault_of_the_program(place):
    """What nobody thought of is one line: the step, the place, and what holds. The marks are kept if nothing is done."""
    repository = Repository(place, {"a": b"1\n"}, {"a": b"2\n"})
    before, ends = repository.index(), []
    for words, holds, is_kept in (
        ([], ": nothing was staged\n", True),
        (["--commit", "-m", "x"], "it is committed, but the index stays as it was (git reset mends that): a fault of", False),
    ):
        status, said = select_patched(repository, "import lock; lock.Lock.keep = lambda *_: {}[1]", *words)
        is_said = "a fault of this program at the step \"" in said and "KeyError: 1" in said and holds in said
        ends.append(status == 1 and is_said and "Traceback" not in said and not os.path.exists(lock_of(repository)))
        marks = [name for name in os.listdir(place.temporary) if name.endswith(".marks")]
        ends.append(bool(marks) == is_kept and repository.index() == before)
        place.forget_marks()
    # as it is shown, nothing is chosen yet
    status, said = select_patched(repository, "import sides; sides.changed_in_tree = None; import ways; ways.changed_in_tree = None")
    ends.append(status == 1 and said.count("\n") == 1 and "at the step \"looking for changes\"" in said)
    return all(ends) and repository.is_sound()


# a function of `os` that fails at what `{0}` says of a path
FAILS = """kept = os.{1}
def fails(path, *more, **named):
    if {0}:
        raise OSError(39, "Directory not empty")
    return kept(path, *more, **named)
os.{1} = fails
"""


def a_cleanup_that_fails(place):
    """A temporary folder, or the lock, cannot be removed: it is named, and what is done stays done."""
    for name, patch in (
        ("git-select-", FAILS.format("os.path.basename(path).startswith('git-select-')", "rmdir")),
        (".lock", FAILS.format("os.fsdecode(path).endswith('.lock')", "unlink")),
    ):
        for words, done in ([], "staged: a"), (["--commit", "-m", "x"], "committed: a"), (["--restore"], "restored: a"):
            repository = Repository(place, {"a": b"1\n"}, {"a": b"2\n"})
            status, said = select_patched(repository, patch, *words)
            is_said = done in said and name in said and " stays: Directory not empty\n" in said and "nothing was" not in said
            if status or not is_said or repository.git("diff", "--name-only"):
                print(status, said)
                return False
            shutil.rmtree(repository.folder)
    for name in os.listdir(place.temporary):
        shutil.rmtree(os.path.join(place.temporary, name))
    return True


def is_free_again(copies, before, after, point):
    """Whether a kill at a line of lock.py leaves the index as it was or is to be, and nothing that --undo does not remove."""
    repository = copies.copy("lock-%d" % point)
    points(repository, "lock.py", copies.words, signal.SIGKILL, point)
    is_right = seen(repository) in (before, after)
    if os.path.exists(lock_of(repository)):
        is_told = "git select --undo removes it" in select(repository)[1]
        is_right = is_told and select(repository, "--undo") == (0, "") and is_right
    # the next call removes what lies beside the index
    changed.write_file(os.path.join(repository.folder, "more"), b"1\n")
    is_right = is_right and select(repository)[0] == 0
    names = os.listdir(os.path.dirname(lock_of(repository)))
    is_right = is_right and not [name for name in names if name.startswith(("index.", "git-select"))]
    if not is_right:
        print("KILL at %d of lock.py: %s" % (point, names))
    shutil.rmtree(repository.folder)
    return is_right


def a_lock_that_is_left(place):
    """KILL at each line around the lock, also while the new index is written: the lock is known whenever it is there, and --undo removes
    it."""
    copies = Copies(place, [], OLD, NEW)
    before, after, count = copies.ends("lock.py")
    is_right = count > 40 and copies.each(lambda point: is_free_again(copies, before, after, point), count)
    for name in os.listdir(place.temporary):
        path = os.path.join(place.temporary, name)
        shutil.rmtree(path) if os.path.isdir(path) else os.unlink(path)
    return is_right


def a_template_that_is_not_there(place):
    """The setting is named, and the first part of its path that is not there."""
    repository = Repository(place, OLD, NEW)
    repository.git("config", "commit.template", "no/such/file")
    status, said = select(repository, "--commit")
    return status == 1 and "commit.template" in said and "/no: No such file" in said and said.count("\n") == 1


def what_is_staged_before(place):
    """A commit takes along what is staged: its files are named first, the last row has their number, and each is reported."""
    repository = Repository(place, {"a": b"1\n", "b": b"1\n", "c": b"1\n"}, {"a": b"2\n", "b": b"2\n", "c": b"2\n"})
    repository.git("add", "b", "c")
    script, row = os.path.join(place.top, "row"), os.path.join(place.top, "words")
    changed.write_file(script, b'#!/bin/sh\necho "$SELECT_ACCEPT" > "$ROW"\nexec "$NEXT" "$@"\n')
    os.chmod(script, 0o755)
    for words, verb in (["--amend"], "amends"), (["--fixup", "HEAD"], "commits a fixup"), (["--commit", "-m", "x"], "commits"):
        status, said = select(repository, *words, SELECT=script, ROW=row, NEXT=ACCEPTS["SELECT"])
        is_row = changed.read_file(row) == b"c %s, with 2 files staged before\n" % verb.encode()
        is_named = "git-select: staged before, and committed too: b, c\n" in said
        is_done = "committed: a\ncommitted: b, staged before\ncommitted: c, staged before\n" in said
        if status or not (is_row and is_named and is_done):
            print(status, said)
            return False
        repository.git("reset", "--quiet", "--hard", "HEAD" if words == ["--amend"] else "HEAD^")
        changed.write(repository.folder, {"a": b"3\n", "b": b"3\n", "c": b"3\n"})
        repository.git("add", "b", "c")
    return repository.is_sound()


ALL = (
    each_output, each_write_of_output, the_order_of_writes, more_staged_behind_a_commit, texts_in_another_encoding,
    a_fault_of_the_program, a_cleanup_that_fails, a_lock_that_is_left, a_template_that_is_not_there, what_is_staged_before,
)
