"""git-select where a hook, a signal, a race or a loss of power meets what it writes, for tools/dev/try-tools."""
import json
import os
import shutil
import signal
import subprocess
import time

import changed
import trying
from places import Repository
from settings import WORDS, each_way, write_hook

HERE = os.path.dirname(os.path.abspath(__file__))
ALL_CHOSEN, END_AT = os.path.join(HERE, "choose-all"), os.path.join(HERE, "end-at")
ACCEPTS = {"SELECT": ALL_CHOSEN}


def select(repository, *words, **more):
    """Runs git select, where all is marked and accepted without a terminal. Returns its status, and all that it wrote."""
    environment = {**os.environ, **repository.place.environment, **ACCEPTS, **more}
    how = {"stdout": subprocess.PIPE, "stderr": subprocess.STDOUT, "stdin": subprocess.DEVNULL, "timeout": 120}
    done = subprocess.run(["git", "select", *words], cwd=repository.folder, env=environment, start_new_session=True, **how)
    return done.returncode, os.fsdecode(done.stdout)


def lock_of(repository):
    return os.path.join(repository.folder, ".git", "index.lock")


def a_hook_that_removes_the_lock(place):
    """The lock is taken again, and the index is that of the commit. If another has the lock by then, it is said that the commit
    is made, and that lock stays."""
    repository = Repository(place, {"a": b"1\n"}, {"a": b"2\n"})
    write_hook(repository, "pre-commit", "rm .git/index.lock\n")
    ends = [select(repository, "--commit", "-m", "x")[0] == 0 and repository.git("status", "--porcelain") == ""]
    write_hook(repository, "pre-commit", "rm .git/index.lock\ntouch .git/index.lock\n")
    changed.write(repository.folder, {"a": b"3\n"})
    status, said = select(repository, "--commit", "-m", "y")
    ends.append(status == 1 and "it is committed, but the index stays as it was (git reset mends that): " in said)
    ends.append("nothing was committed" not in said and os.path.exists(lock_of(repository)))
    os.unlink(lock_of(repository))
    ends.append(repository.git("show", "HEAD:a", ":a") == "3\n2\n")
    # with the lock the index was written too
    write_hook(repository, "pre-commit", "rm .git/index.lock\nenv -u GIT_INDEX_FILE git update-index --chmod=+x a\n")
    repository.git("reset", "--quiet")
    changed.write(repository.folder, {"a": b"4\n"})
    status, said = select(repository, "--commit", "-m", "z")
    ends.append(status == 1 and "it is committed, but the index stays" in said and not os.path.exists(lock_of(repository)))
    ends.append(repository.git("ls-files", "--stage", "a").startswith("100755 ") and repository.git("show", "HEAD:a") == "4\n")
    return all(ends) and repository.is_sound()


def a_hook_that_moves_the_last_commit(place):
    """A hook refuses, and moves HEAD itself, also to the very files that were asked for: nothing was committed. If a hook behind
    the commit moves it, that is said."""
    ends = []
    for tree in "HEAD^{tree}", "$(git write-tree)":
        repository = Repository(place, {"a": b"1\n"}, {"a": b"2\n"}, "repository-%d" % len(ends))
        before = repository.index()
        write_hook(repository, "pre-commit", "git update-ref HEAD $(git commit-tree -m other -p HEAD %s)\nexit 1\n" % tree)
        status, said = select(repository, "--commit", "-m", "x")
        place.forget_marks()
        moved = ", and something else moved HEAD to %s: nothing was committed\n" % repository.git("rev-parse", "HEAD")[:10]
        ends.append(status == 1 and "git-select: git did not commit" + moved in said and repository.index() == before)
        os.unlink(os.path.join(repository.folder, ".git", "hooks", "pre-commit"))
        repository.git("reset", "--quiet", "--soft", "HEAD^")
        write_hook(repository, "post-commit", "git update-ref HEAD $(git commit-tree -m other -p HEAD HEAD^^{tree})\n")
        status, said = select(repository, "--commit", "-m", "x")
        ends.append(status == 1 and "it is committed, but something moved HEAD behind that" in said and "nothing" not in said)
        ends.append(repository.git("log", "--format=%s") == "other\nx\nbase\n" and repository.git("show", ":a") == "2\n")
    return all(ends) and repository.is_sound()


def a_hook_that_takes_back(place):
    """A hook behind the commit takes it back: nothing was committed. One before it changes what is committed: that is said."""
    repository = Repository(place, {"a": b"1\n", "b": b"1\n"}, {"a": b"2\n", "b": b"1\n"})
    write_hook(repository, "post-commit", "git update-ref HEAD HEAD^\n")
    status, said = select(repository, "--commit", "-m", "x")
    place.forget_marks()
    is_back = status == 1 and "git did not commit: nothing was committed" in said and repository.git("show", ":a") == "1\n"
    write_hook(repository, "post-commit", "exit 0\n")
    write_hook(repository, "pre-commit", "echo 3 > b\ngit add b\n")
    status, said = select(repository, "--commit", "-m", "x")
    is_told = status == 0 and "a hook changed what is committed: git show\n" in said and "committed: a\n" in said
    return is_back and is_told and repository.git("show", "HEAD:a", "HEAD:b") == "2\n3\n" and repository.is_sound()


def has_spare(repository):
    """Whether a plan, or a folder that keeps what comes and goes, was left in a repository."""
    is_kept = os.path.exists(os.path.join(repository.folder, ".git", "gabrosty"))
    return is_kept or any(name.startswith(".gabrosty-") for name in os.listdir(repository.folder))


def points(repository, places, words, number=0, point=0):
    """Runs git select until it is about to run line `point` of `places` (see end-at), where it is sent the signal `number`. Returns
    its status, what it said, and how many of these lines it came to."""
    program = os.path.join(repository.place.prefix, "bin", "git-select")
    count = repository.folder + ".count"
    environment = {**os.environ, **repository.place.environment, **ACCEPTS}
    command = [END_AT, places, str(int(number)), str(point), count, program, *words]
    how = {"stdout": subprocess.PIPE, "stderr": subprocess.STDOUT, "stdin": subprocess.DEVNULL, "timeout": 120}
    done = subprocess.run(command, cwd=repository.folder, env=environment, start_new_session=True, **how)
    with open(count) as file:
        return done.returncode, os.fsdecode(done.stdout), int(file.read())


def seen(repository):
    """Returns what a way to use a choice may write."""
    names = "HEAD", "HEAD^", "refs/stash"
    commits = [repository.git("rev-parse", "--quiet", "--verify", name + "^{tree}", check=False) for name in names]
    return repository.index(), repository.files(), commits


class Copies:
    """A repository in which `words` are about to be given to git select, as often as it is needed."""

    def __init__(self, place, words, old, new):
        self.place, self.words = place, words
        self.first = Repository(place, old, new, "first")
        if words == ["--unstage"]:
            self.first.git("add", "--all")
        if words[:1] == ["--split"]:
            self.first.commit()

    def copy(self, name):
        folder = os.path.join(self.place.top, name)
        shutil.copytree(self.first.folder, folder, symlinks=True)
        return Repository.at(self.place, folder)

    def ends(self, places):
        """Returns what is seen before and after a run, and to how many lines of `places` that comes."""
        repository = self.copy("whole")
        before = seen(repository)
        status, said, count = points(repository, places, self.words)
        if status:
            raise RuntimeError(said)
        return before, seen(repository), count

    def each(self, attempt, count):
        """Whether `attempt` holds of each line's number, beside one another."""
        return all(list(trying.pool.map(attempt, range(1, count + 1))))


def is_ended_well(copies, places, before, after, point):
    """Whether TERM at a line leaves all as it was, or as it is after a whole run, which is said then. No lock stays."""
    repository = copies.copy("term-%d" % point)
    status, said, _ = points(repository, places, copies.words, signal.SIGTERM, point)
    found = seen(repository)
    is_left = not os.path.exists(lock_of(repository)) and not has_spare(repository)
    is_told = found == before or found == after and "ed: a" in said or found == after and "first: a" in said
    is_right = status == -signal.SIGTERM and is_left and is_told and "Traceback" not in said
    if not is_right:
        print("TERM at %d of %s: %s" % (point, places, said))
    shutil.rmtree(repository.folder)
    return is_right


def a_signal_at_each_line(place):
    """TERM at each line around the lock of the index, and at each line that commits or restores."""
    old, new = {"a": b"1\n", "b": b"1\n"}, {"a": b"2\n"}
    ends = []
    for words, places in (
        ([], "lock.py,selecting.py:write,selecting.py:use,ways.py:write"), (["--unstage"], "selecting.py:write,ways.py:write"),
        (["--restore"], "lock.py,restore.py:write,files.py:change,spare.py:spare_for,spare.py:move_to,spare.py:take,spare.py:remove"),
        (["--commit", "-m", "x"], "lock.py,selecting.py:write,selecting.py:use,commits.py,signals.py:status_of"),
        (["--stash"], "selecting.py:write,restore.py:write"), (["--split", "a"], "commits.py:write"),
    ):
        copies = Copies(place, words, old, new)
        before, after, count = copies.ends(places)
        ends.append(before != after and count > 9)
        ends.append(copies.each(lambda point: is_ended_well(copies, places, before, after, point), count))
        for name in "first", "whole":
            shutil.rmtree(os.path.join(place.top, name))
    place.forget_marks()
    return all(ends) and place.has_left_nothing()


def a_signal_while_a_hook_runs(place):
    """TERM ends git. If the commit is made by then, the index is that of the commit, and that is said; else nothing was committed."""
    ends = []
    for name, is_made in ("pre-commit", False), ("post-commit", True):
        repository = Repository(place, {"a": b"1\n"}, {"a": b"2\n"}, name)
        started = os.path.join(place.top, "started")
        write_hook(repository, name, "touch '%s'\nexec sleep 60 > /dev/null 2>&1\n" % started)
        environment = {**os.environ, **place.environment, **ACCEPTS}
        command = [os.path.join(place.prefix, "bin", "git-select"), "--commit", "-m", "x"]
        how = {"stdin": subprocess.DEVNULL, "stdout": subprocess.PIPE, "stderr": subprocess.STDOUT}
        process = subprocess.Popen(command, cwd=repository.folder, env=environment, start_new_session=True, **how)
        while not os.path.exists(started):
            time.sleep(0.01)
        os.kill(process.pid, signal.SIGTERM)
        said, _ = process.communicate(timeout=60)
        os.unlink(started)
        place.forget_marks()
        words = b"committed: a\n" if is_made else b"git did not commit: nothing was committed\n"
        ends.append(process.returncode == -signal.SIGTERM and words in said and not os.path.exists(lock_of(repository)))
        ends.append(repository.git("show", "HEAD:a", ":a") == ("2\n2\n" if is_made else "1\n1\n") and repository.is_sound())
    return all(ends)


MEND_PLACES = (
    "files.py:change,files.py:make_missing,files.py:prune,plans.py:empty,plans.py:made,plans.py:add,plans.py:finish,plans.py:remove,"
    "spare.py:spare_for,spare.py:make,spare.py:begin,spare.py:take,spare.py:give,spare.py:move_to,spare.py:do,spare.py:empty,spare.py:remove,"
    "lock.py:take,lock.py:__exit__"
)


def is_removed(repository, told, *wanted):
    """Whether what is left is not needed, which is told, and is removed."""
    is_told = "git select --undo removes it" in told and select(repository, "--undo") == (0, "")
    return is_told and seen(repository) in wanted


def is_mended(copies, before, after, point):
    """Whether what a restore leaves that is killed at a line is named by the next run, and can be finished, or undone. If no file
    is written yet, or all are, there is nothing but to remove what is left. Between two lines the lock alone is there, empty."""
    repository = copies.copy("kill-%d" % point)
    points(repository, MEND_PLACES, copies.words, signal.SIGKILL, point)
    way, wanted = (("--undo", before), ("--finish", after))[point % 2]
    is_begun = os.path.exists(lock_of(repository))
    status, told = select(repository, *copies.words)
    if not is_begun:
        is_right = status == 0 and seen(repository) == after or status == 1 and is_removed(repository, told, after)
    elif "a restore was cut off, with " in told:
        is_right = "of 4 files written" in told and select(repository, way)[0] == 0 and seen(repository) == wanted
    elif "index.lock is there" in told:
        is_right = not os.remove(lock_of(repository)) and seen(repository) == before
    else:
        is_right = is_removed(repository, told, before, after)
    names = os.listdir(os.path.dirname(lock_of(repository)))
    is_right = is_right and not has_spare(repository) and not any(name.startswith("index.lock") for name in names)
    if not is_right:
        print("KILL at %d: %s" % (point, told))
    shutil.rmtree(repository.folder)
    return is_right


def a_restore_that_is_killed(place):
    """KILL at each line that puts files in place: the next run says what it finds, and finishes or undoes it."""
    old = {"a": b"1\n", "b/c": b"1\n", "d": ("link", "a"), "e": ("run", b"1\n"), "gone/x": b"1\n"}
    copies = Copies(place, ["--restore"], old, {"a": b"2\n", "b/c": b"1\n", "d": b"2\n", "e": b"2\n"})
    before, after, count = copies.ends(MEND_PLACES)
    is_mended_each = copies.each(lambda point: is_mended(copies, before, after, point), count)
    for name in os.listdir(place.temporary):
        shutil.rmtree(os.path.join(place.temporary, name))
    nothing = select(copies.first, "--undo")
    return is_mended_each and count > 40 and nothing == (1, "git-select: there is no restore that was cut off\n")


def a_mending_that_is_killed(place):
    """KILL at each line of --undo and of --finish: the next one comes to the same end."""
    old, new = {"a": b"1\n", "b/c": b"1\n", "d": b"1\n", "gone/x": b"1\n"}, {"a": b"2\n", "b/c": b"2\n", "d": b"2\n"}
    copies = Copies(place, ["--restore"], old, new)
    before, after, _ = copies.ends(MEND_PLACES)
    cut_places = "spare.py:take,spare.py:move_to"

    def cut(name, at):
        # a plan is for the folder that it was made for, and for no copy of that
        repository = copies.copy(name)
        points(repository, cut_places, ["--restore"], signal.SIGKILL, at)
        return repository

    # the first point at which two files are written
    at = next(at for at in range(1, 99) if "with 2 of 4 files written" in select(cut("cut-%d" % at, at))[1])
    places = "cut_off.py:finish,cut_off.py:undo,spare.py:take,spare.py:give,spare.py:move_to,spare.py:remove,spare.py:empty,files.py:prune"
    ends = []
    for way, wanted in ("--undo", before), ("--finish", after):
        def attempt(point):
            repository = cut("mend-%d" % point, at)
            points(repository, places, [way], signal.SIGKILL, point)
            if select(repository, way)[0]:
                # nothing but the lock may be left
                select(repository, "--undo")
            is_right = seen(repository) == wanted and not os.path.exists(lock_of(repository))
            shutil.rmtree(repository.folder)
            return is_right

        count = points(cut("whole" + way, at), places, [way])[2]
        ends.append(count > 20 and copies.each(attempt, count))
    shutil.rmtree(place.temporary)
    os.mkdir(place.temporary)
    return all(ends)


def what_changed_since_it_was_cut_off(place):
    """A file that was written by someone since a restore was cut off is named, and stays. The rest can be undone later. Another's
    lock is not taken."""
    repository = Repository(place, {"a": b"1\n", "b": b"1\n"}, {"a": b"2\n", "b": b"2\n"})
    # behind the first file
    at = next(at for at in range(1, 99) if cut_at(place, repository, at) == {"a": b"1\n", "b": b"2\n"})
    cut_at(place, repository, at)
    changed.write_file(os.path.join(repository.folder, "a"), b"3\n")
    ends = [select(repository, word) for word in ("--finish", "--undo")]
    is_named = ends == [(1, "git-select: a changed since\n")] * 2
    is_named = is_named and changed.read_file(os.path.join(repository.folder, "a")) == b"3\n"
    changed.write_file(os.path.join(repository.folder, "a"), b"1\n")
    changed.write_file(lock_of(repository), b"")
    is_locked = "index.lock is there" in select(repository, "--undo")[1]
    os.unlink(lock_of(repository))
    is_undone = select(repository, "--undo") == (0, "as it was: a\nas it was: b\n")
    is_undone = is_undone and repository.files() == {"a": b"2\n", "b": b"2\n"}
    shutil.rmtree(place.temporary)
    os.mkdir(place.temporary)
    return is_named and is_locked and is_undone and repository.is_sound()


def cut_at(place, repository, point):
    """Cuts a restore off, and returns the files that are there then, in the repository as it was before."""
    shutil.rmtree(os.path.join(repository.folder, ".git", "gabrosty"), ignore_errors=True)
    if os.path.exists(lock_of(repository)):
        os.unlink(lock_of(repository))
    changed.write(repository.folder, {"a": b"2\n", "b": b"2\n"})
    points(repository, "files.py:change,spare.py:take,spare.py:move_to", ["--restore"], signal.SIGKILL, point)
    return repository.files()


def a_race_for_the_index(place):
    """While all is looked at once more, and until it is written, no other git command can write the index. A filter tries."""
    ends = []
    for words in WORDS:
        attributes = {".gitattributes": b"a filter=race\n"}
        repository = Repository(place, {**attributes, "a": b"1\n"}, {**attributes, "a": b"2\n"})
        if words == ["--unstage"]:
            repository.git("add", "a")
            repository.git("config", "filter.race.clean", "cat")
        tries = os.path.join(place.top, "tries")
        blob = repository.git("rev-parse", ":a").strip()
        add = "env -u GIT_INDEX_FILE git update-index --cacheinfo 100%%s,%s,a" % blob
        script = "cat; %s 2> /dev/null; echo $? >> %s" % (add % 755, tries)
        repository.git("config", "filter.race.clean", script)
        # in the first look the index is free, and what is staged then is undone before the last one
        meanwhile = "%s && echo accepted >> %s" % (add % 644, tries)
        status, said = select(repository, *words, MEANWHILE=meanwhile)
        with open(tries, "a+") as file:
            file.seek(0)
            first, _, last = file.read().partition("accepted\n")
        is_kept = status == 0 and repository.git("ls-files", "--stage", "a").startswith("100644 ")
        ends.append(is_kept and "0" not in last.split() and (words == ["--unstage"] or "128" in last.split()))
        os.unlink(tries)
    return all(ends) and repository.is_sound()


def an_index_behind_a_link(place):
    """Git writes what a link in the place of the index leads to, and so is it here."""
    repository = Repository(place, {"a": b"1\n2\n"}, {})
    index, elsewhere = os.path.join(repository.folder, ".git", "index"), os.path.join(place.folder("elsewhere"), "index")
    os.rename(index, elsewhere)
    os.symlink(elsewhere, index)
    is_done = each_way(repository, "a") and os.path.islink(index)
    open(elsewhere + ".lock", "w").close()
    is_locked = "elsewhere/index.lock is there" in place.call("git", "select", folder=repository.folder)[1]
    return is_done and is_locked and repository.is_sound()


MALFORMED = (
    "", "\n", "[]", "{}", '{"files": 1}', '{"files": []}', '{"files": [], "messages": 1}', '{"files": [1], "messages": []}',
    '{"files": [{}], "messages": []}', '{"files": [{"path": 1, "marks": ""}], "messages": []}',
    '{"files": [{"path": [], "marks": ""}], "messages": []}', '{"files": [{"path": "a", "marks": 1}], "messages": []}',
    '{"files": [{"path": "a", "marks": "2"}], "messages": []}', '{"files": [{"path": "a"}], "messages": []}',
    '{"files": [], "messages": [1]}', '{"files": [], "messages": {"a": 1}}', '{"files": {"path": 1}, "messages": []}', "[" * 100_000,
    '{"files": [], "messages": [], "more": %s]' % ("[" * 900 + "]" * 900), "\0", "\udcff",
)


def marks_that_are_malformed(place):
    """They are named in one line, and nothing is staged."""
    repository = Repository(place, {"a": b"1\n"}, {"a": b"2\n"})
    path = os.path.join(place.top, "kept.marks")
    for text in MALFORMED:
        changed.write_file(path, os.fsencode(text))
        for words in [], ["--commit"]:
            status, said = select(repository, *words, "--marks", path)
            if (status, said) != (1, "git-select: %s has no marks that were kept\n" % path):
                print("%.60r: %s" % (text, said))
                return False
    lost = [select(repository, "--marks", it) for it in (place.top, path + "/x", path + "x")]
    return all(status == 1 and said.count("\n") == 1 for status, said in lost) and repository.is_sound()


def a_template_that_is_too_long(place):
    """The front end takes no message of more than 1,000,000 bytes. So git shows such a template in its editor."""
    repository = Repository(place, {"a": b"1\n"}, {"a": b"2\n"})
    template = os.path.join(place.folder("outside"), "template")
    repository.git("config", "commit.template", template)
    repository.git("config", "core.editor", "sed -i 1s/.*/Edited/")
    ends = []
    for length, is_long in (1_000_000, False), (1_000_001, True):
        changed.write_file(template, b"Subject\n\n" + b"# comment\n" * 99_000 + b"x" * (length - 990_009))
        changed.write(repository.folder, {"a": b"%d\n" % length})
        status, said = repository.select("--commit", keys=["a", "c"])
        ends.append(status == 0 and ("is too long to be shown: git shows it in its editor\n" in said) == is_long)
        ends.append(repository.git("log", "-1", "--format=%s") == "Edited\n" and repository.git("show", "HEAD:a") == "%d\n" % length)
    return all(ends) and repository.is_sound()


def who_is_not_known(place):
    """A commit without a name of its author is refused before the choice."""
    repository = Repository(place, {"a": b"1\n"}, {"a": b"2\n"})
    repository.git("config", "user.useConfigOnly", "true")
    nobody = {"GIT_%s_%s" % (who, what): "" for who in ("AUTHOR", "COMMITTER") for what in ("NAME", "EMAIL")}
    ends = [select(repository, *words, **nobody) for words in (["--commit"], ["--amend"], ["--split"], ["--stash"])]
    is_told = all(status == 1 and said.startswith("git-select: git does not know who you are: ") for status, said in ends)
    return is_told and select(repository, **nobody)[0] == 0 and repository.is_sound()


def a_fifo(place):
    """A FIFO in the place of a file of the index is named, and so is one that is given as a path. Git passes over others."""
    repository = Repository(place, {"a": b"1\n", "b": b"1\n"}, {"b": b"2\n"})
    for name in "a", "c":
        os.mkfifo(os.path.join(repository.folder, name))
    ends = [select(repository, *words) for words in (["--restore"], [], ["c"])]
    notes = ["git-select: %s is left out: it is neither a file nor a link\n" % name for name in ("a", "c")]
    is_named = [[note in said for note in notes] for _, said in ends] == [[True, False], [True, False], [False, True]]
    for name in "a", "c":
        os.unlink(os.path.join(repository.folder, name))
    return is_named and [status for status, _ in ends] == [0, 0, 0] and repository.is_sound()


NOTES = {
    "bytes": "binary, 2 bytes, %s", "gone": "deleted, +0 -2", "link": "link to b", "mode": "mode", "mode+": "mode, +1 -1",
    "new": "new, +3 -0", "empty": "new", "moved": "renamed from from", "moved+": "renamed from from+, +1 -1", "text": "+2 -1", "no end": "+1 -1",
    "latin": "+1 -1",
}


def what_each_file_is(place):
    """Behind its path: what each file is, and how many lines come and go. A no-break space, which no path has as it is shown,
    is between them."""
    text, more = (b"".join(b"line %d %s\n" % (number, word) for number in range(20)) for word in (b"one", b"two"))
    old = {
        "bytes": b"\0", "gone": b"1\n2\n", "link": ("link", "a"), "mode": b"1\n", "mode+": b"1\n", "text": b"1\n2\n",
        "no end": b"1", "latin": b"\xe4\n", "from": text, "from+": more,
    }
    new = {
        "bytes": b"\0\1", "link": ("link", "b"), "mode": ("run", b"1\n"), "mode+": ("run", b"2\n"), "text": b"one\n2\n3\n",
        "no end": b"2", "latin": b"\xf6\n", "moved": text, "moved+": more.replace(b"line 7 ", b"7 "), "new": b"a\nb\nc",
        "empty": b"",
    }
    repository = Repository(place, old, new)
    state, script = os.path.join(place.top, "shown"), os.path.join(place.top, "keep")
    changed.write_file(script, b'#!/bin/sh\nscm-select --json --changes "$2" "$STATE"\nexit 1\n')
    os.chmod(script, 0o755)
    repository.select(keys=["c"], SELECT=script, STATE=state)
    with open(state) as file:
        files = json.loads(file.readlines()[1])["files"]
    found = dict(file["path"].split("\N{NO-BREAK SPACE}") for file in files)
    renamed = {file["path"].split("\N{NO-BREAK SPACE}")[0]: file["old_path"] for file in files if file["old_path"]}
    is_renamed = renamed == {"moved": "from", "moved+": "from+"}
    notes = {**NOTES, "bytes": NOTES["bytes"] % repository.git("hash-object", "bytes")[:10]}
    return found == {path: "(%s)" % words for path, words in notes.items()} and is_renamed and repository.is_sound()


def each_byte(place):
    """A file that is not UTF-8 is shown by lines, and each byte comes back as it was."""
    old = b"".join(b"%d \xe4 %c\n" % (byte, byte) for byte in range(1, 256) if byte != 10)
    new = old.replace(b"100 \xe4", b"100 \xf6").replace(b"200 \xe4", b"200 \xff\xfe")
    some = old.replace(b"100 \xe4", b"100 \xf6")
    both = {"a": old, "b": "ä\n".encode() + old, "c": b"\xff"}, {"a": new, "b": "ö\n".encode() + new, "c": b"\xfe\n"}
    repository = Repository(place, *both)
    keys = ["shift-F", "j", "space", "c"]
    is_some = repository.select("a", keys=keys)[0] == 0 and repository.index_files()["a"] == some
    is_back = repository.select("--restore", "a", keys=keys)[0] == 0 and repository.files()["a"] == some
    changed.write_file(os.path.join(repository.folder, "a"), new)
    is_all = repository.select(keys=["a", "c"])[0] == 0 and repository.index() == repository.index_of("add", "--all")
    is_out = repository.select("--unstage", keys=["a", "c"])[0] == 0 and repository.index() == repository.index_of()
    return is_some and is_back and is_all and is_out and repository.is_sound()


ALL = (
    a_hook_that_removes_the_lock, a_hook_that_moves_the_last_commit, a_hook_that_takes_back, a_signal_at_each_line,
    a_signal_while_a_hook_runs, a_restore_that_is_killed, a_mending_that_is_killed,
    what_changed_since_it_was_cut_off, a_race_for_the_index, an_index_behind_a_link,
    marks_that_are_malformed, a_template_that_is_too_long, who_is_not_known, a_fifo, what_each_file_is, each_byte,
)
