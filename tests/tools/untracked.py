"""git-select where the working tree has large files, many files, and files that git does not know, for tools/dev/try-tools."""
import os
import shutil
import subprocess
import time

import changed
from faults import ACCEPTS, select
from places import Repository
from settings import UPPER, configure

MB = 1_000_000
STRACE = shutil.which("strace")
# how long ago a file has to be written to be known by its times, in nanoseconds
REST = 2_000_000_000
# a front end that keeps what it is handed, and gives up
KEEP = "#!/bin/sh\ncp \"$2\" '%s'\nexit 1\n"


def handed(place, repository, *words, folder=None):
    """Returns what git select hands to a front end that gives up, and what it says."""
    program, kept = (os.path.join(place.folder("front"), name) for name in ("keep", "kept"))
    changed.write_file(program, (KEEP % kept).encode())
    os.chmod(program, 0o755)
    if os.path.exists(kept):
        os.unlink(kept)
    said = place.call("env", "SELECT=" + program, "git", "select", *words, folder=folder or repository.folder)
    return changed.read_file(kept) if os.path.exists(kept) else b"", said[1]


def paths_in(data):
    return [part.split(b"\n")[1].decode() for part in data.split(b"\npath ")[1:]] if data else []


def paths_shown(place, repository, *words, **more):
    return paths_in(b"\n" + handed(place, repository, *words, **more)[0])


def what_git_does_not_know(place):
    """Files that git does not know are shown as -u and status.showUntrackedFiles say."""
    repository = Repository(place, {"a": b"1\n"}, {"a": b"2\n", "new": b"1\n", "below/new": b"1\n"})
    every, known = ["a", "below/new", "new"], ["a"]
    ways = {(): every, ("--no-untracked",): known, ("-uno",): known, ("-u",): every, ("--untracked-files",): every, ("-unormal",): every}
    is_by_option = all(paths_shown(place, repository, *words) == wanted for words, wanted in ways.items())
    is_by_option = is_by_option and paths_shown(place, repository, "-u", "new") == ["new"]
    ends = []
    for value, wanted in (("no", known), ("false", known), ("all", every), ("normal", every)):
        repository.git("config", "status.showUntrackedFiles", value)
        ends.append(paths_shown(place, repository) == wanted and paths_shown(place, repository, "-u") == every)
        ends.append(paths_shown(place, repository, "-uno") == known)
    wrong = place.call("git", "select", "-usome", folder=repository.folder)
    return is_by_option and all(ends) and wrong[0] == 2 and repository.is_sound()


def temporary_files_in_what_is_compared(place):
    """If TMPDIR lies in the working tree, or in RIGHT, the program's own files there are not shown, also where it chooses twice."""
    repository = Repository(place, {"a": b"1\n"}, {"a": b"2\n", "own/b": b"1\n"})
    own = {"TMPDIR": os.path.join(repository.folder, "own")}
    is_staged = select(repository, "--then", "stage", **own) == (0, "staged: a\nstaged: own/b\ngit-select: there is nothing to stage\n")
    left, right = place.folder("left", {"a": b"1\n"}), place.folder("right", {"a": b"2\n", "own/b": b"1\n"})
    words = ["gabrosty-diff-editor", "--output", left, left, right]
    status, _ = place.type(words, ["a", "c"], TMPDIR=os.path.join(right, "own"))
    is_written = status == 0 and sorted(changed.read(left)) == ["a", "own/b"]
    return is_staged and is_written and os.listdir(own["TMPDIR"]) == ["b"] and repository.is_sound()


def what_is_too_much_to_read(place):
    """Of files that have more than 20 MB together the largest ones are one item each. They are staged, committed, stashed and taken
    back whole. With --read-all they are shown by lines."""
    large, old = b"line\n" * (12 * MB // 5), {"a": b"1\n", "big": b"1\n", "gone": b"x\n" * (4 * MB)}
    new = {"a": b"2\n", "big": large + b"123\n" * 75_000, "more": b"more\n" * (MB // 5), "new": large}
    repository = Repository(place, old, new)
    data, _ = handed(place, repository)
    # 12.3 + 12.0 + 8.0 + 1.0 MB: without the two largest ones it is 9
    words = [b"new-words 28\n12.3 MB, not shown by lines\n", b"new-words 28\n12.0 MB, not shown by lines\n"]
    is_shown = paths_in(b"\n" + data) == ["a", "big", "gone", "more", "new"] and len(data) < 10 * MB
    is_shown = is_shown and all(data.count(it.replace(b"28", b"%d" % len(it.split(b"\n")[1]))) == 1 for it in words)
    is_all = len(handed(place, repository, "--read-all")[0]) > 32 * MB
    is_staged = repository.select(keys=["a", "c"])[0] == 0 and repository.index() == repository.index_of("add", "--all")
    data, _ = handed(place, repository, "--unstage")
    is_out = data.count(b"MB, not shown by lines\n") == 2
    is_out = is_out and repository.select("--unstage", keys=["a", "c"])[0] == 0 and repository.index() == repository.index_of()
    is_back = repository.select("--stash", "big", "new", keys=["a", "c"])[0] == 0 and repository.files()["big"] == b"1\n"
    repository.git("stash", "pop", "--quiet")
    is_back = is_back and repository.files() == new
    is_committed = repository.select("--commit", "-m", "x", keys=["a", "c"])[0] == 0 and repository.files_of("HEAD") == new
    return is_shown and is_all and is_staged and is_out and is_back and is_committed and repository.is_sound()


def a_large_file_that_is_gone(place):
    """Old versions that have more than 20 MB together are not read either: the largest one is an item, and it is staged and taken back."""
    old = {"a": b"1\n", "gone": b"line\n" * (21 * MB // 5)}
    repository = Repository(place, old, {"a": b"2\n"})
    data, _ = handed(place, repository)
    is_shown = paths_in(b"\n" + data) == ["a", "gone"] and len(data) < MB and b"21.0 MB, not shown by lines\n" in data
    is_staged = repository.select(keys=["a", "c"])[0] == 0 and repository.index_files() == {"a": b"2\n"}
    repository.git("reset", "--quiet")
    is_back = repository.select("--restore", keys=["a", "c"])[0] == 0 and repository.files() == old
    return is_shown and is_staged and is_back and repository.is_sound()


def a_large_file_that_changes(place):
    """A file that is not read is named if it changes while the user chooses, and nothing is staged."""
    repository = Repository(place, {"a": b"1\n"}, {"a": b"1\n", "new": b"1" * (21 * MB)})
    before = repository.index()
    path = os.path.join(repository.folder, "new")
    status, said = repository.select(keys=["a", "c"], before_last=lambda: changed.write_file(path, b"2" * (21 * MB)))
    place.forget_marks()
    is_named = status == 1 and "new changed meanwhile: nothing was staged" in said
    return is_named and repository.index() == before and repository.is_sound()


def what_stands_for_a_large_file(place):
    """A file whose contents are the name by which git knows its old version is staged as it is, also where another file has the same
    old version and is not read."""
    old = {"a": b"1" * (15 * MB), "b": b"1" * (15 * MB)}
    repository = Repository(place, old, {})
    new = {"a": old["a"] + b"2", "b": repository.git("rev-parse", "HEAD:b").strip().encode()}
    changed.write(repository.folder, new)
    is_staged = repository.select(keys=["a", "c"])[0] == 0 and repository.index_files() == new
    return is_staged and repository.files() == new and repository.is_sound()


def nothing_is_stored_before(place):
    """What is shown is not stored, and of what is chosen no more than that."""
    repository = Repository(place, {"a": b"1\n"}, {"a": b"2\n", "b": b"3\n", "c": b"4\n"})
    before = repository.git("count-objects").split()[0]
    repository.select(keys=["q"])
    is_left = repository.git("count-objects").split()[0] == before
    status, _ = repository.select(keys=["space", "c"])
    return is_left and status == 0 and int(repository.git("count-objects").split()[0]) == int(before) + 1 and repository.is_sound()


def as_git_add_stores_it(place):
    """With line ends, filters, idents, encodings and modes that git changes, what is staged is what `git add` stores: also where the
    index alone has the attributes, or has line ends that git then leaves as they are."""
    attributes = b"*.up filter=up\n*.id ident\n*.u16 working-tree-encoding=UTF-16LE\n*.crlf eol=crlf\n*.auto text=auto\n*.bin -text\n"
    crlf = b"1\r\n2\r\n"
    names = "a.up", "a.id", "a.crlf", "a.auto", "a.bin", "a.txt", "mixed.auto"
    new = {name: b"X $Id: old$\r\nY\r\n" for name in names}
    new.update({"mixed.auto": b"1\r\n2\n", "a.u16": "1\nä\n".encode("utf-16-le"), "run": ("run", b"1\n"), "to": ("link", "a.up"),
                "lf.auto": b"1\n", "lf.crlf": b"1\n", "old.auto": crlf + b"3\r\n", "old.txt": crlf + b"3\r\n", "nul": b"\0\r\n", "empty": b""})
    ends = []
    for value in "false", "true", "input":
        repository = Repository(place, {"old.auto": crlf, "old.txt": crlf}, {})
        configure(repository, {"core.autocrlf": value, "core.safecrlf": "false", **UPPER})
        changed.write(repository.folder, {".gitattributes": attributes})
        repository.git("add", ".gitattributes")
        for has_attributes in True, False:
            # without the file git takes the attributes of the index
            changed.write(repository.folder, {**new, **({".gitattributes": attributes} if has_attributes else {})})
            before = repository.git("write-tree")
            status, _ = repository.select(*new, keys=["a", "c"])
            staged = repository.index()
            repository.git("read-tree", before.strip())
            repository.git("add", "--", *new)
            ends.append(status == 0 and staged == repository.index())
            repository.git("read-tree", before.strip())
    return all(ends) and repository.is_sound()


def a_line_end_that_git_refuses(place):
    """With core.safecrlf a file that git cannot give back is left out by its name."""
    repository = Repository(place, {"a": b"1\n"}, {"a": b"2\n", "b": b"1\r\n2\n"})
    configure(repository, {"core.autocrlf": "true", "core.safecrlf": "true"})
    status, said = repository.select(keys=["a", "c"])
    is_named = "a is left out: " in said and "b is left out: " in said
    return status == 0 and is_named and repository.index() == repository.index_of()


def many_files(place):
    """More than twenty files are counted when they are done, and named with -v. Those that become empty are named."""
    old = {"%02d" % number: b"1\n" for number in range(21)}
    repository = Repository(place, old, {name: b"2\n" for name in old})
    status, said = repository.select(keys=["a", "c"])
    is_counted = status == 0 and said.splitlines()[-1] == "staged: 21 files" and "staged: 20" not in said
    repository.git("reset", "--quiet")
    status, said = repository.select("-v", keys=["a", "c"])
    is_named = status == 0 and all("staged: %s\n" % name in said for name in old) and "21 files" not in said.splitlines()[-1]
    status, said = repository.select("--restore", keys=["a", "c"])
    repository.git("reset", "--quiet")
    status, said = repository.select("--restore", keys=["a", "c"])
    is_restored = status == 0 and "restored: 21 files\n" in said and said.count("kept: ") == 21 and repository.files() == old
    return is_counted and is_named and is_restored and repository.is_sound()


def renamed_among_many(place):
    """A file that is renamed and changed is one file beside others that are new, without anything stored of them."""
    text = b"".join(b"line %d\n" % number for number in range(20))
    new = {"b": text + b"more\n", **{"n%d" % number: b"%d\n" % number for number in range(30)}}
    repository = Repository(place, {"a": text}, new)
    before = repository.git("count-objects")
    data, _ = handed(place, repository)
    return b"old-path 1\na\n" in data and repository.git("count-objects") == before and repository.is_sound()


def times_read(place, repository, name, meanwhile="true"):
    """Has git select stage all, by a front end without a terminal that runs the command `meanwhile`. Returns how often the file `name` is
    opened, and what was said."""
    log = os.path.join(place.top, "log")
    command = [STRACE, "-f", "-o", log, "-e", "trace=openat", os.path.join(place.prefix, "bin", "git-select")]
    words = ["%s=%s" % it for it in {**ACCEPTS, "MEANWHILE": meanwhile}.items()]
    said = place.call("env", *words, *command, folder=repository.folder)[1]
    with open(log) as file:
        return file.read().count('"%s"' % name), said


def what_is_read_once(place):
    """A file that was written some seconds ago is read once, and one that was written just now is looked at again before it is staged. One
    that changes while the user chooses is seen, also if its size and its time stay. Skipped where no program can be traced."""
    if not STRACE or subprocess.run([STRACE, "-o", os.devnull, "true"], stderr=subprocess.DEVNULL).returncode:
        return "there is no strace that works"
    old, new = {"resting": b"1\n", "fresh": b"1\n"}, {"resting": b"2\n", "fresh": b"2\n"}
    repository = Repository(place, old, new)
    time.sleep(REST / 1e9 + 0.1)
    os.utime(os.path.join(repository.folder, "fresh"))
    before = repository.index()
    change = "cp -p resting ../times; echo 3 > resting; touch -r ../times resting"
    _, said = times_read(place, repository, "resting", change)
    is_seen = "resting changed meanwhile: nothing was staged" in said and repository.index() == before
    place.forget_marks()
    changed.write(repository.folder, new)
    time.sleep(REST / 1e9 + 0.1)
    os.utime(os.path.join(repository.folder, "fresh"))
    count, _ = times_read(place, repository, "resting")
    is_once = count == 1 and repository.index_files() == new
    return is_seen and is_once and is_read_again(place, repository, "fresh") and repository.is_sound()


def is_read_again(place, repository, name):
    """Whether a file that was written just now is read twice. A machine that is slow to begin gets some turns."""
    for _ in range(5):
        repository.git("reset", "--quiet")
        os.utime(os.path.join(repository.folder, name))
        if times_read(place, repository, name)[0] == 2:
            return True
    return False


ALL = (
    what_git_does_not_know, temporary_files_in_what_is_compared, what_is_too_much_to_read, a_large_file_that_is_gone, a_large_file_that_changes, what_stands_for_a_large_file,
    nothing_is_stored_before, as_git_add_stores_it, a_line_end_that_git_refuses, many_files, renamed_among_many, what_is_read_once,
)
