"""git-select, gabrosty-diff-editor and scm-select on a disk that is full, for tools/dev/try-tools."""
import contextlib
import os
import random
import shutil
import subprocess

import changed
from places import Repository
from settings import WORDS, write_hook

SIZE, FILE = 1 << 21, 300_000


def text_of(seed):
    """Returns a text that git cannot store in much less."""
    chance = random.Random(seed)
    return b"".join(b"%x\n" % chance.getrandbits(320) for _ in range(FILE // 82))


@contextlib.contextmanager
def disk(place, size=SIZE):
    """Gives a disk of `size` bytes in the folder `disk`, or None if none can be made here."""
    folder = place.folder("disk")
    words = ["mount", "-t", "tmpfs", "-o", "size=%d" % size, "tmpfs", folder]
    try:
        is_there = subprocess.run(words, stderr=subprocess.DEVNULL).returncode == 0
    except FileNotFoundError:
        is_there = False
    try:
        yield folder if is_there else None
    finally:
        if is_there:
            subprocess.run(["umount", folder], check=True)


def fill(folder, left):
    """Writes a file beside the repository, so that `left` bytes of the disk are free."""
    found = os.statvfs(folder)
    with open(os.path.join(folder, "fill"), "wb") as file:
        file.write(b"x" * max(found.f_bavail * found.f_frsize - left, 0))


def seen(repository):
    """Returns all that has to stay of a repository, with the names of what lies in it."""
    names = os.listdir(repository.folder), os.path.exists(os.path.join(repository.folder, ".git", "index.lock"))
    return repository.index(), repository.files(), repository.git("rev-parse", "HEAD"), names


def is_refused(place, folder, words):
    """Whether git select with these words refuses to write on a full disk, and leaves all as it was. To be restored are two
    files, of which one has room."""
    large, small = {"a": text_of(1), "b": text_of(2)}, {"a": b"1\n", "b": b"2\n"}
    old, new = (large, small) if words == ["--restore"] else (small, large)
    repository = Repository(place, old, new, os.path.join("disk", "repository"))
    if words == ["--unstage"]:
        repository.git("add", "--all")
    before = seen(repository)
    left = FILE * 3 // 2 if words == ["--restore"] else 0
    status, said = repository.select(*words, keys=["a", "c"], before_last=lambda: fill(folder, left))
    os.unlink(os.path.join(folder, "fill"))
    place.forget_marks()
    is_refused = status == 1 and "nothing was " in said and "Traceback" not in said
    is_left = seen(repository) == before and repository.is_sound()
    shutil.rmtree(repository.folder)
    return is_refused and is_left


def is_left_by_an_editor(place, folder, command, failed, words):
    """Whether RIGHT stays as it was where the disk has room for one of two files of LEFT. `failed` is the status then."""
    left, new = place.folder("left", {"a": text_of(1), "b": text_of(2)}), {"a": b"1\n", "b": b"2\n"}
    right = place.folder(os.path.join("disk", "right"), new)
    fill(folder, FILE * 3 // 2)
    status, said = place.type([*command, left, right], ["c"])
    os.unlink(os.path.join(folder, "fill"))
    is_named = status == failed and words + "No space left on device: nothing was written\n" in said
    return is_named and changed.read(right) == new and sorted(os.listdir(right)) == ["a", "b"]


def is_told_half_done(place, folder):
    """Whether a commit is named whose index has no room, since a hook behind it fills the disk."""
    # the index is larger than what the lock has room for already
    rest = {"rest/%d" % number: b"" for number in range(200)}
    repository = Repository(place, {"a": b"1\n", **rest}, {"a": b"2\n", **rest}, os.path.join("disk", "repository"))
    write_hook(repository, "post-commit", "cat /dev/zero > '%s/fill'\n" % folder)
    status, said = repository.select("--commit", "-m", "x", keys=["a", "c"])
    os.unlink(os.path.join(folder, "fill"))
    place.forget_marks()
    words = "it is committed, but the index stays as it was (git reset mends that): No space"
    is_told = status == 1 and words in said and "nothing was " not in said
    return is_told and repository.git("show", "HEAD:a", ":a") == "2\n1\n" and repository.is_sound()


def a_full_disk(place):
    """Files and index stay, and git finds nothing wrong. What is done in part is said. Skipped where no disk can be made."""
    with disk(place) as folder:
        if folder is None:
            return None
        ends = [is_refused(place, folder, words) for words in WORDS]
        ends.append(is_left_by_an_editor(place, folder, ["gabrosty-diff-editor"], 1, "b cannot be written: "))
        ends.append(is_left_by_an_editor(place, folder, ["scm-select", "-d"], 2, "scm-select: b: "))
        return all(ends) and is_told_half_done(place, folder)


ALL = a_full_disk,
