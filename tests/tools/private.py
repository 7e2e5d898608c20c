"""The programs where few may read a file or a folder: it is the same for what is written anew, for tools/dev/try-tools."""
import os
import shutil
import signal
import struct
import subprocess

import changed
from faults import ACCEPTS, END_AT, select
from places import Repository
from strangers import EDITOR, clear, editor, failing

OTHER_GROUP, OTHER_USER = 65533, 65534
LIST, LIST_OF_NEW = "system.posix_acl_access", "system.posix_acl_default"
NO_ID = 0xFFFFFFFF
# the bits that new files do not get
MASK = 0o022


def list_for(user, may, mask, owner=6):
    """Returns a list as Linux keeps it: the owner may read and write, a single user has the rights `may`, and the group none."""
    entries = (1, owner, NO_ID), (2, may, user), (4, 0, NO_ID), (16, mask, NO_ID), (32, 0, NO_ID)
    return struct.pack("<I", 2) + b"".join(struct.pack("<HHI", *entry) for entry in entries)


def lists_at(path):
    return {name: os.getxattr(path, name) for name in os.listxattr(path) if name in (LIST, LIST_OF_NEW)}


def bits_at(path):
    return os.stat(path).st_mode & 0o7777


def private_folder(place, name, files, bits=0o700):
    """Makes a folder whose folder `d` has these bits."""
    path = place.folder(name, files)
    os.chmod(os.path.join(path, "d"), bits)
    return path


def a_private_folder_that_is_made_anew(place):
    """A folder that is removed and made again has its bits, and a new one has no more than LEFT's or RIGHT's."""
    ends = []
    for bits in (0o700, 0o750, 0o1770):
        left, right = place.folder("left", {"d/b": b"1\n"}), private_folder(place, "right", {"d/a": b"2\n"}, bits)
        ends.append(place.type([EDITOR, left, right], ["c"])[0] == 0 and changed.read(right) == {"d/b": b"1\n"})
        ends.append(bits_at(right + "/d") == bits)
        left, right = private_folder(place, "left", {"d/e/b": b"1\n"}, bits), place.folder("right", {"a": b"2\n"})
        output = place.folder("output")
        ends.append(editor(place, "--output", output, right, left)[0] == 0 and changed.read(output) == {"d/e/b": b"1\n"})
        ends.append(place.type([EDITOR, left, right], ["c"])[0] == 0 and changed.read(right) == {"d/e/b": b"1\n"})
        ends += [bits_at(top + "/d") == bits & ~0o022 and bits_at(top + "/d/e") == 0o755 for top in (output, right)]
        shutil.rmtree(output)
    return all(ends)


def a_private_folder_that_is_put_back(place):
    """Cut off where the folder is gone, made or filled, it has its bits again, whether the writing is undone or finished."""
    left, count, ends = place.folder("left", {"d/b": b"1\n"}), os.path.join(place.top, "count"), []
    program, places = os.path.join(place.prefix, "bin", EDITOR), "files.py:make_missing,spare.py:move_to"
    how = {"stdout": subprocess.DEVNULL, "stderr": subprocess.DEVNULL, "stdin": subprocess.DEVNULL, "start_new_session": True}
    for way, wanted in (("--undo", {"d/a": b"2\n"}), ("--finish", {"d/b": b"1\n"})):
        for point in 1, 4, 8:
            right = private_folder(place, "right", {"d/a": b"2\n"})
            words = [END_AT, places, str(int(signal.SIGKILL)), str(point), count, program, "--output", right, right, left]
            is_killed = subprocess.run(words, env={**os.environ, **place.environment, **ACCEPTS}, **how).returncode < 0
            ends.append(is_killed and editor(place, left, right, way)[0] == 0)
            ends.append(changed.read(right) == wanted and bits_at(right + "/d") == 0o700)
    clear(place)
    return all(ends)


def a_file_of_another_group(place):
    """A file that is written anew has its group; and where the user may not give it that, its group may do no more than all others. A new
    file has not the group of its source. Skipped without the right to give files to groups."""
    if os.geteuid():
        return "that needs the groups of others"
    ends = []
    for bits, narrow in ((0o640, 0o600), (0o664, 0o644), (0o604, 0o600)):
        left, right = place.folder("left", {"a": b"1\n", "b": b"1\n"}), place.folder("right", {"a": b"2\n"})
        for path in left + "/b", right + "/a":
            os.chmod(path, bits)
            os.chown(path, -1, OTHER_GROUP)
        ends.append(place.type([EDITOR, left, right], ["c"])[0] == 0)
        ends.append((bits_at(right + "/b"), os.stat(right + "/b").st_gid) == (narrow, os.getegid()))
        ends.append((bits_at(right + "/a"), os.stat(right + "/a").st_gid) == (bits, OTHER_GROUP))
        changed.write_file(left + "/a", b"3\n")
        os.unlink(right + "/b")
        status, _ = failing(place, place.top, ("fchown", "", "EPERM"), EDITOR, "--output", right, right, left)
        ends.append(status == 0 and changed.read(right) == {"a": b"3\n", "b": b"1\n"})
        ends += [(bits_at(path), os.stat(path).st_gid) == (narrow, os.getegid()) for path in (right + "/a", right + "/b")]
    return all(ends)


def with_list(path, name, data):
    """Gives a file or a folder a list, and returns its path, or None if the disk keeps no lists."""
    try:
        os.setxattr(path, name, data)
    except (OSError, AttributeError):
        return None
    return path


def a_file_with_a_list_of_users(place):
    """A list of single users is kept, and not that of the folder around it. Where it cannot be kept, the file is its owner's alone, and
    so is a new one whose source has a list. Skipped on a disk that keeps no lists."""
    ends, wanted = [], list_for(OTHER_USER, 4, 4)
    for failure, bits, lists in ((None, 0o640, {LIST: wanted}), (("setxattr", "", "ENOTSUP"), 0o600, {})):
        left = place.folder("left", {"a": b"1\n", "b": b"1\n", "c": b"1\n"})
        right = place.folder("right", {"a": b"2\n", "b": b"2\n"})
        if not with_list(right + "/a", LIST, wanted) or not with_list(place.top, LIST_OF_NEW, list_for(OTHER_USER, 7, 7, owner=7)):
            return "the disk keeps no lists of users"
        os.chmod(right + "/b", 0o640)
        with_list(left + "/c", LIST, list_for(OTHER_USER, 6, 6))
        words = EDITOR, "--output", right, right, left
        end = failing(place, place.top, failure, *words) if failure else editor(place, *words[1:])
        ends.append(end[0] == 0 and changed.read(right) == {"a": b"1\n", "b": b"1\n", "c": b"1\n"})
        ends.append((bits_at(right + "/c"), lists_at(right + "/c")) == (0o600, {}))
        ends.append((bits_at(right + "/a"), lists_at(right + "/a")) == (bits, lists))
        ends.append((bits_at(right + "/b"), lists_at(right + "/b")) == (0o640, {}))
    return all(ends)


def a_list_that_cannot_be_read(place):
    """Where the disk does not say which list a file has, what is written is its owner's alone: also a folder that is made again, and what
    is new. Where it only says that it keeps none, the permissions are what the bits say."""
    ends = []
    for error, bits, of_folder in (("EIO", 0o600, 0o700), ("ENOTSUP", 0o660, 0o770)):
        left = place.folder("left", {"a": b"1\n", "b": b"1\n", "d/f": b"1\n"})
        right = private_folder(place, "right", {"a": b"2\n", "d/e": b"2\n"}, 0o770)
        for path in left + "/b", right + "/a":
            os.chmod(path, 0o660)
        end = failing(place, place.top, ("getxattr", "", error), EDITOR, "--output", right, right, left)
        ends.append(end == (0, "") and changed.read(right) == {"a": b"1\n", "b": b"1\n", "d/f": b"1\n"})
        ends.append([bits_at(right + path) for path in ("/a", "/b", "/d")] == [bits, bits & ~MASK, of_folder])
    return all(ends)


def a_new_file_where_git_keeps_a_list(place):
    """A new file of the working tree has no list, also if git's folder gives one to what is new in it. The new index has the group and the
    list of the old one. Skipped on a disk that keeps no lists."""
    repository, ends = Repository(place, {"a": b"1\n", "b": ("run", b"1\n"), "d/c": b"1\n"}, {"a": b"1\n", "d/e": b"1\n"}), []
    own = os.path.join(repository.folder, ".git")
    if not with_list(own, LIST_OF_NEW, list_for(OTHER_USER, 7, 7, owner=7)):
        return "the disk keeps no lists of users"
    ends.append(select(repository, "--restore")[0] == 0)
    for name, bits in (("b", 0o755), ("d/c", 0o644)):
        path = os.path.join(repository.folder, name)
        ends.append((bits_at(path), lists_at(path)) == (bits, {}))
    index, wanted = os.path.join(own, "index"), list_for(OTHER_USER, 4, 4)
    with_list(index, LIST, wanted)
    group = OTHER_GROUP if os.geteuid() == 0 else os.getegid()
    os.chown(index, -1, group)
    ends.append(select(repository)[0] == 0 and repository.git("show", ":d/e") == "1\n")
    ends.append((bits_at(index), os.stat(index).st_gid, lists_at(index)) == (0o640, group, {LIST: wanted}))
    return all(ends) and repository.is_sound()


ALL = (
    a_private_folder_that_is_made_anew, a_private_folder_that_is_put_back, a_file_of_another_group, a_file_with_a_list_of_users,
    a_list_that_cannot_be_read, a_new_file_where_git_keeps_a_list,
)
