"""scm-select among other users, signals, limits and odd characters, for tools/dev/try-tools."""
import contextlib
import json
import os
import select
import shutil
import signal
import stat
import struct
import subprocess
import sys
import threading
import time
import unicodedata

import changed
from choosing.words import printable
from selects import NEW, OLD, data_of, two, type_into
from typed import Typed

NOBODY, A_GROUP = 65534, 12345
LIST, LIST_OF_NEW = "system.posix_acl_access", "system.posix_acl_default"
NOT_ROOT = "the user may not give files away"
OWNER, A_USER, GROUP, MASK, OTHERS, NO_NUMBER = 0x01, 0x02, 0x04, 0x10, 0x20, 0xFFFFFFFF


def access_list(user, group, others, mask):
    """Returns an access list that gives NOBODY `user`, and the group `group`."""
    entries = (OWNER, 6, NO_NUMBER), (A_USER, user, NOBODY), (GROUP, group, NO_NUMBER), (MASK, mask, NO_NUMBER), (OTHERS, others, NO_NUMBER)
    return struct.pack("<I", 2) + b"".join(struct.pack("<HHI", *entry) for entry in entries)


def list_of(path):
    """Returns the access list of a file, or None."""
    with contextlib.suppress(OSError):
        return os.getxattr(path, LIST)
    return None


def give(path, mode=0o640, group=None, rules=None):
    """Gives a file its access. Returns whether the disk keeps access lists, if there is one."""
    os.chown(path, -1, -1 if group is None else group)
    os.chmod(path, mode)
    with contextlib.suppress(OSError):
        if rules:
            os.setxattr(path, LIST, rules)
        return True
    return False


def access_of(path):
    status = os.lstat(path)
    return stat.S_IMODE(status.st_mode), status.st_gid, list_of(path)


def group_and_list_stay(place):
    """A file that is written anew keeps its group and its access list: of two folders, and with -o."""
    if os.geteuid():
        return NOT_ROOT
    rules = access_list(4, 0, 0, 4)
    left, right = place.folder("left", {"a": OLD, "b": OLD}), place.folder("right", {"a": NEW, "b": NEW})
    old, new = two(place)
    # a folder gives its list to what is new in it
    with contextlib.suppress(OSError):
        os.setxattr(right, LIST_OF_NEW, access_list(7, 7, 0, 7))
    if not all(give(path, 0o640, A_GROUP, rules) for path in (right + "/b", new)):
        return "the disk keeps no access lists"
    give(right + "/a", 0o640, A_GROUP)
    before = [access_of(path) for path in (right + "/a", right + "/b", new)]
    ends = [place.type(["scm-select", "-d", left, right], ["c"])[0], type_into(place, ["c"], "-o", new, old, new)[0]]
    after = [access_of(path) for path in (right + "/a", right + "/b", new)]
    return ends == [0, 0] and after == before and data_of(new) == OLD and changed.read(right) == changed.read(left)


def no_more_for_another_group(place):
    """What is new gives its group no more than everybody had: where a source has an access list, or another group; and where the group of
    a file cannot be kept."""
    if os.geteuid() or not shutil.which("setpriv"):
        return NOT_ROOT
    left, right = place.folder("left", {"a": OLD, "b": OLD, "c/d": OLD, "e": OLD, "f": OLD}), place.folder("right", {"f": NEW})
    # one user is shut out by a list, and the group is not what the bits of the mode say
    if not give(left + "/a", rules=access_list(0, 4, 4, 4)) or not give(left + "/b", rules=access_list(6, 0, 0, 6)):
        return "the disk keeps no access lists"
    for path, mode in (("c", 0o770), ("c/d", 0o640), ("e", 0o664)):
        give(os.path.join(left, path), mode, A_GROUP)
    give(right + "/f", 0o640, A_GROUP)
    for path in (place.top, place.temporary, right):
        os.chown(path, NOBODY, NOBODY)
    os.chown(right + "/f", NOBODY, -1)
    for folder, _, names in os.walk(left):
        os.chown(folder, NOBODY, -1)
        for name in names:
            os.chown(os.path.join(folder, name), NOBODY, -1)
    as_nobody = ["setpriv", "--reuid=%d" % NOBODY, "--regid=%d" % NOBODY, "--clear-groups"]
    status, _ = place.type([*as_nobody, "scm-select", "-d", left, right], ["c"])
    found = [access_of(os.path.join(right, path)) for path in ("a", "b", "c", "c/d", "e", "f")]
    return status == 0 and found == [(mode, NOBODY, None) for mode in (0o600, 0o600, 0o700, 0o600, 0o644, 0o600)]


def lists_that_cannot_be_read(place):
    """Where a system says nothing of access lists, what is written is its owner's alone."""
    if not shutil.which("strace"):
        return "there is no strace"
    old, new = two(place)
    left, right = place.folder("left", {"a": OLD, "b": OLD}), place.folder("right", {"a": NEW})
    refused = ["-e", "inject=fgetxattr:error=EPERM", "-e", "inject=fremovexattr:error=EPERM"]
    traced = ["strace", "-o", os.devnull, "-e", "trace=fgetxattr,fremovexattr", *refused, "scm-select"]
    ends = [place.type([*traced, "-d", left, right], ["c"])[0], place.type([*traced, "-o", new, old, new], ["c"])[0]]
    found = [access_of(path)[0] for path in (right + "/a", right + "/b", new)]
    return ends == [0, 0] and found == [0o600] * 3 and data_of(new) == OLD


def shared(place):
    """Returns a folder in which all may put files, and take away their own alone."""
    folder = place.folder("shared")
    os.chmod(folder, 0o1777)
    return folder


def what_another_user_put_there(place):
    """Where all may put files, a link, a file and a pipe of another user are not written to, and such a link leads to no RIGHT; they are
    named. A link of one's own is followed, and one of the folder's owner."""
    if os.geteuid():
        return NOT_ROOT
    folder, private = shared(place), place.folder("private", {"x": OLD})
    old, new = two(place)
    planted = {"link": ("link", private + "/x"), "lost": ("link", private + "/y"), "around": ("link", private), "file": b"theirs\n"}
    changed.write(folder, planted)
    os.mkfifo(folder + "/pipe")
    for name in (*planted, "pipe"):
        os.chown(os.path.join(folder, name), NOBODY, NOBODY, follow_symlinks=False)
    held = os.open(folder + "/pipe", os.O_RDWR)
    ends = []
    for name in ("link", "lost", "around/z", "file", "pipe"):
        path = os.path.join(folder, name)
        status, said, _ = type_into(place, ["a", "c"], "-o", path, old, new)
        ends.append(status == 2 and "%s: it is another user's, in a folder that others may write to\n" % path in said)
    os.close(held)
    said = place.call("scm-select", "-d", place.folder("left"), folder + "/around")
    ends.append(said == (2, "scm-select: %s/around: it is another user's, in a folder that others may write to\n" % folder))
    is_left = changed.read(private) == {"x": OLD} and data_of(folder + "/file") == b"theirs\n"
    os.symlink(private + "/x", folder + "/own")
    ends.append(type_into(place, ["a", "c"], "-o", folder + "/own", old, new)[0] == 0 and data_of(private + "/x") == NEW)
    os.chown(folder, NOBODY, NOBODY)
    ends.append(type_into(place, ["c"], "-o", folder + "/link", old, new)[0] == 0 and data_of(private + "/x") == OLD)
    return all(ends) and is_left


def what_is_read_through_links(place):
    """Where all may put files, a link of another user is not followed to read a file either: not by scm-select, and not by the merge tool. A
    file of theirs is read, and a link of one's own is followed."""
    if os.geteuid():
        return NOT_ROOT
    folder, private = shared(place), place.folder("private", {"x": OLD})
    changed.write(folder, {"link": ("link", private + "/x"), "around": ("link", private), "file": OLD, "own": ("link", private + "/x")})
    for name in "link", "around", "file":
        os.chown(os.path.join(folder, name), NOBODY, NOBODY, follow_symlinks=False)
    old, output = two(place)[0], os.path.join(place.top, "output")
    ends = []
    for name, is_read in (("link", False), ("around/x", False), ("file", True), ("own", True)):
        path = os.path.join(folder, name)
        commands = ["scm-select", path, old], ["scm-select", old, path], *(
            ["gabrosty-merge-tool", *(path if number == turn else old for number in range(3)), output] for turn in range(3)
        )
        refused = "%s: it is another user's, in a folder that others may write to\n" % path
        ends += [(refused in place.call(*command)[1]) != is_read for command in commands]
    return all(ends)


def links_in_a_folder_of_a_group(place):
    """Where a group may put files, and no sticky bit is, a link of another user is followed neither to write nor to read, and a pipe of theirs
    gets nothing; they are named. A file of theirs is replaced, and a link of the folder's owner is followed."""
    if os.geteuid():
        return NOT_ROOT
    folder, private = place.folder("group"), place.folder("private", {"x": OLD, "gabrosty/keys": b"w c\n"})
    old, new = two(place)
    changed.write(folder, {"link": ("link", private + "/x"), "around": ("link", private), "file": OLD})
    os.mkfifo(folder + "/pipe")
    for name in os.listdir(folder):
        os.chown(os.path.join(folder, name), NOBODY, NOBODY, follow_symlinks=False)
    held, ends = os.open(folder + "/pipe", os.O_RDWR | os.O_NONBLOCK), []
    for mode in 0o775, 0o757:
        os.chmod(folder, mode)
        refused = "%s: it is another user's, in a folder that others may write to\n"
        for name in "link", "around/x", "around/lost", "pipe":
            path = os.path.join(folder, name)
            ends.append(place.call("scm-select", "-o", path, old, new) == (2, "scm-select: " + refused % path))
            ends.append(refused % path in place.call("gabrosty-merge-tool", old, old, new, path)[1])
        for name in "link", "around/x":
            path = os.path.join(folder, name)
            ends += [refused % path in place.call(*words)[1] for words in (["scm-select", path, new], ["gabrosty-merge-tool", path, old, new, old])]
        for words in ["-d", place.folder("left"), folder + "/around"], ["-d", folder + "/around", place.folder("left")]:
            ends.append(place.call("scm-select", *words) == (2, "scm-select: " + refused % (folder + "/around")))
    is_left = data_of(private + "/x") == OLD and not select.select([held], [], [], 0)[0]
    os.close(held)
    ends.append(type_into(place, ["a", "c"], "-o", folder + "/file", old, new)[0] == 0 and data_of(folder + "/file") == NEW)
    os.chown(folder, NOBODY, NOBODY)
    ends.append(type_into(place, ["a", "c"], "-o", folder + "/link", old, new)[0] == 0 and data_of(private + "/x") == NEW)
    return all(ends) and is_left


def folders_of_another_user(place):
    """Where others may put folders, with a sticky bit or without one, a link in a folder of another user's, or below it, is followed neither to
    write nor to read, and a pipe there gets nothing: it may be in the place of a folder of the user's. A file there is replaced. A link there of
    one's own is followed, and one in a folder of another user that nobody else could put there."""
    if os.geteuid():
        return NOT_ROOT
    private, around, ends = place.folder("private", {"x": OLD}), place.folder("around"), []
    old, new = two(place)
    theirs = {"link": ("link", private + "/x"), "around": ("link", private), "up": ("link", "."), "below/link": ("link", private + "/x"), "file": OLD}
    mine = place.folder("around/mine", theirs)
    os.mkfifo(mine + "/pipe")
    for path in mine, mine + "/below", *(os.path.join(mine, name) for name in (*theirs, "pipe")):
        os.chown(path, NOBODY, NOBODY, follow_symlinks=False)
    held = os.open(mine + "/pipe", os.O_RDWR | os.O_NONBLOCK)
    for mode in 0o775, 0o1777:
        os.chmod(around, mode)
        for name in "link", "around/x", "around/lost", "up/link", "below/link", "below/../link", "pipe":
            path = os.path.join(mine, name)
            refused = "%s: it is another user's, in a folder that others may write to\n" % path
            ends.append(place.call("scm-select", "-o", path, old, new) == (2, "scm-select: " + refused))
            ends += [refused in place.call("gabrosty-merge-tool", old, old, new, path)[1], name == "pipe" or refused in place.call("scm-select", path, new)[1]]
        path = mine + "/around"
        refused = "scm-select: %s: it is another user's, in a folder that others may write to\n" % path
        ends += [place.call("scm-select", "-d", *words) == (2, refused) for words in ([place.folder("left"), path], [path, place.folder("left")])]
        # the user may have gone there by a name that was the user's
        for folder, name in (mine, "link"), (mine + "/below", "link"), (mine + "/below", "../link"):
            refused = "scm-select: %s: it is another user's, in a folder that others may write to\n" % name
            ends.append(place.call("scm-select", "-o", name, old, new, folder=folder) == (2, refused))
    is_left = data_of(private + "/x") == OLD and os.listdir(private) == ["x"] and not select.select([held], [], [], 0)[0]
    os.close(held)
    ends.append(type_into(place, ["a", "c"], "-o", mine + "/file", old, new)[0] == 0 and data_of(mine + "/file") == NEW)
    os.symlink(private + "/x", mine + "/own")
    ends.append(type_into(place, ["a", "c"], "-o", mine + "/own", old, new)[0] == 0 and data_of(private + "/x") == NEW)
    os.chmod(around, 0o755)
    ends.append(type_into(place, ["c"], "-o", mine + "/up/link", old, new)[0] == 0 and data_of(private + "/x") == OLD)
    return all(ends) and is_left


def second_names_of_links(place):
    """In a folder with a sticky bit that all may write to, a link or a pipe of the user's that has a second name is not followed or written
    to: another user may have given it that name."""
    folder, private = shared(place), place.folder("private", {"x": OLD})
    old, new = two(place)
    os.symlink(private + "/x", place.top + "/own")
    os.mkfifo(place.top + "/pipe")
    held, ends = os.open(place.top + "/pipe", os.O_RDWR | os.O_NONBLOCK), []
    for name in "own", "pipe":
        path = os.path.join(folder, name)
        os.link(os.path.join(place.top, name), path, follow_symlinks=False)
        ends.append(place.call("scm-select", "-o", path, old, new) == (2, "scm-select: %s: it is another user's, in a folder that others may write to\n" % path))
    is_left = data_of(private + "/x") == OLD and not select.select([held], [], [], 0)[0]
    os.close(held)
    os.unlink(place.top + "/own")
    return all(ends) and is_left and type_into(place, ["a", "c"], "-o", folder + "/own", old, new)[0] == 0 and data_of(private + "/x") == NEW


def a_pipe_that_comes_when_a_file_was_found(place):
    """A pipe that takes the place of a file which is named to be read, when that was looked at, is named, and nothing waits for it."""
    if not shutil.which("strace"):
        return "there is no strace"
    old, new = two(place)
    os.mkfifo(place.top + "/fifo")
    slow = ["timeout", "20", "strace", "-o", os.devnull, "-P", "old", "-e", "trace=openat", "-e", "inject=openat:delay_enter=3000000:when=1"]
    how = {"cwd": place.top, "env": {**os.environ, **place.environment}, "stderr": subprocess.PIPE, "start_new_session": True}
    merging = subprocess.Popen([*slow, "gabrosty-merge-tool", new, "old", new, "output"], **how)
    time.sleep(1.5)
    os.rename(place.top + "/fifo", old)
    said = merging.communicate()[1].decode()
    return merging.returncode == 2 and "old: it changed meanwhile\n" in said and not os.path.exists(place.top + "/output")


def a_link_that_is_exchanged(place):
    """In a folder of a group, another user's link that takes the place of the user's own, just when that was looked at, is not followed."""
    if os.geteuid() or not shutil.which("strace"):
        return NOT_ROOT
    private, mine, folder = (place.folder(name, {"x": OLD}) for name in ("private", "mine", "group"))
    old, new = two(place)
    os.chmod(folder, 0o775)
    changed.write(folder, {"out": ("link", mine), "theirs": ("link", private)})
    os.chown(folder + "/theirs", NOBODY, NOBODY, follow_symlinks=False)
    slow = ["strace", "-f", "-o", os.devnull, "-e", "trace=readlinkat", "-e", "inject=readlinkat:delay_enter=6000000:when=1"]
    merging = subprocess.Popen([*slow, "gabrosty-merge-tool", old, new, old, folder + "/out/x"], env={**os.environ, **place.environment})
    time.sleep(3)
    os.rename(folder + "/theirs", folder + "/out")
    return merging.wait() == 0 and data_of(private + "/x") == OLD and data_of(mine + "/x") == NEW


def what_takes_the_place_of_output(place):
    """OUTPUT of a merge, which its owner alone may read, stays so where another user puts a file of the same owner in its place that all may
    read. A file with the permissions of before in its place keeps them."""
    if os.geteuid():
        return NOT_ROOT
    versions = place.folder("versions", {"base": b"a\nb\n", "ours": b"a\none\n", "theirs": b"a\ntwo\n"})
    found = []
    for number, (before, behind) in enumerate(((0o600, 0o644), (0o755, 0o755))):
        folder = place.folder("output-%d" % number, {"output": b"", "other": b"x\n"})
        for path, mode in (folder + "/output", before), (folder + "/other", behind), *((versions + "/" + name, 0o600) for name in os.listdir(versions)):
            os.chmod(path, mode)
        os.chown(folder, NOBODY, NOBODY)
        words = ["gabrosty-merge-tool", *(os.path.join(versions, name) for name in ("base", "ours", "theirs")), folder + "/output"]
        status, _ = place.type(words, [" ", "c"], before_last=lambda at=folder: os.rename(at + "/other", at + "/output"))
        found.append((status, os.stat(folder + "/output").st_mode & 0o777))
    return found == [(0, 0o600), (0, 0o755)]


def what_comes_to_the_place_of_an_output(place):
    """A link that another user puts in the place of the file of -o, or of ACCEPTED, while the user chooses, is not followed, and neither is one in
    the place of its folder: also without a sticky bit. A file of theirs there stays. All of it is named."""
    if os.geteuid():
        return NOT_ROOT
    private = place.folder("private", {"x": b"x\n"})
    handed, ends = os.path.join(place.top, "handed"), []
    changed.write_file(handed, records(("path", "f"), ("old-mode", "100644"), ("old", OLD.decode()), ("new-mode", "100644"), ("new", NEW.decode())))
    for commands in (["-o", *two(place)], ["--changes", handed]):
        for number, (what, was_there) in enumerate(((what, it) for what in ("link", "file", "folder") for it in (True, False))):
            folder = place.folder("group-%d" % number, {"out/x": b""} if was_there else {"out/other": b""})
            output = folder + "/out/x"
            for path in folder, folder + "/out":
                os.chmod(path, 0o777)

            def exchange(at=folder, what=what):
                """Does what another user may do in a folder that all may write to."""
                if what == "folder":
                    os.rename(at + "/out", at + "/moved")
                    os.symlink(private, at + "/out")
                    return
                with contextlib.suppress(FileNotFoundError):
                    os.unlink(at + "/out/x")
                os.symlink(private + "/x", at + "/out/x") if what == "link" else changed.write_file(at + "/out/x", b"theirs\n")
                os.chown(at + "/out/x", NOBODY, NOBODY, follow_symlinks=False)

            words = ["scm-select", "-o", output, *commands[1:]] if commands[0] == "-o" else ["scm-select", *commands, output]
            status, said = place.type(words, ["a", "c"], before_last=exchange)
            if what == "folder":
                ends.append(status == 0 and bool(changed.read(folder + "/moved").get("x")))
            else:
                left = os.readlink(output) if what == "link" else data_of(output)
                ends.append(status == 2 and "%s: it changed meanwhile" % output in said and left in (private + "/x", b"theirs\n"))
            ends.append(changed.read(private) == {"x": b"x\n"})
            place.forget_marks()
    return all(ends)


def keys_of_another_home(place):
    """Keys in a HOME of another user, who could have `q` accept, are not taken, but named; nor are others, to which a link of theirs leads, and
    nothing waits for a pipe of theirs. One's own are taken there."""
    if os.geteuid():
        return NOT_ROOT
    home = place.folder("home", {".config/gabrosty/keys": b"w c\n"})
    keys, output, ends = home + "/.config/gabrosty/keys", os.path.join(place.top, "output"), []
    for owner in NOBODY, 0:
        os.chown(keys, owner, -1)
        more = {"SELECT_LAYER": "on", "HOME": home, "XDG_CONFIG_HOME": ""}
        ends.append(place.type(["scm-select", "-o", output, *two(place)], ["a", "w"] if owner == 0 else [], **more))
    is_taken = ends.pop()[0] == 0 and data_of(output) == NEW
    private = place.folder("private", {"keys": b"w c\n"})
    for kind in "link", "around", "pipe", "name":
        home = place.folder("home-" + kind, {} if kind == "around" else {".config/gabrosty/other": b""})
        theirs = home + ("/.config" if kind == "around" else "/.config/gabrosty/keys")
        if kind == "pipe":
            os.mkfifo(theirs)
        elif kind == "name":
            os.link(private + "/keys", theirs)
        else:
            os.makedirs(private + "/gabrosty", exist_ok=True)
            changed.write_file(private + "/gabrosty/keys", b"w c\n")
            os.symlink(private + ("" if kind == "around" else "/keys"), theirs)
        for path in ([] if kind == "name" else [theirs]) + [home, *([] if kind == "around" else [os.path.dirname(theirs)])]:
            os.chown(path, NOBODY, NOBODY, follow_symlinks=False)
        ends.append(place.type(["timeout", "30", "scm-select", "-o", output, *two(place)], [], **{**more, "HOME": home}))
    return is_taken and all(status == 2 and "/.config/gabrosty/keys: Operation not permitted" in said for status, said in ends)


def keys_through_links(place):
    """Where all may put files, a link of another user is not followed to read the keys that SELECT_KEYS names, whose lines an error would
    show. One's own is followed."""
    if os.geteuid():
        return NOT_ROOT
    folder, private = shared(place), place.folder("private", {"keys": b"w c\n", "secret": b"secret\n"})
    changed.write(folder, {"link": ("link", private + "/secret"), "own": ("link", private + "/keys")})
    os.chown(folder + "/link", NOBODY, NOBODY, follow_symlinks=False)
    more = {"SELECT_LAYER": "on", "SELECT_KEYS": folder + "/link"}
    status, said = place.type(["scm-select", *two(place)], [], **more)
    refused = "%s: it is another user's, in a folder that others may write to" % more["SELECT_KEYS"]
    is_refused = status == 2 and refused in said and "secret" not in said
    output = os.path.join(place.top, "output")
    status, _ = place.type(["scm-select", "-o", output, *two(place)], ["a", "w"], **{**more, "SELECT_KEYS": folder + "/own"})
    return is_refused and status == 0 and data_of(output) == NEW


def signals_while_it_writes(place):
    """A signal that comes while a file is written waits until it is in its place: nothing is left beside it. A limit of the size of
    files is an error that is named."""
    if not shutil.which("strace"):
        return "there is no strace"
    old, new = two(place, OLD, NEW + b"x\n" * 20_000)
    output = place.folder("output")
    path, ends = output + "/x", []
    for name in ("TERM", "HUP", "INT"):
        traced = ["strace", "-o", os.devnull, "-e", "trace=fsync", "-e", "inject=fsync:signal=SIG%s" % name]
        status, _ = place.type([*traced, "scm-select", "-o", path, old, new], ["a", "c"])
        ends.append(status == -signal.Signals["SIG" + name] and data_of(path) == data_of(new) and os.listdir(output) == ["x"])
        os.unlink(path)
    limited = ["sh", "-c", 'ulimit -f 8; exec scm-select "$@"', "sh"]
    status, said = place.type([*limited, "-o", path, old, new], ["a", "c"])
    ends.append(status == 2 and "scm-select: %s: File too large\n" % path in said and os.listdir(output) == [])
    left, right = place.folder("left", {"a": data_of(new)}), place.folder("right", {"a": OLD})
    status, said = place.type([*limited, "-d", left, right], ["c"])
    ends.append(status == 2 and "scm-select: a: File too large: nothing was written\n" in said)
    return all(ends) and changed.read(right) == {"a": OLD}


def a_signal_before_the_first_step(place):
    """A signal that comes while new files are made ends the program before anything is put in place, and nothing is left. One that is
    ignored, as under nohup, ends nothing."""
    if not shutil.which("strace"):
        return "there is no strace"
    old, new = ({"%d" % number: data for number in range(5)} for data in (OLD, NEW))
    left, right = place.folder("left", old), place.folder("right", new)
    ends = []
    for name, ignored, wanted in (("TERM", "", (-signal.SIGTERM, new)), ("HUP", "trap '' HUP; ", (0, old))):
        traced = ["strace", "-o", os.devnull, "-e", "trace=fsync", "-e", "inject=fsync:signal=SIG%s:when=2" % name]
        command = ["sh", "-c", ignored + 'exec "$@"', "sh", *traced, "scm-select", "-d", left, right]
        ends.append((place.type(command, ["c"])[0], changed.read(right)) == wanted)
    return all(ends)


def slowly(place, files, change):
    """Has `change` be called while a new file of a folder is written, which takes two seconds. Returns the status, what was said, and
    RIGHT."""
    left, right = place.folder("left", dict.fromkeys(files, OLD)), place.folder("right", dict.fromkeys(files, NEW))
    slow = ["strace", "-o", os.devnull, "-e", "trace=fsync", "-e", "inject=fsync:delay_enter=2000000:when=1"]

    def wait():
        end = time.monotonic() + 30
        while not any(name.startswith(".choosing-") and os.listdir(os.path.join(right, name)) for name in os.listdir(right)):
            if time.monotonic() > end:
                return
            time.sleep(0.01)
        change(right)

    thread = threading.Thread(target=wait)
    status, said = place.type([*slow, "scm-select", "-d", left, right], ["c"], before_last=thread.start)
    thread.join()
    return status, said, right


def write_unseen(path, data):
    """Writes as many bytes as a file has, and gives it the time that it had. Only the system notes another one."""
    before = os.stat(path)
    with open(path, "r+b") as file:
        file.write(data)
    os.utime(path, ns=(before.st_atime_ns, before.st_mtime_ns))


def what_happens_between(place):
    """While a new file is written, another program writes to the old one and gives it its time back, or gives it other permissions: it
    changed meanwhile. What only got another name, or a new time, is replaced."""
    if not shutil.which("strace"):
        return "there is no strace"
    other = NEW.replace(b"o", b"0")
    ends = []
    for change in (lambda right: write_unseen(right + "/a", other), lambda right: os.chmod(right + "/a", 0o600)):
        status, said, right = slowly(place, ["a"], change)
        ends.append(status == 2 and "scm-select: a: it changed meanwhile: nothing was written\n" in said and os.listdir(right) == ["a"])
        ends.append(data_of(right + "/a") in (NEW, other))
    for change in (lambda right: os.utime(right + "/a"), lambda right: os.link(right + "/a", os.path.join(place.top, "other"))):
        status, _, right = slowly(place, ["a"], change)
        ends.append(status == 0 and changed.read(right) == {"a": OLD})
    return all(ends)


def names_of_one_file(place):
    """Two names of one file are both replaced: what the first rename notes in the file is no change of the second one."""
    left, right = place.folder("left", {"b": OLD, "c": OLD}), place.folder("right", {"a": NEW})
    for name in ("b", "c"):
        os.link(right + "/a", os.path.join(right, name))
    return place.type(["scm-select", "-d", left, right], ["c"])[0] == 0 and changed.read(right) == {"b": OLD, "c": OLD}


def a_folder_that_is_moved(place):
    """A folder that is moved away while a new file is written is not written to: the way is gone once more from RIGHT on."""
    if not shutil.which("strace"):
        return "there is no strace"
    outside = place.folder("outside")
    status, said, right = slowly(place, ["d/a"], lambda right: os.rename(right + "/d", outside + "/d"))
    is_named = status == 2 and "scm-select: d/a: it changed meanwhile: nothing was written\n" in said
    return is_named and changed.read(outside) == {"d/a": NEW} and os.listdir(right) == []


def what_a_new_folder_has(place):
    """A new folder has no list, also in a folder that gives one to what is new in it: it gives nobody more than that of LEFT."""
    left, right = place.folder("left", {"d/e/a": OLD}), place.folder("right", {"b": NEW})
    for name in "d", "d/e":
        os.chmod(os.path.join(left, name), 0o750)
    try:
        os.setxattr(right, LIST_OF_NEW, access_list(7, 7, 0, 7))
    except OSError:
        return "the disk keeps no access lists"
    status, _ = place.type(["scm-select", "-d", left, right], ["c"])
    found = [os.path.join(right, name) for name in ("d", "d/e")]
    lists = [name for path in found for name in os.listxattr(path) if name in (LIST, LIST_OF_NEW)]
    return status == 0 and [access_of(path)[0] for path in found] == [0o750] * 2 and not lists


def exchanged_when_made(place, prefix, other, files):
    """Has a folder of RIGHT whose name begins with `prefix` be exchanged for the folder `other` just when it was made. Returns the
    status, what was said, and the permissions that the other folder had when a file lay in it, or in the end."""
    left, right = place.folder("left", files), place.folder("right", {"b": NEW})
    number = "1" if prefix == ".choosing-" else "2"
    slow = ["-e", "inject=mkdirat:delay_exit=1500000:when=" + number, "-e", "inject=fsync:delay_enter=1500000"]
    traced = ["strace", "-o", os.devnull, "-e", "trace=mkdirat,fsync", *slow, "scm-select", "-d", left, right]
    seen = []

    def exchange():
        end = time.monotonic() + 30
        while not any(name.startswith(prefix) for name in os.listdir(right)) and time.monotonic() < end:
            time.sleep(0.01)
        name = os.path.join(right, next(name for name in os.listdir(right) if name.startswith(prefix)))
        os.rmdir(name)
        os.rename(other, name)
        while os.path.isdir(name) and not os.listdir(name) and time.monotonic() < end:
            time.sleep(0.01)
        seen.append(stat.S_IMODE(os.stat(name).st_mode))

    thread = threading.Thread(target=exchange)
    status, said = place.type(traced, ["c"], before_last=thread.start)
    thread.join()
    return status, said, *seen


def another_folder_where_one_was_made(place):
    """Where another folder of the user's has the place of one that was just made, its permissions stay if something is in it, and nobody
    else may read what comes and goes in it."""
    if not shutil.which("strace"):
        return "there is no strace"
    private, public = place.folder("private", {"x": NEW}), place.folder("public")
    os.chmod(private, 0o700)
    status, said, seen = exchanged_when_made(place, "d", private, {"d/a": OLD, "b": NEW})
    is_left = status == 2 and seen == 0o700 and "scm-select: d/a: it changed meanwhile: nothing was written\n" in said
    shutil.rmtree(place.top + "/right")
    return is_left and exchanged_when_made(place, ".choosing-", public, {"d/a": OLD, "b": NEW})[::2] == (0, 0o700)


def make_deep(top, depth, data):
    """Makes a file `depth` folders deep."""
    folder = os.open(top, os.O_RDONLY)
    for _ in range(depth):
        os.mkdir("d", dir_fd=folder)
        below = os.open("d", os.O_RDONLY, dir_fd=folder)
        os.close(folder)
        folder = below
    with open(os.open("a", os.O_WRONLY | os.O_CREAT, dir_fd=folder), "wb") as file:
        file.write(data)
    os.close(folder)


def a_deeper_tree(place):
    """2,500 folders are made, and taken away, in a time that grows as their number does; more than 4,096 are refused by name, in a line of
    some hundred characters."""
    deep, flat, right = place.folder("deep"), place.folder("flat", {"b": OLD}), place.folder("right", {"b": NEW})
    ends = []
    try:
        make_deep(deep, 2500, OLD)
        # the limit is of the processor's time: other tries run beside this one
        for left, wanted in ((deep, ["d"]), (flat, ["b"])):
            status, _ = place.type(["sh", "-c", 'ulimit -t 6; exec scm-select -d "$@"', "sh", left, right], ["c"])
            ends.append(status == 0 and os.listdir(right) == wanted)
        make_deep(flat, 4100, OLD)
        status, said = place.call("scm-select", "-d", flat, right)
        ends.append(status == 2 and said.endswith(": it lies in more than 4,096 folders\n") and len(said) < 700)
    finally:
        subprocess.run(["rm", "-rf", deep, flat, right])
    return ends == [True] * 3


def many_small_files(place):
    """A file takes the room that it has: 300 small files are shown and written in 150 MB of address space."""
    left, right = (place.folder(name, {"%04d" % number: data for number in range(1000)}) for name, data in (("left", OLD), ("right", NEW)))
    limited = ["sh", "-c", 'ulimit -v 150000; exec scm-select -d "$@"', "sh", left, right]
    return place.type(limited, ["c"])[0] == 0 and changed.read(right) == changed.read(left)


def written_out(c):
    """Returns a character as scm-select shows it, where the programs in Python write it out or do not."""
    code = ord(c)
    return c if printable(c) == c else "\\x%02x" % code if code < 0x80 else "\\u%04x" % code if code < 0x10000 else "\\U%08x" % code


def characters_of_both_lists(place):
    """A message writes out the characters that the programs in Python write out, of all that Unicode has assigned."""
    every = [chr(code) for code in range(1, 0x110000) if unicodedata.category(chr(code)) not in ("Cn", "Cs")]
    ends = []
    for begun in range(0, len(every), 25_000):
        part = every[begun : begun + 25_000]
        status, said = place.call("env", "SELECT_THEME=" + "".join(part), "scm-select", "a", "b")
        wanted = "scm-select: SELECT_THEME is %s: write dark, light, sixteen or none\n" % "".join(map(written_out, part))
        ends.append((status, said) == (2, wanted))
    return all(ends) and len(every) > 200_000


# a line separator, a tag, an annotation, a control of one byte, a mark of the reading order, and a blank
UNSEEN = "\u2028", "\U000e0041", "\ufff9", "\x9b", "\u202e", "\u00a0"


def records(*pairs):
    return b"".join(b"%s %d\n%s\n" % (word.encode(), len(it.encode()), it.encode()) for word, it in pairs)


def what_another_program_hands_in(place):
    """Paths, notes and words that another program hands in are shown with all written out that is not seen."""
    changes, text = os.path.join(place.top, "changes"), "a%sb" % "".join(UNSEEN)
    file = ("path", text), ("old-path", "o" + text), ("old-mode", "100644"), ("new-mode", "100644")
    words = ("old-words", "w" + text), ("new-words", "v" + text), ("note", "n" + text)
    changed.write_file(changes, records(*file, *words))
    typed = Typed(["scm-select", "--changes", changes, os.path.join(place.top, "accepted")], 400, 30, place.environment, place.top)
    typed.press("shift-F")
    shown = typed.screen().decode()
    typed.press("q")
    wanted = text.translate({ord(c): written_out(c) for c in UNSEEN})
    is_shown = all(before + wanted in shown for before in ("", "o", "w", "v", "n"))
    # one no-break space is between the path and what the file is
    return typed.end() in (0, 1) and is_shown and not any(c in typed.seen.decode() for c in UNSEEN[:-1]) and shown.count("\u00a0") <= 1


def marks_that_another_would_read(place):
    """Where all may put files, marks and messages of changes that are handed in are not kept in another user's file, nor where a link of
    theirs leads to, while the user chooses; nor in a file of one's own that has a second name, which they could give it. In one's own file they are."""
    if os.geteuid():
        return NOT_ROOT
    folder, changes, seen = shared(place), os.path.join(place.top, "changes"), []
    modes = ("old-mode", "100644"), ("new-mode", "100644")
    changed.write_file(changes, records(("message", "private"), ("path", "a"), *modes, ("old", "1\n"), ("new", "2\n")))
    changed.write(folder, {"theirs": b"", "own": b"", "link": ("link", place.folder("private", {"x": b""}) + "/x")})
    for name in "theirs", "link":
        os.chown(os.path.join(folder, name), NOBODY, NOBODY, follow_symlinks=False)
    os.link(os.path.join(place.folder("other", {"x": b""}), "x"), folder + "/second")
    for name in "theirs", "link", "second", "own":
        path = os.path.join(folder, name)
        typed = Typed(["scm-select", "--changes", changes, path], 60, 20, place.environment, place.top)
        typed.press("a")
        time.sleep(1)
        seen.append(data_of(path))
        typed.press("q")
        typed.write(b"\r")
        typed.end()
    return seen[:3] == [b""] * 3 and b"private" in seen[3] and data_of(folder + "/own") == b""


def json_for_a_terminal(place):
    """With --json no character that is not seen reaches the terminal, or a reader that takes it for a line end: it is a number. The
    texts are the same."""
    text = "1%s2\n" % "".join(UNSEEN)
    old, new = two(place, b"", text.encode())
    status, _, printed = type_into(place, ["a", "c"], "--json", old, new)
    lines = printed.decode().split("\n")
    section = json.loads(lines[1])["files"][0]["sections"]
    is_same = text in json.dumps(section, ensure_ascii=False) or text[:-1] in json.dumps(section, ensure_ascii=False)
    side = next(line for line in lines if line.startswith("selected "))
    is_same = is_same and json.loads(side.split(" ", 3)[3]) == text
    return status == 0 and is_same and not any(c in printed.decode() for c in UNSEEN)


def folders_in_one_another(place):
    """LEFT in RIGHT, RIGHT in LEFT, and one folder twice are named, also by a link. So is a file whose name ends in a slash."""
    top = place.folder("top", {"below/a": OLD, "b": NEW})
    os.symlink("top", os.path.join(place.top, "link"))
    link, below = os.path.join(place.top, "link"), top + "/below"
    said = [place.call("scm-select", "-d", *pair) for pair in ((top, link), (below, link), (link, below))]
    wanted = link + ": it is the same folder as LEFT", below + ": it lies in RIGHT", below + ": it lies in LEFT"
    old, new = two(place)
    ends = [said == [(2, "scm-select: %s\n" % words) for words in wanted]]
    for name, why in (("zz/", "No such file or directory"), ("old/", "Not a directory"), ("top/", "Is a directory")):
        status, words, _ = type_into(place, ["c"], "-o", os.path.join(place.top, name), old, new)
        ends.append(status == 2 and "/%s: %s\n" % (name, why) in words)
    return all(ends) and place.has_only("top", "link", "old", "new", "printed") and data_of(old) == OLD


# a thread gets a signal while a run goes on, and its handler has not written yet when the run has ended
LATE = """
import os, pty, signal, sys, threading, time
import scm
user, terminal = pty.openpty()
sleeper = threading.Thread(target=time.sleep, args=(15,), daemon=True)
sleeper.start()

def use():
    with open(os.devnull, "wb", buffering=0) as nothing:
        nothing.write(b"the first write of each thread takes long")
    time.sleep(1.5)
    signal.pthread_kill(sleeper.ident, signal.SIGWINCH)
    time.sleep(0.5)
    os.write(user, b"q")

def read():
    while True:
        os.read(user, 65536)

for each in use, read:
    threading.Thread(target=each, daemon=True).start()
with scm.Session() as session:
    session.add_file("a", 0o100644)
    session.begin(80, 24)
    session.run(terminal)
files = [open(os.path.join(sys.argv[1], str(number)), "wb") for number in range(9)]
time.sleep(4)
os._exit(any(os.fstat(file.fileno()).st_size for file in files))
"""


def a_handler_that_comes_late(place):
    """What a handler of a run has to write, when the run has ended meanwhile, goes to no file that the program opened since."""
    libraries = os.path.join(place.prefix, "lib")
    if not shutil.which("strace") or not os.path.exists(os.path.join(libraries, "libgabrosty.so")):
        return "there is no strace or no shared library"
    slow = ["strace", "-f", "-o", os.devnull, "-e", "trace=write", "-e", "inject=write:delay_enter=3000000:when=1"]
    python = ["env", "PYTHONPATH=" + os.path.join(libraries, "gabrosty"), sys.executable, "-c", LATE, place.folder("files")]
    return place.call(*slow, *python) == (0, "")


ALL = (
    group_and_list_stay, no_more_for_another_group, lists_that_cannot_be_read, what_another_user_put_there, what_is_read_through_links, links_in_a_folder_of_a_group, folders_of_another_user, second_names_of_links,
    a_pipe_that_comes_when_a_file_was_found, a_link_that_is_exchanged, what_takes_the_place_of_output, what_comes_to_the_place_of_an_output, keys_of_another_home, keys_through_links,
    signals_while_it_writes, a_signal_before_the_first_step, what_happens_between, names_of_one_file, a_folder_that_is_moved,
    what_a_new_folder_has, another_folder_where_one_was_made, a_deeper_tree, many_small_files, characters_of_both_lists,
    what_another_program_hands_in, marks_that_another_would_read, json_for_a_terminal, folders_in_one_another, a_handler_that_comes_late,
)
